//! Reports and their text.

use crate::text::{lines, number, numbered};
use crate::workload::{call_of, Call};

#[derive(Clone, Copy, PartialEq, Eq)]
pub enum Reply {
    Yes,
    No,
    Full,
}

/// A call with its reply.
#[derive(Clone, Copy)]
pub struct Answered {
    pub call: Call,
    pub reply: Reply,
}

pub struct Counts {
    pub drawn: u64,
    pub reused: u64,
    pub retired: u64,
    pub freed: u64,
    pub limbo: u64,
    pub free: u64,
    pub spare: u64,
    pub spent: u64,
}

pub struct Report {
    pub set: String,
    pub reclaimer: String,
    pub callers: u64,
    pub calls: u64,
    /// What each caller called and was told.
    pub answered: Vec<Vec<Answered>>,
    pub size: u64,
    pub sum: u64,
    pub counts: Counts,
}

/// The values of a line of names with values, where it has these names in this order.
fn values<'a, const N: usize>(line: &'a str, names: [&str; N]) -> Option<[&'a str; N]> {
    let words: Vec<&str> = line.split(' ').collect();
    if words.len() != 2 * N || !names.iter().enumerate().all(|(at, name)| words[2 * at] == *name) {
        return None;
    }
    Some(std::array::from_fn(|at| words[2 * at + 1]))
}

fn answered_of(line: &str) -> Option<Answered> {
    let (call, reply) = line.rsplit_once(' ')?;
    let (letter, key) = call.split_once(' ')?;
    let reply = match reply {
        "yes" => Reply::Yes,
        "no" => Reply::No,
        "full" => Reply::Full,
        _ => return None,
    };
    Some(Answered { call: call_of(letter, key)?, reply })
}

fn counts_of(line: &str) -> Option<Counts> {
    let names = ["drawn", "reused", "retired", "freed", "limbo", "free", "spare", "spent"];
    let mut numbers = [0; 8];
    for (value, digits) in numbers.iter_mut().zip(values(line.strip_prefix("records ")?, names)?) {
        *value = number(digits)?;
    }
    let [drawn, reused, retired, freed, limbo, free, spare, spent] = numbers;
    Some(Counts { drawn, reused, retired, freed, limbo, free, spare, spent })
}

/// Reads one line between the first and the last two.
fn read_line(line: &str, answered: &mut Vec<Vec<Answered>>) -> Option<()> {
    if let Some(caller) = numbered(line, "caller") {
        answered.push(Vec::new());
        return (caller + 1 == answered.len() as u64).then_some(());
    }
    answered.last_mut()?.push(answered_of(line)?);
    Some(())
}

pub fn read_report(text: &str) -> Result<Report, String> {
    let lines = lines(text)?;
    let [first, rest @ .., ends, last] = lines.as_slice() else {
        return Err("too few lines".to_string());
    };
    let bad = |line: &str| format!("no line of a report: {line}");
    let names = ["set", "reclaimer", "callers", "calls"];
    let [set, reclaimer, callers, calls] = values(first, names).ok_or_else(|| bad(first))?;
    let [size, sum] = values(ends, ["size", "sum"]).ok_or_else(|| bad(ends))?;
    let counts = counts_of(last).ok_or_else(|| bad(last))?;
    let mut answered = Vec::new();
    for line in rest {
        read_line(line, &mut answered).ok_or_else(|| bad(line))?;
    }
    Ok(Report {
        set: set.to_string(),
        reclaimer: reclaimer.to_string(),
        callers: number(callers).ok_or_else(|| bad(first))?,
        calls: number(calls).ok_or_else(|| bad(first))?,
        answered,
        size: number(size).ok_or_else(|| bad(ends))?,
        sum: number(sum).ok_or_else(|| bad(ends))?,
        counts,
    })
}
