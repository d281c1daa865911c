//! Workloads and their text.

use crate::text::{lines, number, numbered};

#[derive(Clone, Copy, PartialEq, Eq)]
pub enum Kind {
    Insert,
    Remove,
    Search,
}

#[derive(Clone, Copy, PartialEq, Eq)]
pub struct Call {
    pub kind: Kind,
    pub key: u64,
}

/// The calls of each caller, by phases. All callers have as many phases, at least one.
pub struct Workload {
    pub callers: Vec<Vec<Vec<Call>>>,
}

impl Workload {
    pub fn phases(&self) -> usize {
        self.callers.first().map_or(0, Vec::len)
    }
}

/// The call that two words write.
pub fn call_of(letter: &str, key: &str) -> Option<Call> {
    let kind = match letter {
        "i" => Kind::Insert,
        "r" => Kind::Remove,
        "s" => Kind::Search,
        _ => return None,
    };
    Some(Call { kind, key: number(key)? })
}

/// Reads one line behind the first two.
fn read_line(line: &str, callers: &mut Vec<Vec<Vec<Call>>>) -> Option<()> {
    if let Some(caller) = numbered(line, "caller") {
        callers.push(vec![Vec::new()]);
        return (caller + 1 == callers.len() as u64).then_some(());
    }
    let phases = callers.last_mut()?;
    if line == "phase" {
        phases.push(Vec::new());
    } else {
        let (letter, key) = line.split_once(' ')?;
        phases.last_mut()?.push(call_of(letter, key)?);
    }
    Some(())
}

pub fn read_workload(text: &str) -> Result<Workload, String> {
    let lines = lines(text)?;
    let [first, second, rest @ .., last] = lines.as_slice() else {
        return Err("too few lines".to_string());
    };
    if !["setbench 1", "setbench 2"].contains(first) || *last != "end" {
        return Err("another first or last line".to_string());
    }
    let mut callers = Vec::new();
    for (at, line) in rest.iter().enumerate() {
        read_line(line, &mut callers).ok_or_else(|| format!("line {}: {line}", at + 3))?;
    }
    let workload = Workload { callers };
    let are_all = numbered(second, "callers") == Some(workload.callers.len() as u64);
    let are_even = workload.callers.iter().all(|phases| phases.len() == workload.phases());
    if are_all && are_even {
        Ok(workload)
    } else {
        Err("another number of callers, or of phases of one".to_string())
    }
}
