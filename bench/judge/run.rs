//! A run: the workload's calls with the report's replies, and what the replies alone say of the whole.

use crate::report::{Answered, Reply, Report};
use crate::workload::{Kind, Workload};
use std::collections::BTreeSet;

#[derive(Clone, Copy, PartialEq, Eq)]
pub enum Set {
    Plain,
    Michael,
}

/// Whether records come back.
#[derive(Clone, Copy, PartialEq, Eq)]
pub enum Reclaimer {
    Nothing,
    Frees,
}

pub struct Run {
    pub set: Set,
    pub reclaimer: Reclaimer,
    /// Of each phase, what each caller called in it and was told.
    pub phases: Vec<Vec<Vec<Answered>>>,
}

impl Answered {
    /// Whether the key was there at some moment of the call, by its reply. A call that is answered `full` found it absent.
    pub fn saw_key(self) -> bool {
        match self.call.kind {
            Kind::Insert => self.reply == Reply::No,
            Kind::Remove | Kind::Search => self.reply == Reply::Yes,
        }
    }

    /// Whether the call changed the set.
    pub fn is_update(self) -> bool {
        self.call.kind != Kind::Search && self.reply == Reply::Yes
    }

    pub fn is_added(self) -> bool {
        self.is_update() && self.call.kind == Kind::Insert
    }

    pub fn is_removed(self) -> bool {
        self.is_update() && self.call.kind == Kind::Remove
    }
}

fn pair_of(report: &Report) -> Result<(Set, Reclaimer), String> {
    match (report.set.as_str(), report.reclaimer.as_str()) {
        ("plain", "none") => Ok((Set::Plain, Reclaimer::Nothing)),
        ("michael", "none") => Ok((Set::Michael, Reclaimer::Nothing)),
        ("michael", "debra" | "hazard" | "2geibr") => Ok((Set::Michael, Reclaimer::Frees)),
        (set, reclaimer) => Err(format!("no rules for the set {set} under the reclaimer {reclaimer}")),
    }
}

impl Run {
    /// The report is of just these calls, the callers in order, each reply one that its call can have, and its first line
    /// has their numbers.
    pub fn of(workload: Workload, report: &Report) -> Result<Run, String> {
        let (set, reclaimer) = pair_of(report)?;
        let callers = workload.callers.len();
        if report.callers != callers as u64 || report.answered.len() != callers {
            return Err(format!("another number of callers than {callers}"));
        }
        let mut phases = vec![Vec::new(); workload.phases()];
        let mut total = 0;
        for (number, (wanted, answered)) in workload.callers.iter().zip(&report.answered).enumerate() {
            let mut told = answered.iter().copied();
            for (phase, calls) in phases.iter_mut().zip(wanted) {
                let own: Vec<Answered> = told.by_ref().take(calls.len()).collect();
                if own.len() != calls.len() || own.iter().zip(calls).any(|(one, call)| one.call != *call) {
                    return Err(format!("caller {number} has other calls than the workload's"));
                }
                if own.iter().any(|one| one.reply == Reply::Full && one.call.kind != Kind::Insert) {
                    return Err(format!("caller {number} has a full that answers no insertion"));
                }
                phase.push(own);
            }
            if told.next().is_some() {
                return Err(format!("caller {number} has more calls than the workload's"));
            }
            total += answered.len() as u64;
        }
        if report.calls != total {
            return Err(format!("another number of calls than {total}"));
        }
        Ok(Run { set, reclaimer, phases })
    }

    /// All calls, phase by phase, and in each phase one caller after another.
    pub fn all(&self) -> impl Iterator<Item = Answered> + '_ {
        self.phases.iter().flatten().flatten().copied()
    }

    /// The calls of one caller, in its order.
    pub fn of_caller(&self, caller: usize) -> impl DoubleEndedIterator<Item = (usize, Answered)> + '_ {
        let phases = self.phases.iter().enumerate();
        phases.flat_map(move |(phase, callers)| callers[caller].iter().map(move |one| (phase, *one)))
    }

    pub fn callers(&self) -> usize {
        self.phases.first().map_or(0, Vec::len)
    }

    /// How many insertions found no record.
    pub fn fulls(&self) -> usize {
        self.all().filter(|one| one.reply == Reply::Full).count()
    }

    pub fn added(&self) -> u64 {
        self.all().filter(|one| one.is_added()).count() as u64
    }

    pub fn removed(&self) -> u64 {
        self.all().filter(|one| one.is_removed()).count() as u64
    }

    /// Size and sum are those of the keys that were added less those that were taken away.
    pub fn has_size_and_sum(&self, size: u64, sum: u64) -> Result<(), String> {
        let (mut left, mut keys) = (0_i128, 0_i128);
        for one in self.all().filter(|one| one.is_update()) {
            let sign = if one.is_added() { 1 } else { -1 };
            left += sign;
            keys += sign * i128::from(one.call.key);
        }
        if (left, keys) == (i128::from(size), i128::from(sum)) {
            Ok(())
        } else {
            Err(format!("size {size} sum {sum}, where the replies leave size {left} sum {keys}"))
        }
    }

    /// The first key whose reply isn't that of one caller after another in each phase, in order of number. An insertion
    /// that found no record found the key absent, and leaves it so.
    pub fn first_out_of_turn(&self) -> Option<u64> {
        let mut keys = BTreeSet::new();
        for one in self.all() {
            let key = one.call.key;
            let yes = match one.call.kind {
                Kind::Insert if one.reply == Reply::Full => keys.contains(&key),
                Kind::Insert => keys.insert(key),
                Kind::Remove => keys.remove(&key),
                Kind::Search => keys.contains(&key),
            };
            let is_told = if one.reply == Reply::Full { !yes } else { yes == (one.reply == Reply::Yes) };
            if !is_told {
                return Some(key);
            }
        }
        None
    }

    /// A plain set is played by one caller after another, and has no records that could be used up.
    pub fn has_replies_of_its_set(&self) -> Result<(), String> {
        if self.set != Set::Plain {
            return Ok(());
        }
        match self.first_out_of_turn() {
            Some(key) => Err(format!("key {key}: another reply than that of one caller after another")),
            None if self.fulls() > 0 => Err("a plain set is never full".to_string()),
            None => Ok(()),
        }
    }
}
