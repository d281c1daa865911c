//! The counts of records, by what the replies say of them.
//!
//! A record is drawn for an insertion, or one that was freed is used again. It is linked by one that is answered yes, and
//! is its caller's spare one else. A removal marks a record, and whoever takes it out retires it: the removal itself, or,
//! where the record in front of it changed meanwhile, a later walk to this key or behind it in its bucket. So a record that
//! was marked may stay linked to the end, and `retired` may be less than the number of removals that are answered yes.

use crate::report::{Answered, Counts, Reply};
use crate::run::{Reclaimer, Run, Set};
use crate::workload::Kind;
use std::collections::BTreeMap;

/// The table of a run, where it is known. Each bucket has a record as its root.
#[derive(Clone, Copy)]
pub struct Table {
    pub buckets: u64,
    pub records: u64,
}

fn holds(is_so: bool, rule: &str) -> Result<(), String> {
    if is_so {
        Ok(())
    } else {
        Err(format!("the counts: {rule}"))
    }
}

/// A plain set has no records.
fn are_nothing(counts: &Counts) -> Result<(), String> {
    let Counts { drawn, reused, retired, freed, limbo, free, spare, spent } = counts;
    let all = [drawn, reused, retired, freed, limbo, free, spare, spent];
    holds(all.iter().all(|count| **count == 0), "a plain set has no records")
}

/// What holds of any set of records under any reclaimer.
fn have_identities(counts: &Counts, added: u64, removed: u64) -> Result<(), String> {
    let wide = |count: u64| i128::from(count);
    let [drawn, reused, retired, freed] = [counts.drawn, counts.reused, counts.retired, counts.freed].map(wide);
    let [limbo, free, spare, spent] = [counts.limbo, counts.free, counts.spare, counts.spent].map(wide);
    let linked = wide(added) - retired;
    holds(freed == reused + free + spent, "freed isn't reused, free and spent together")?;
    holds(limbo == retired - freed, "limbo isn't what was retired and not freed")?;
    holds(counts.retired <= removed, "more was retired than taken away")?;
    holds(drawn + reused - spare == wide(added), "drawn isn't what was linked and what is spare")?;
    holds(limbo + free + spare + spent == drawn - linked, "the records that aren't linked don't lie somewhere")
}

/// Without reclamation no record is freed.
fn are_never_freed(counts: &Counts) -> Result<(), String> {
    let none = [counts.reused, counts.freed, counts.free, counts.spent];
    holds(none.iter().all(|count| *count == 0), "a record was freed where none may be")
}

/// A record is spent once it was used a million times and more, and no run has as many calls.
fn are_never_spent(counts: &Counts) -> Result<(), String> {
    holds(counts.spent == 0, "a record was spent where none may be")
}

/// Whether a caller other than this one made such a call in the phase.
fn another(run: &Run, phase: usize, caller: usize, is_such: fn(&Answered) -> bool) -> bool {
    let others = run.phases[phase].iter().enumerate().filter(|(other, _)| *other != caller);
    others.flat_map(|(_, own)| own).any(is_such)
}

/// How many keys may have left a marked record linked. Such a key is absent in the end. In the last phase that has calls
/// on it, the last one of some caller is a removal that is answered yes, and another caller changed the set there.
fn marked_at_most(run: &Run) -> u64 {
    let mut last_phase = BTreeMap::new();
    let mut present = BTreeMap::new();
    for (number, phase) in run.phases.iter().enumerate() {
        for one in phase.iter().flatten() {
            last_phase.insert(one.call.key, number);
            *present.entry(one.call.key).or_insert(0_i64) += i64::from(one.is_added()) - i64::from(one.is_removed());
        }
    }
    let mut may_be = BTreeMap::new();
    for caller in 0..run.callers() {
        let mut last = BTreeMap::new();
        for (phase, one) in run.of_caller(caller) {
            last.insert(one.call.key, (phase, one.is_removed()));
        }
        let meets: Vec<bool> =
            (0..run.phases.len()).map(|phase| another(run, phase, caller, |one| one.is_update())).collect();
        for (key, (phase, is_removed)) in last {
            if is_removed && present[&key] == 0 && last_phase[&key] == phase && meets[phase] {
                may_be.insert(key, ());
            }
        }
    }
    may_be.len() as u64
}

/// Whether the caller may have a spare record in the end: since the last insertion that it linked or had no record for,
/// one was answered no while another caller was at play. It never has two.
fn may_have_spare(run: &Run, caller: usize) -> bool {
    let insertions = run.of_caller(caller).rev().filter(|(_, one)| one.call.kind == Kind::Insert);
    let refused = insertions.take_while(|(_, one)| one.reply == Reply::No);
    let mut phases: Vec<usize> = refused.map(|(phase, _)| phase).collect();
    phases.dedup();
    phases.into_iter().any(|phase| another(run, phase, caller, |_| true))
}

/// How many records are marked and yet linked. Removals on a plain set mark none.
pub fn marked(run: &Run, counts: &Counts) -> u64 {
    match run.set {
        Set::Plain => 0,
        Set::Michael => run.removed() - counts.retired,
    }
}

/// Which records may be marked and linked, and which spare.
fn are_within_bounds(run: &Run, counts: &Counts) -> Result<(), String> {
    let spare = (0..run.callers()).filter(|caller| may_have_spare(run, *caller)).count() as u64;
    holds(counts.spare <= spare, &format!("spare {} where {spare} are the most", counts.spare))?;
    let (marked, most) = (marked(run, counts), marked_at_most(run));
    holds(marked <= most, &format!("{marked} marked records were left where {most} are the most"))
}

/// No more records were drawn than there are, and all of them where an insertion found none.
fn fit_table(run: &Run, counts: &Counts, table: Table) -> Result<(), String> {
    let there = table.records.saturating_sub(table.buckets);
    holds(counts.drawn <= there, "more was drawn than there is")?;
    holds(run.fulls() == 0 || counts.drawn == there, "an insertion found no record where one is left")
}

pub fn judged(run: &Run, counts: &Counts, table: Option<Table>) -> Result<(), String> {
    if run.set == Set::Plain {
        return are_nothing(counts);
    }
    have_identities(counts, run.added(), run.removed())?;
    are_never_spent(counts)?;
    if run.reclaimer == Reclaimer::Nothing {
        are_never_freed(counts)?;
    }
    are_within_bounds(run, counts)?;
    match table {
        Some(table) => fit_table(run, counts, table),
        None => Ok(()),
    }
}
