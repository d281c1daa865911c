//! The replies, key by key and then all together: in each phase some order of its calls explains them.

use crate::orders::{counts_allow, order_of, Order, Step};
use crate::report::Answered;
use crate::run::Run;
use std::collections::{BTreeMap, BTreeSet};

/// How many beginnings of an order that lead nowhere are tried for one key in one phase, at most, and how many in the whole
/// run, until only so few are tried for each further key.
const MOST_OF_A_KEY: usize = 200_000;
const MOST_OF_A_RUN: usize = 4_000_000;
const FEW: usize = 1_000;
/// And for all keys of a phase together.
const MOST_OF_ALL: usize = 4_000;
/// All keys together are searched only in runs of so many calls.
const MOST_CALLS: usize = 4_000;

/// How the keys were judged.
pub struct Judged {
    /// For so many keys an order was found in each phase.
    pub searched: usize,
    /// For so many the search was given up in some phase, and what counting says holds.
    pub counted: usize,
    /// `yes`: an order of all calls was found in each phase. `open`: it wasn't searched, or the search was given up.
    pub whole: &'static str,
}

/// A phase's steps on each of its keys, by callers. A caller without one is left out.
fn by_keys(phase: &[Vec<Answered>]) -> BTreeMap<u64, Vec<Vec<Step>>> {
    let mut keys: BTreeMap<u64, (usize, Vec<Vec<Step>>)> = BTreeMap::new();
    for (caller, own) in phase.iter().enumerate() {
        for one in own {
            let (last, callers) = keys.entry(one.call.key).or_insert((caller, vec![Vec::new()]));
            if *last != caller {
                *last = caller;
                callers.push(Vec::new());
            }
            let step = Step { key: 0, saw: one.saw_key(), flips: one.is_update() };
            callers.last_mut().expect("a caller").push(step);
        }
    }
    keys.into_iter().map(|(key, (_, callers))| (key, callers)).collect()
}

/// Whether the key is there behind these steps: what was added and what was taken away alternates.
fn left_by(callers: &[Vec<Step>], present: bool) -> Option<bool> {
    let (mut added, mut removed) = (usize::from(present), 0);
    for step in callers.iter().flatten().filter(|step| step.flips) {
        *(if step.saw { &mut removed } else { &mut added }) += 1;
    }
    match added.checked_sub(removed)? {
        0 => Some(false),
        1 => Some(true),
        _ => None,
    }
}

/// Whether an order of the whole phase was found, which begins with these keys.
fn whole_order(phase: &[Vec<Answered>], present: &BTreeSet<u64>) -> Order {
    let keys: BTreeSet<u64> = phase.iter().flatten().map(|one| one.call.key).collect();
    let keys: Vec<u64> = keys.into_iter().collect();
    let step_of = |one: &Answered| Step {
        key: keys.binary_search(&one.call.key).expect("a key"),
        saw: one.saw_key(),
        flips: one.is_update(),
    };
    let callers: Vec<Vec<Step>> = phase.iter().map(|own| own.iter().map(step_of).collect()).collect();
    let present: Vec<bool> = keys.iter().map(|key| present.contains(key)).collect();
    let mut most = MOST_OF_ALL;
    order_of(&callers, &present, &mut most)
}

/// Judges each phase from the keys on that the one before it left.
pub fn judged(run: &Run) -> Result<Judged, String> {
    let is_small = run.all().count() <= MOST_CALLS;
    let (mut all, mut given_up) = (BTreeSet::new(), BTreeSet::new());
    let mut present = BTreeSet::new();
    let mut left_to_try = MOST_OF_A_RUN;
    let mut whole = if is_small { "yes" } else { "open" };
    for (number, phase) in run.phases.iter().enumerate() {
        let mut left = present.clone();
        for (key, callers) in by_keys(phase) {
            let is_there = present.contains(&key);
            let is_left = left_by(&callers, is_there)
                .ok_or_else(|| format!("key {key}: what was added and taken away in phase {number} can't alternate"))?;
            let most = left_to_try.clamp(FEW, MOST_OF_A_KEY);
            let mut left_of_key = most;
            let order = order_of(&callers, &[is_there], &mut left_of_key);
            left_to_try = left_to_try.saturating_sub(most - left_of_key);
            match order {
                Order::Found => {}
                Order::Open if counts_allow(&callers, is_there) => {
                    given_up.insert(key);
                }
                _ => return Err(format!("key {key}: no order of its calls in phase {number} explains the replies")),
            }
            all.insert(key);
            if is_left {
                left.insert(key);
            } else {
                left.remove(&key);
            }
        }
        if is_small {
            match whole_order(phase, &present) {
                Order::Found => {}
                Order::Open => whole = "open",
                Order::None => return Err(format!("no order of all calls in phase {number} explains the replies")),
            }
        }
        present = left;
    }
    Ok(Judged { searched: all.len() - given_up.len(), counted: given_up.len(), whole })
}
