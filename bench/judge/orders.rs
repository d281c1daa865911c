//! Whether what several callers did can be put into one order that keeps each caller's own.

use std::collections::HashSet;

/// A call with its reply: which key it is about, whether it saw it, and whether it changed that.
#[derive(Clone, Copy)]
pub struct Step {
    pub key: usize,
    pub saw: bool,
    pub flips: bool,
}

#[derive(Clone, Copy, PartialEq, Eq, Debug)]
pub enum Order {
    /// There is one.
    Found,
    /// There is none.
    None,
    /// The search was given up.
    Open,
}

/// Which caller's change is tried first.
#[derive(Clone, Copy)]
enum First {
    /// That of the caller with most steps left.
    Longest,
    /// That of the caller with the lowest number.
    Lowest,
}

/// The beginning of an order: how far each caller is, and which keys are there then. The latter follows from the former.
struct Walk<'a> {
    callers: &'a [Vec<Step>],
    at: Vec<usize>,
    present: Vec<bool>,
    /// Whose steps were taken, in order.
    taken: Vec<usize>,
}

impl Walk<'_> {
    /// The next step of a caller, where the keys that are there allow it.
    fn next_of(&self, caller: usize) -> Option<Step> {
        let step = *self.callers[caller].get(self.at[caller])?;
        (self.present[step.key] == step.saw).then_some(step)
    }

    fn take(&mut self, caller: usize) {
        let step = self.callers[caller][self.at[caller]];
        self.present[step.key] ^= step.flips;
        self.at[caller] += 1;
        self.taken.push(caller);
    }

    /// Takes all steps that change nothing and are allowed. An order in which one comes later is one where it comes now.
    fn take_reads(&mut self) {
        for caller in 0..self.callers.len() {
            while self.next_of(caller).is_some_and(|step| !step.flips) {
                self.take(caller);
            }
        }
    }

    /// Goes back to the beginning of so many steps.
    fn go_back(&mut self, steps: usize) {
        while self.taken.len() > steps {
            let caller = self.taken.pop().expect("a step");
            self.at[caller] -= 1;
            let step = self.callers[caller][self.at[caller]];
            self.present[step.key] ^= step.flips;
        }
    }

    /// The callers whose next step is allowed, that which is tried first as the last.
    fn choices(&self, first: First) -> Vec<usize> {
        let all = (0..self.callers.len()).rev();
        let mut choices: Vec<usize> = all.filter(|caller| self.next_of(*caller).is_some()).collect();
        if matches!(first, First::Longest) {
            choices.sort_by_key(|caller| self.callers[*caller].len() - self.at[*caller]);
        }
        choices
    }
}

/// Searches from these keys on, and gives up where so many beginnings were found to lead nowhere. Also says how many were.
fn search(callers: &[Vec<Step>], present: &[bool], first: First, most: usize) -> (Order, usize) {
    let total: usize = callers.iter().map(Vec::len).sum();
    let mut walk = Walk { callers, at: vec![0; callers.len()], present: present.to_vec(), taken: Vec::new() };
    walk.take_reads();
    let mut dead = HashSet::new();
    let mut open = vec![(walk.taken.len(), walk.choices(first))];
    while walk.taken.len() < total {
        let Some((steps, choices)) = open.last_mut() else { return (Order::None, dead.len()) };
        walk.go_back(*steps);
        let Some(caller) = choices.pop() else {
            if dead.len() == most {
                return (Order::Open, most);
            }
            dead.insert(walk.at.clone());
            open.pop();
            continue;
        };
        walk.take(caller);
        walk.take_reads();
        if !dead.contains(&walk.at) {
            open.push((walk.taken.len(), walk.choices(first)));
        }
    }
    (Order::Found, dead.len())
}

/// Whether there is an order that begins with these keys. The search is given up where it came to so many beginnings that
/// lead nowhere as `most` has, which loses as many as it came to.
pub fn order_of(callers: &[Vec<Step>], present: &[bool], most: &mut usize) -> Order {
    let mut order = Order::Open;
    for first in [First::Longest, First::Lowest] {
        if order == Order::Open {
            let (found, tried) = search(callers, present, first, *most / 2);
            *most -= tried;
            order = found;
        }
    }
    order
}

/// What has to be so of one key, by counting alone: wherever a caller found the key other than it had left it, another
/// caller changed it, and each change of others is used once at most between two steps of a caller.
pub fn counts_allow(callers: &[Vec<Step>], present: bool) -> bool {
    let changes = |own: &[Step], saw: bool| own.iter().filter(|step| step.flips && step.saw == saw).count();
    let all = |saw: bool| callers.iter().map(|own| changes(own, saw)).sum::<usize>();
    callers.iter().all(|own| {
        let mut needed = [0, 0];
        let mut left = present;
        for step in own {
            if step.saw != left {
                needed[usize::from(left)] += 1;
            }
            left = step.saw ^ step.flips;
        }
        [false, true].iter().all(|saw| needed[usize::from(*saw)] <= all(*saw) - changes(own, *saw))
    })
}
