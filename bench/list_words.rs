//! The plain program beside Michael's list: the same list over a `Vec<AtomicU64>` of the same rows, by the same
//! sequentially consistent steps, under no reclamation, DEBRA, hazard pointers or 2GEIBR, whose bags are vectors here. It
//! generates a workload of one caller, plays it, and prints how many calls were answered yes. The arguments are the number of
//! calls, the number of keys and the reclaimer.

// Only reports count what is in bags.
#[allow(dead_code)]
#[path = "plain/reclaimers.rs"]
mod reclaimers;

use reclaimers::{Debra, Hazard, Ibr, Never, Reclaimer, Words, BIRTH, LINK};
use std::env;
use std::process::ExitCode;
use std::sync::atomic::{AtomicU64, Ordering::SeqCst};

const ANNOUNCED: usize = 20;
const CONTROL: usize = 25;
const CHAIN: usize = 1;
const KEY: usize = 4;
const MARK: u64 = 1 << 40;
const LOW: u64 = (1 << 44) - 1;
const INDEX: u64 = (1 << 20) - 1;
// A record is named by its generation, above its index.
const GENERATION: u64 = 1 << 20;
const ROOT: u64 = GENERATION | 1;

// The part of a record's words that has its generation.
fn stamped(record: u64) -> u64 {
    (record >> 20) << 44
}

struct List {
    words: Vec<AtomicU64>,
    records: u64,
}

// What the caller has of its own beside the list.
#[derive(Default)]
struct Own<R> {
    reclaimer: R,
    free: Vec<u64>,
    spare: Option<u64>,
}

enum Spot {
    Present { before: u64, at: u64, link: u64 },
    Absent { before: u64, next: u64 },
}

impl Words for List {
    const MARK: u64 = MARK;

    fn callers(&self) -> usize {
        1
    }

    fn epoch(&self) -> &AtomicU64 {
        &self.words[1]
    }

    fn announced(&self, _: usize, number: usize) -> &AtomicU64 {
        &self.words[ANNOUNCED + number]
    }

    fn load(&self, record: u64, field: usize) -> u64 {
        self.word(record, field).load(SeqCst) & LOW
    }

    fn store(&self, record: u64, field: usize, value: u64) {
        self.word(record, field).store(stamped(record) | value, SeqCst);
    }
}

impl List {
    fn new(records: u64) -> List {
        let mut words = Vec::with_capacity(CONTROL + 8 * records as usize);
        words.resize_with(CONTROL + 8 * records as usize, || AtomicU64::new(0));
        let list = List { words, records };
        list.words[0].store(1, SeqCst);
        list.words[1].store(1, SeqCst);
        for field in 0..8 {
            list.store(ROOT, field, 0);
        }
        list
    }

    fn word(&self, record: u64, field: usize) -> &AtomicU64 {
        &self.words[CONTROL + 8 * ((record & INDEX) as usize - 1) + field]
    }

    fn exchange(&self, record: u64, old: u64, new: u64) -> bool {
        let high = stamped(record);
        self.word(record, LINK).compare_exchange(high | old, high | new, SeqCst, SeqCst).is_ok()
    }

    // Takes out a marked record. `false`: another step was first.
    fn take_out<R: Reclaimer>(&self, own: &mut Own<R>, before: u64, at: u64, next: u64) -> bool {
        let is_out = self.exchange(before, at, next);
        if is_out {
            own.reclaimer.retire(self, 0, at, &mut own.free);
        }
        is_out
    }

    fn find<R: Reclaimer>(&self, own: &mut Own<R>, key: u64) -> Spot {
        'tries: loop {
            let mut before = ROOT;
            let mut place = 0;
            loop {
                let Some(next) = own.reclaimer.hold(self, 0, place, before) else { continue 'tries };
                if next & MARK != 0 {
                    continue 'tries;
                }
                if next == 0 {
                    return Spot::Absent { before, next };
                }
                let found = self.load(next, KEY);
                let link = self.load(next, LINK);
                if link & MARK != 0 {
                    if !self.take_out(own, before, next, link & !MARK) {
                        continue 'tries;
                    }
                } else if found < key {
                    before = next;
                    place = 1 - place;
                } else if found == key {
                    return Spot::Present { before, at: next, link };
                } else {
                    return Spot::Absent { before, next };
                }
            }
        }
    }

    // The load that places a read.
    fn place(&self) {
        self.words[0].load(SeqCst);
    }

    fn draw(&self) -> Option<u64> {
        if self.words[0].load(SeqCst) >= self.records {
            return None;
        }
        let drawn = self.words[0].fetch_add(1, SeqCst);
        (drawn < self.records).then_some(GENERATION | (drawn + 1))
    }

    fn fresh<R: Reclaimer>(&self, own: &mut Own<R>) -> Option<u64> {
        if let Some(record) = own.spare.take() {
            own.reclaimer.birth(self);
            self.load(record, CHAIN);
            return Some(record);
        }
        let record = match own.free.pop() {
            Some(gone) => {
                self.load(gone, CHAIN);
                gone + GENERATION
            }
            None => self.draw()?,
        };
        let birth = own.reclaimer.birth(self).unwrap_or(0);
        self.store(record, BIRTH, birth);
        for field in 1..8 {
            self.store(record, field, 0);
        }
        Some(record)
    }

    fn insert<R: Reclaimer>(&self, own: &mut Own<R>, key: u64) -> bool {
        let mut hand = None;
        loop {
            match self.find(own, key) {
                Spot::Present { .. } => {
                    if let Some(record) = hand {
                        self.store(record, CHAIN, own.spare.unwrap_or(0));
                        own.spare = Some(record);
                    }
                    self.place();
                    return false;
                }
                Spot::Absent { before, next } => {
                    let Some(record) = hand.or_else(|| self.fresh(own)) else { return false };
                    self.store(record, KEY, key);
                    self.store(record, LINK, next);
                    if self.exchange(before, next, record) {
                        return true;
                    }
                    hand = Some(record);
                }
            }
        }
    }

    fn remove<R: Reclaimer>(&self, own: &mut Own<R>, key: u64) -> bool {
        loop {
            match self.find(own, key) {
                Spot::Absent { .. } => {
                    self.place();
                    return false;
                }
                Spot::Present { before, at, link } => {
                    if !self.exchange(at, link, link | MARK) {
                        continue;
                    }
                    self.take_out(own, before, at, link);
                    return true;
                }
            }
        }
    }

    fn search<R: Reclaimer>(&self, own: &mut Own<R>, key: u64) -> bool {
        let found = matches!(self.find(own, key), Spot::Present { .. });
        self.place();
        found
    }

    fn apply<R: Reclaimer>(&self, own: &mut Own<R>, kind: u32, key: u64) -> bool {
        own.reclaimer.enter(self, 0, &mut own.free);
        let reply = match kind {
            0 | 1 => self.insert(own, key),
            2 => self.remove(own, key),
            _ => self.search(own, key),
        };
        own.reclaimer.leave(self, 0);
        reply
    }
}

// The outputs of PCG XSH RR 64/32, of stream 0.
struct Pcg(u64);

impl Pcg {
    fn step(&mut self) {
        self.0 = self.0.wrapping_mul(6_364_136_223_846_793_005).wrapping_add(1);
    }

    fn next(&mut self) -> u32 {
        let state = self.0;
        self.step();
        ((((state >> 18) ^ state) >> 27) as u32).rotate_right((state >> 59) as u32)
    }
}

// The calls of one caller, by seed 7.
fn generated(calls: u64, keys: u64) -> Vec<(u32, u64)> {
    let mut words = Pcg(7u64.wrapping_add(1));
    words.step();
    (0..calls).map(|_| (words.next() % 4, u64::from(words.next()) % keys)).collect()
}

// How many of the calls were answered yes.
fn played<R: Reclaimer>(count: u64, keys: u64) -> usize {
    let calls = generated(count, keys);
    let list = List::new(count + 1);
    let mut own = Own::<R>::default();
    calls.into_iter().filter(|(kind, key)| list.apply(&mut own, *kind, *key)).count()
}

fn main() -> ExitCode {
    let words: Vec<String> = env::args().skip(1).collect();
    let [calls, keys, reclaimer] = &words[..] else { return ExitCode::from(2) };
    let (calls, keys) = (calls.parse().expect("a number"), keys.parse().expect("a number"));
    let yes = match reclaimer.as_str() {
        Never::NAME => played::<Never>(calls, keys),
        Debra::NAME => played::<Debra>(calls, keys),
        Hazard::NAME => played::<Hazard>(calls, keys),
        Ibr::NAME => played::<Ibr>(calls, keys),
        _ => return ExitCode::from(2),
    };
    println!("yes {yes}");
    ExitCode::SUCCESS
}
