//! When a record that was taken out may be used again: never, or by DEBRA (Brown, PODC 2015), hazard pointers (Michael,
//! TPDS 2004) or 2GEIBR (Wen and others, PPoPP 2018), each by the loads and stores of shared words that the proved program
//! makes for it. Bags are vectors of a caller's own.

use std::mem;
use std::sync::atomic::{AtomicU64, Ordering::SeqCst};

/// The words of a row that reclaimers load or store.
pub const BIRTH: usize = 0;
pub const STAMP: usize = 2;
pub const LINK: usize = 3;

/// The words that all callers share. A record is named by what a link to it holds, and 0 is none.
pub trait Words {
    /// In a link: its record is being taken out. The rest is the next record.
    const MARK: u64;

    fn callers(&self) -> usize;

    fn epoch(&self) -> &AtomicU64;

    /// One of the four announcements of a caller.
    fn announced(&self, caller: usize, number: usize) -> &AtomicU64;

    /// Loads what a word of a record holds.
    fn load(&self, record: u64, field: usize) -> u64;

    fn store(&self, record: u64, field: usize, value: u64);
}

/// What a caller keeps for it between its calls.
pub trait Reclaimer: Default + Send {
    const NAME: &'static str;

    /// A call begins. Records of the caller's bags may come into `free`.
    fn enter<W: Words>(&mut self, words: &W, caller: usize, free: &mut Vec<u64>);

    /// A call ends.
    fn leave<W: Words>(&mut self, words: &W, caller: usize);

    /// Loads the link of a record and holds, at this place, what it leads to. `None`: the link, or the epoch, moved.
    fn hold<W: Words>(&mut self, words: &W, caller: usize, place: usize, from: u64) -> Option<u64>;

    /// A record becomes the caller's, to be linked. The birth that its row gets, where records have one.
    fn birth<W: Words>(&mut self, words: &W) -> Option<u64>;

    /// A record was taken out.
    fn retire<W: Words>(&mut self, words: &W, caller: usize, record: u64, free: &mut Vec<u64>);

    /// How many records wait in its bags.
    fn limbo(&self) -> usize;
}

/// Nothing is used again.
#[derive(Default)]
pub struct Never {
    retired: usize,
}

impl Reclaimer for Never {
    const NAME: &'static str = "none";

    fn enter<W: Words>(&mut self, _: &W, _: usize, _: &mut Vec<u64>) {}

    fn leave<W: Words>(&mut self, _: &W, _: usize) {}

    fn hold<W: Words>(&mut self, words: &W, _: usize, _: usize, from: u64) -> Option<u64> {
        Some(words.load(from, LINK))
    }

    fn birth<W: Words>(&mut self, _: &W) -> Option<u64> {
        None
    }

    fn retire<W: Words>(&mut self, words: &W, _: usize, record: u64, _: &mut Vec<u64>) {
        words.store(record, STAMP, 0);
        self.retired += 1;
    }

    fn limbo(&self) -> usize {
        self.retired
    }
}

/// Epochs, with one announcement looked at by each call.
pub struct Debra {
    reading: u64,
    place: usize,
    bags: [Vec<u64>; 3],
}

impl Default for Debra {
    fn default() -> Debra {
        Debra { reading: 1, place: 0, bags: Default::default() }
    }
}

impl Reclaimer for Debra {
    const NAME: &'static str = "debra";

    fn enter<W: Words>(&mut self, words: &W, caller: usize, free: &mut Vec<u64>) {
        let epoch = words.epoch().load(SeqCst);
        if epoch != self.reading {
            free.append(&mut self.bags[2]);
            self.bags.rotate_right(1);
            (self.reading, self.place) = (epoch, 0);
        }
        if self.place < words.callers() {
            let found = words.announced(self.place, 0).load(SeqCst);
            if found % 2 == 0 || found == 2 * epoch + 1 {
                self.place += 1;
                if self.place == words.callers() {
                    let _ = words.epoch().compare_exchange(epoch, epoch + 1, SeqCst, SeqCst);
                }
            }
        }
        words.announced(caller, 0).store(2 * epoch + 1, SeqCst);
    }

    fn leave<W: Words>(&mut self, words: &W, caller: usize) {
        words.announced(caller, 0).store(2 * self.reading, SeqCst);
    }

    fn hold<W: Words>(&mut self, words: &W, _: usize, _: usize, from: u64) -> Option<u64> {
        Some(words.load(from, LINK))
    }

    fn birth<W: Words>(&mut self, _: &W) -> Option<u64> {
        None
    }

    fn retire<W: Words>(&mut self, words: &W, _: usize, record: u64, _: &mut Vec<u64>) {
        words.store(record, STAMP, self.reading);
        self.bags[0].push(record);
    }

    fn limbo(&self) -> usize {
        self.bags.iter().map(Vec::len).sum()
    }
}

/// Each record that is held is named by a word of its holder's.
#[derive(Default)]
pub struct Hazard {
    bag: Vec<u64>,
    named: Vec<u64>,
}

impl Reclaimer for Hazard {
    const NAME: &'static str = "hazard";

    fn enter<W: Words>(&mut self, _: &W, _: usize, _: &mut Vec<u64>) {}

    fn leave<W: Words>(&mut self, words: &W, caller: usize) {
        for place in 0..3 {
            words.announced(caller, place).store(0, SeqCst);
        }
    }

    fn hold<W: Words>(&mut self, words: &W, caller: usize, place: usize, from: u64) -> Option<u64> {
        let link = words.load(from, LINK);
        if link == 0 || link & W::MARK != 0 {
            return Some(link);
        }
        words.announced(caller, place).store(link, SeqCst);
        let again = words.load(from, LINK);
        (again == link || again & W::MARK != 0).then_some(again)
    }

    fn birth<W: Words>(&mut self, _: &W) -> Option<u64> {
        None
    }

    fn retire<W: Words>(&mut self, words: &W, _: usize, record: u64, free: &mut Vec<u64>) {
        words.store(record, STAMP, 0);
        self.bag.push(record);
        if self.bag.len() < 6 * words.callers() {
            return;
        }
        self.named.clear();
        let places = (0..words.callers()).flat_map(|other| (0..3).map(move |place| (other, place)));
        self.named.extend(places.map(|(other, place)| words.announced(other, place).load(SeqCst)));
        let named = &self.named;
        let (kept, gone): (Vec<u64>, Vec<u64>) = mem::take(&mut self.bag).into_iter().partition(|it| named.contains(it));
        self.bag = kept;
        free.extend(gone);
    }

    fn limbo(&self) -> usize {
        self.bag.len()
    }
}

/// Epochs of birth and retirement, and an interval of epochs for each caller.
#[derive(Default)]
pub struct Ibr {
    upper: u64,
    births: u64,
    retired: u64,
    bag: Vec<u64>,
    ends: Vec<(u64, u64)>,
}

impl Reclaimer for Ibr {
    const NAME: &'static str = "2geibr";

    fn enter<W: Words>(&mut self, words: &W, caller: usize, _: &mut Vec<u64>) {
        self.upper = words.epoch().load(SeqCst);
        words.announced(caller, 1).store(self.upper, SeqCst);
        words.announced(caller, 0).store(self.upper, SeqCst);
    }

    fn leave<W: Words>(&mut self, words: &W, caller: usize) {
        words.announced(caller, 0).store(0, SeqCst);
    }

    fn hold<W: Words>(&mut self, words: &W, caller: usize, _: usize, from: u64) -> Option<u64> {
        let link = words.load(from, LINK);
        if link == 0 || link & W::MARK != 0 {
            return Some(link);
        }
        let epoch = words.epoch().load(SeqCst);
        if epoch == self.upper {
            return Some(link);
        }
        words.announced(caller, 1).store(epoch, SeqCst);
        self.upper = epoch;
        None
    }

    fn birth<W: Words>(&mut self, words: &W) -> Option<u64> {
        self.births += 1;
        if self.births % 16 == 0 {
            let epoch = words.epoch().load(SeqCst);
            let _ = words.epoch().compare_exchange(epoch, epoch + 1, SeqCst, SeqCst);
        }
        Some(words.epoch().load(SeqCst))
    }

    fn retire<W: Words>(&mut self, words: &W, _: usize, record: u64, free: &mut Vec<u64>) {
        words.store(record, STAMP, words.epoch().load(SeqCst));
        self.bag.push(record);
        self.retired += 1;
        if self.retired % 16 != 0 {
            return;
        }
        self.ends.clear();
        let end = |other, number| words.announced(other, number).load(SeqCst);
        self.ends.extend((0..words.callers()).map(|other| (end(other, 0), end(other, 1))));
        let ends = &self.ends;
        let is_met = |record: &u64| {
            let (birth, stamp) = (words.load(*record, BIRTH), words.load(*record, STAMP));
            ends.iter().any(|(lower, upper)| *lower != 0 && *lower <= stamp && *upper >= birth)
        };
        let (kept, gone): (Vec<u64>, Vec<u64>) = mem::take(&mut self.bag).into_iter().partition(is_met);
        self.bag = kept;
        free.extend(gone);
    }

    fn limbo(&self) -> usize {
        self.bag.len()
    }
}
