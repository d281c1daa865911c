//! The words that all callers share: the number of records drawn, the epoch, four announcements of each caller, and rows
//! of eight words.

use crate::reclaimers::{Words, LINK};
use std::sync::atomic::{AtomicU64, Ordering::SeqCst};

/// Where the words of other kinds begin. Word 0 is the number of records drawn, the roots among them, and word 1 the epoch.
const ANNOUNCED: usize = 20;
/// The word of a row that holds its key.
pub const KEY: usize = 4;
/// In a link: its record is being taken out.
pub const MARK: u64 = 1 << 63;

pub struct Shared {
    words: Vec<AtomicU64>,
    rows: usize,
    callers: usize,
    /// How many words lie between the announcements of a caller and those of the next one, at least 4.
    stride: usize,
}

impl Shared {
    pub fn new(buckets: u64, records: u64, callers: usize, stride: usize) -> Shared {
        let rows = ANNOUNCED + stride * callers;
        let count = rows + 8 * records as usize;
        let mut words = Vec::with_capacity(count);
        words.resize_with(count, || AtomicU64::new(0));
        words[0].store(buckets, SeqCst);
        words[1].store(1, SeqCst);
        Shared { words, rows, callers, stride }
    }

    pub fn drawn(&self) -> &AtomicU64 {
        &self.words[0]
    }

    fn word(&self, record: u64, field: usize) -> &AtomicU64 {
        &self.words[self.rows + 8 * (record as usize - 1) + field]
    }

    pub fn exchange_link(&self, record: u64, old: u64, new: u64) -> bool {
        self.word(record, LINK).compare_exchange(old, new, SeqCst, SeqCst).is_ok()
    }
}

/// Records are named by their numbers, from 1.
impl Words for Shared {
    const MARK: u64 = MARK;

    fn callers(&self) -> usize {
        self.callers
    }

    fn epoch(&self) -> &AtomicU64 {
        &self.words[1]
    }

    fn announced(&self, caller: usize, number: usize) -> &AtomicU64 {
        &self.words[ANNOUNCED + self.stride * caller + number]
    }

    fn load(&self, record: u64, field: usize) -> u64 {
        self.word(record, field).load(SeqCst)
    }

    fn store(&self, record: u64, field: usize, value: u64) {
        self.word(record, field).store(value, SeqCst);
    }
}
