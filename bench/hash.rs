//! The plain program beside the hash table: Michael's lists (2002), one a bucket, over one `Vec<AtomicU64>`, by
//! sequentially consistent steps, under no reclamation, DEBRA, hazard pointers or 2GEIBR. Each caller has a thread of its
//! own. Records are drawn by an addition to one word. `hash check` reads a workload; `hash play BUCKETS RECLAIMER` plays
//! it and prints its report. `STRIDE` in the environment is how many words lie from one caller's announcements to the
//! next one's: 4, as in the proved program's format, where it isn't there.

#[path = "plain/reclaimers.rs"]
mod reclaimers;
#[path = "plain/report.rs"]
mod report;
#[path = "plain/shared.rs"]
mod shared;
#[path = "plain/workload.rs"]
mod workload;

use reclaimers::{Debra, Hazard, Ibr, Never, Reclaimer, Words, BIRTH, LINK};
use report::{print_report, Left, Records};
use shared::{Shared, KEY, MARK};
use std::io::{self, BufWriter, Write};
use std::process::ExitCode;
use std::sync::atomic::Ordering::SeqCst;
use workload::{print_sizes, read_workload, Call, Caller, Workload};

/// Where a walk ended.
enum Spot {
    Present { before: u64, at: u64, link: u64 },
    Absent { before: u64, next: u64 },
}

/// What a caller has of its own beside the table.
struct Own<R> {
    caller: usize,
    reclaimer: R,
    free: Vec<u64>,
    spare: Option<u64>,
    reused: u64,
    retired: u64,
}

struct Table {
    shared: Shared,
    buckets: u64,
}

impl Table {
    /// Takes out a marked record. `false`: another step was first.
    fn take_out<R: Reclaimer>(&self, own: &mut Own<R>, before: u64, at: u64, next: u64) -> bool {
        let is_out = self.shared.exchange_link(before, at, next);
        if is_out {
            own.retired += 1;
            own.reclaimer.retire(&self.shared, own.caller, at, &mut own.free);
        }
        is_out
    }

    /// Walks to the place of the key, and takes out the marked records on its way.
    fn find<R: Reclaimer>(&self, own: &mut Own<R>, key: u64) -> Spot {
        'tries: loop {
            let mut before = key % self.buckets + 1;
            // The places of the record that is walked from and of the one that comes next.
            let (mut here, mut there) = (0, 1);
            loop {
                let Some(at) = own.reclaimer.hold(&self.shared, own.caller, there, before) else { continue 'tries };
                if at & MARK != 0 {
                    continue 'tries;
                }
                if at == 0 {
                    return Spot::Absent { before, next: at };
                }
                let found = self.shared.load(at, KEY);
                let link = self.shared.load(at, LINK);
                if link & MARK != 0 {
                    if !self.take_out(own, before, at, link & !MARK) {
                        continue 'tries;
                    }
                } else if found < key {
                    before = at;
                    (here, there) = (there, here);
                } else if found == key {
                    return Spot::Present { before, at, link };
                } else {
                    return Spot::Absent { before, next: at };
                }
            }
        }
    }

    /// A record that isn't linked: the spare one, one that came back, or one that is drawn.
    fn fresh<R: Reclaimer>(&self, own: &mut Own<R>) -> u64 {
        if let Some(record) = own.spare.take() {
            return record;
        }
        let Some(record) = own.free.pop() else { return self.shared.drawn().fetch_add(1, SeqCst) + 1 };
        own.reused += 1;
        record
    }

    fn insert<R: Reclaimer>(&self, own: &mut Own<R>, key: u64) -> bool {
        let mut hand = None;
        loop {
            match self.find(own, key) {
                Spot::Present { .. } => {
                    own.spare = own.spare.or(hand);
                    return false;
                }
                Spot::Absent { before, next } => {
                    let record = hand.unwrap_or_else(|| {
                        let record = self.fresh(own);
                        if let Some(birth) = own.reclaimer.birth(&self.shared) {
                            self.shared.store(record, BIRTH, birth);
                        }
                        record
                    });
                    self.shared.store(record, KEY, key);
                    self.shared.store(record, LINK, next);
                    if self.shared.exchange_link(before, next, record) {
                        return true;
                    }
                    hand = Some(record);
                }
            }
        }
    }

    fn remove<R: Reclaimer>(&self, own: &mut Own<R>, key: u64) -> bool {
        loop {
            match self.find(own, key) {
                Spot::Absent { .. } => return false,
                Spot::Present { before, at, link } => {
                    if self.shared.exchange_link(at, link, link | MARK) {
                        self.take_out(own, before, at, link);
                        return true;
                    }
                }
            }
        }
    }

    fn apply<R: Reclaimer>(&self, own: &mut Own<R>, call: Call) -> bool {
        own.reclaimer.enter(&self.shared, own.caller, &mut own.free);
        let reply = match call {
            Call::Insert(key) => self.insert(own, key),
            Call::Remove(key) => self.remove(own, key),
            Call::Search(key) => matches!(self.find(own, key), Spot::Present { .. }),
        };
        own.reclaimer.leave(&self.shared, own.caller);
        reply
    }

    /// The number and the sum of the keys that are left.
    fn size_and_sum(&self) -> (u64, u64) {
        let (mut size, mut sum) = (0, 0);
        for root in 1..=self.buckets {
            let mut link = self.shared.load(root, LINK);
            while link & !MARK != 0 {
                let at = link & !MARK;
                link = self.shared.load(at, LINK);
                if link & MARK == 0 {
                    size += 1;
                    sum += self.shared.load(at, KEY);
                }
            }
        }
        (size, sum)
    }
}

fn insertions(workload: &Workload) -> u64 {
    let calls = workload.callers.iter().flat_map(|caller| &caller.calls);
    calls.filter(|call| matches!(call, Call::Insert(_))).count() as u64
}

/// Plays the workload phase by phase, and in each phase all callers at the same time.
fn played<R: Reclaimer>(workload: &Workload, buckets: u64) -> Left {
    let stride = std::env::var("STRIDE").ok().and_then(|word| word.parse().ok()).unwrap_or(4).max(4);
    let shared = Shared::new(buckets, buckets + insertions(workload), workload.callers.len(), stride);
    let table = Table { shared, buckets };
    let room = |caller: &Caller| Vec::with_capacity(caller.calls.len());
    let mut replies: Vec<Vec<bool>> = workload.callers.iter().map(room).collect();
    let seat = |caller| Own { caller, reclaimer: R::default(), free: Vec::new(), spare: None, reused: 0, retired: 0 };
    let mut owns: Vec<Own<R>> = (0..workload.callers.len()).map(seat).collect();
    for phase in 0..=workload.phases() {
        std::thread::scope(|threads| {
            for ((caller, replies), own) in workload.callers.iter().zip(&mut replies).zip(&mut owns) {
                let table = &table;
                threads.spawn(move || {
                    let mut mine = std::mem::replace(own, seat(own.caller));
                    replies.extend(caller.phase(phase).iter().map(|call| table.apply(&mut mine, *call)));
                    *own = mine;
                });
            }
        });
    }
    let (size, sum) = table.size_and_sum();
    let total = |count: fn(&Own<R>) -> u64| owns.iter().map(count).sum();
    let records = Records {
        drawn: table.shared.drawn().load(SeqCst) - buckets,
        reused: total(|own| own.reused),
        retired: total(|own| own.retired),
        limbo: total(|own| own.reclaimer.limbo() as u64),
        free: total(|own| own.free.len() as u64),
        spare: total(|own| u64::from(own.spare.is_some())),
    };
    Left { replies, size, sum, records }
}

fn run(words: &[String]) -> Result<(), u8> {
    let mut out = BufWriter::new(io::stdout().lock());
    let workload = read_workload()?;
    let printed = match words {
        [word] if word == "check" => print_sizes(&mut out, &workload),
        [word, buckets, reclaimer] if word == "play" => {
            let buckets: u64 = buckets.parse().map_err(|_| 2)?;
            let left = match reclaimer.as_str() {
                Never::NAME => played::<Never>(&workload, buckets),
                Debra::NAME => played::<Debra>(&workload, buckets),
                Hazard::NAME => played::<Hazard>(&workload, buckets),
                Ibr::NAME => played::<Ibr>(&workload, buckets),
                _ => return Err(2),
            };
            print_report(&mut out, "michael", reclaimer, &workload, &left)
        }
        _ => return Err(2),
    };
    printed.and_then(|()| out.flush()).map_err(|_| 7)
}

/// The statuses are those of `setbench`.
fn main() -> ExitCode {
    let words: Vec<String> = std::env::args().skip(1).collect();
    ExitCode::from(run(&words).err().unwrap_or(0))
}
