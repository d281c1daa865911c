//! What the look-ups of a hazard scan cost. With n callers a scan loads 3 n words and looks the names of 6 n records up among
//! them: 384 names among 192 words with 64 callers, the most that there are. Here they are looked up by linear search, as
//! the proved program does; by binary search in the sorted words; and in std's hash set of the words. It prints a row for
//! each number of callers: nanoseconds for each name, and of the second and the third how many go into sorting the words or
//! making the set. One name in sixteen is among the words. The argument is how many scans are timed at a time: 20,000 where
//! there is none.

use std::collections::HashSet;
use std::env;
use std::hint::black_box;
use std::time::Instant;

const RUNS: usize = 5;
/// Of so many scans each has words and names of its own, so that no branch is learnt by heart.
const SCANS: usize = 64;

struct Scan {
    words: Vec<u64>,
    names: Vec<u64>,
}

/// What a caller would keep between its scans.
#[derive(Default)]
struct Room {
    sorted: Vec<u64>,
    set: HashSet<u64>,
}

/// Numbers without a pattern, by splitmix64.
struct Numbers(u64);

impl Numbers {
    /// A number below 2^40, as a record's name.
    fn next(&mut self) -> u64 {
        self.0 = self.0.wrapping_add(0x9e37_79b9_7f4a_7c15);
        let once = (self.0 ^ (self.0 >> 30)).wrapping_mul(0xbf58_476d_1ce4_e5b9);
        let twice = (once ^ (once >> 27)).wrapping_mul(0x94d0_49bb_1331_11eb);
        (twice ^ (twice >> 31)) & ((1 << 40) - 1)
    }
}

impl Scan {
    fn new(callers: usize, numbers: &mut Numbers) -> Scan {
        let words: Vec<u64> = (0..3 * callers).map(|_| numbers.next()).collect();
        let name = |at: usize| if at % 16 == 5 { words[at / 2] } else { numbers.next() };
        let names = (0..6 * callers).map(name).collect();
        Scan { words, names }
    }

    fn count(&self, is_named: impl Fn(&u64) -> bool) -> usize {
        self.names.iter().filter(|name| is_named(name)).count()
    }

    fn linear(&self, _: &mut Room) -> usize {
        self.count(|name| self.words.contains(name))
    }

    fn sort(&self, room: &mut Room) -> usize {
        room.sorted.clear();
        room.sorted.extend_from_slice(&self.words);
        room.sorted.sort_unstable();
        room.sorted.len()
    }

    fn binary(&self, room: &mut Room) -> usize {
        self.sort(room);
        self.count(|name| room.sorted.binary_search(name).is_ok())
    }

    fn make_set(&self, room: &mut Room) -> usize {
        room.set.clear();
        room.set.extend(&self.words);
        room.set.len()
    }

    fn hashed(&self, room: &mut Room) -> usize {
        self.make_set(room);
        self.count(|name| room.set.contains(name))
    }
}

/// The median of nanoseconds for each name.
fn measured(scans: &[Scan], rounds: usize, work: fn(&Scan, &mut Room) -> usize) -> f64 {
    let mut room = Room::default();
    let mut taken: Vec<f64> = (0..RUNS)
        .map(|_| {
            let begun = Instant::now();
            for scan in scans.iter().cycle().take(rounds) {
                black_box(work(black_box(scan), &mut room));
            }
            begun.elapsed().as_nanos() as f64 / (rounds * scans[0].names.len()) as f64
        })
        .collect();
    taken.sort_by(f64::total_cmp);
    taken[RUNS / 2]
}

fn main() {
    let rounds = env::args().nth(1).map_or(20_000, |word| word.parse().expect("a number of scans"));
    let mut numbers = Numbers(7);
    println!("| callers | words | names | linear | sorted | of which sorting | hash set | of which making it |");
    println!("|---|---|---|---|---|---|---|---|");
    for callers in [1, 2, 4, 16, 64] {
        let scans: Vec<Scan> = (0..SCANS).map(|_| Scan::new(callers, &mut numbers)).collect();
        let mut room = Room::default();
        for scan in &scans {
            let found = scan.linear(&mut room);
            assert!(found == scan.binary(&mut room) && found == scan.hashed(&mut room), "the searches differ");
        }
        let ways = [Scan::linear, Scan::binary, Scan::sort, Scan::hashed, Scan::make_set];
        let cells = ways.map(|work| format!("{:.1} ns", measured(&scans, rounds, work)));
        println!("| {callers} | {} | {} | {} |", 3 * callers, 6 * callers, cells.join(" | "));
    }
}
