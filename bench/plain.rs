// The jobs of `setbench check`, `setbench generate` and `setbench play --set plain --reclaimer none`,
// in Rust with std alone, to measure them beside it. The words behind `generate` are four numbers:
// callers, calls of each, keys and seed.

#[path = "plain/report.rs"]
mod report;
#[path = "plain/workload.rs"]
mod workload;

use report::{print_report, Left, Records};
use std::io::{self, BufWriter, Write};
use std::process::ExitCode;
use workload::{print_sizes, read_workload, Call, Caller, Workload};

/// O'Neill's PCG with 64 bits of state and words of 32 bits (XSH RR).
struct Pcg {
    state: u64,
    increment: u64,
}

impl Pcg {
    const MULTIPLIER: u64 = 6_364_136_223_846_793_005;

    fn new(seed: u64, stream: u64) -> Pcg {
        let increment = (stream << 1) | 1;
        let mut words = Pcg { state: seed.wrapping_add(increment), increment };
        words.step();
        words
    }

    fn step(&mut self) {
        self.state = self.state.wrapping_mul(Self::MULTIPLIER).wrapping_add(self.increment);
    }

    fn next(&mut self) -> u32 {
        let state = self.state;
        self.step();
        ((((state >> 18) ^ state) >> 27) as u32).rotate_right((state >> 59) as u32)
    }
}

/// The workload of so many callers and calls of each, over so many keys of each caller's own.
fn generated([callers, calls, keys, seed]: [u64; 4]) -> Workload {
    let made = (0..callers).map(|caller| {
        let mut words = Pcg::new(seed, caller);
        let calls = (0..calls).map(|_| {
            let (kind, place) = (words.next(), u64::from(words.next()) % keys);
            let key = place * callers + caller;
            match kind % 4 {
                0 | 1 => Call::Insert(key),
                2 => Call::Remove(key),
                _ => Call::Search(key),
            }
        });
        Caller { calls: calls.collect(), cuts: Vec::new() }
    });
    Workload { version: 1, callers: made.collect() }
}

fn print_workload(out: &mut impl Write, workload: &Workload) -> io::Result<()> {
    writeln!(out, "setbench {}", workload.version)?;
    writeln!(out, "callers {}", workload.callers.len())?;
    for (number, caller) in workload.callers.iter().enumerate() {
        writeln!(out, "caller {number}")?;
        for phase in 0..=workload.phases() {
            if phase > 0 {
                writeln!(out, "phase")?;
            }
            for call in caller.phase(phase) {
                let (letter, key) = call.letter_and_key();
                writeln!(out, "{letter} {key}")?;
            }
        }
    }
    writeln!(out, "end")
}

/// Plays a call over the keys, which rise, and answers it.
fn apply(keys: &mut Vec<u64>, call: Call) -> bool {
    match call {
        Call::Insert(key) => match keys.binary_search(&key) {
            Ok(_) => false,
            Err(place) => {
                keys.insert(place, key);
                true
            }
        },
        Call::Remove(key) => match keys.binary_search(&key) {
            Ok(place) => {
                keys.remove(place);
                true
            }
            Err(_) => false,
        },
        Call::Search(key) => keys.binary_search(&key).is_ok(),
    }
}

/// The replies to each caller, and what is left.
fn played(workload: &Workload) -> Left {
    let mut keys = Vec::new();
    let room = |caller: &Caller| Vec::with_capacity(caller.calls.len());
    let mut replies: Vec<Vec<bool>> = workload.callers.iter().map(room).collect();
    for phase in 0..=workload.phases() {
        for (caller, replies) in workload.callers.iter().zip(&mut replies) {
            replies.extend(caller.phase(phase).iter().map(|call| apply(&mut keys, *call)));
        }
    }
    Left { replies, size: keys.len() as u64, sum: keys.iter().sum(), records: Records::default() }
}

fn run(words: &[String]) -> Result<(), u8> {
    let mut out = BufWriter::new(io::stdout().lock());
    let printed = match words.first().map(String::as_str) {
        Some("check") => print_sizes(&mut out, &read_workload()?),
        Some("play") => {
            let workload = read_workload()?;
            print_report(&mut out, "plain", "none", &workload, &played(&workload))
        }
        Some("generate") => {
            let numbers: Vec<u64> = words[1..].iter().filter_map(|word| word.parse().ok()).collect();
            print_workload(&mut out, &generated(numbers.try_into().map_err(|_| 2)?))
        }
        _ => return Err(2),
    };
    printed.and_then(|()| out.flush()).map_err(|_| 7)
}

/// The statuses are those of `setbench`; only what is printed for a refusal is left out.
fn main() -> ExitCode {
    let words: Vec<String> = std::env::args().skip(1).collect();
    ExitCode::from(run(&words).err().unwrap_or(0))
}
