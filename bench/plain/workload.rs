//! Workloads and their text, for the plain programs.

use std::io::{self, Read, Write};

const MOST_BYTES: u64 = 67_108_864;
const MOST_CALLERS: u64 = 64;
const MOST_CALLS: usize = 1_000_000;
const MOST_PHASE_LINES: usize = 1_000;
const MOST_KEY: u64 = 1_099_511_627_773;
const MOST_DIGITS: usize = 13;

#[derive(Clone, Copy)]
pub enum Call {
    Insert(u64),
    Remove(u64),
    Search(u64),
}

impl Call {
    pub fn letter_and_key(self) -> (char, u64) {
        match self {
            Call::Insert(key) => ('i', key),
            Call::Remove(key) => ('r', key),
            Call::Search(key) => ('s', key),
        }
    }
}

/// The calls of one caller, and how many of them come before each phase but the first.
#[derive(Default)]
pub struct Caller {
    pub calls: Vec<Call>,
    pub cuts: Vec<usize>,
}

impl Caller {
    pub fn phase(&self, phase: usize) -> &[Call] {
        let start = if phase == 0 { 0 } else { self.cuts[phase - 1] };
        let end = self.cuts.get(phase).copied().unwrap_or(self.calls.len());
        &self.calls[start..end]
    }
}

pub struct Workload {
    pub version: u64,
    pub callers: Vec<Caller>,
}

impl Workload {
    pub fn total(&self) -> usize {
        self.callers.iter().map(|caller| caller.calls.len()).sum()
    }

    pub fn phases(&self) -> usize {
        self.callers[0].cuts.len()
    }
}

/// The number up to `most` that these digits write, without a leading zero. None where they write none.
fn number_of(digits: &[u8], most: u64) -> Option<u64> {
    if digits.is_empty() || digits.len() > MOST_DIGITS || (digits[0] == b'0' && digits.len() > 1) {
        return None;
    }
    let mut number = 0;
    for digit in digits {
        if !digit.is_ascii_digit() {
            return None;
        }
        number = number * 10 + u64::from(digit - b'0');
    }
    (number <= most).then_some(number)
}

/// The call of a line without its line feed.
fn call_of(line: &[u8]) -> Option<Call> {
    match line {
        [b'i', b' ', digits @ ..] => number_of(digits, MOST_KEY).map(Call::Insert),
        [b'r', b' ', digits @ ..] => number_of(digits, MOST_KEY).map(Call::Remove),
        [b's', b' ', digits @ ..] => number_of(digits, MOST_KEY).map(Call::Search),
        _ => None,
    }
}

/// The lines of bytes, each without its line feed. What stands behind the last line feed is left.
struct Lines<'a> {
    rest: &'a [u8],
}

impl<'a> Iterator for Lines<'a> {
    type Item = &'a [u8];

    fn next(&mut self) -> Option<&'a [u8]> {
        let feed = self.rest.iter().position(|byte| *byte == b'\n')?;
        let line = &self.rest[..feed];
        self.rest = &self.rest[feed + 1..];
        Some(line)
    }
}

/// The number up to `most` of a line that begins with this word and a blank.
fn numbered(line: &[u8], word: &[u8], most: u64) -> Option<u64> {
    number_of(line.strip_prefix(word)?.strip_prefix(b" ")?, most)
}

/// The workload whose text the bytes are. None where they are none.
fn workload_of(bytes: &[u8]) -> Option<Workload> {
    let mut lines = Lines { rest: bytes };
    let version = numbered(lines.next()?, b"setbench", 2).filter(|version| *version > 0)?;
    let wanted = numbered(lines.next()?, b"callers", MOST_CALLERS).filter(|count| *count > 0)?;
    numbered(lines.next()?, b"caller", 0)?;
    let mut callers: Vec<Caller> = Vec::new();
    let (mut caller, mut total) = (Caller::default(), 0);
    loop {
        let line = lines.next()?;
        if let Some(call) = call_of(line) {
            if total == MOST_CALLS {
                return None;
            }
            total += 1;
            caller.calls.push(call);
            continue;
        }
        let most = callers.first().map_or(MOST_PHASE_LINES, |first| first.cuts.len());
        if line == b"phase" {
            if version == 1 || caller.cuts.len() == most {
                return None;
            }
            caller.cuts.push(caller.calls.len());
            continue;
        }
        if !callers.is_empty() && caller.cuts.len() != most {
            return None;
        }
        callers.push(std::mem::take(&mut caller));
        let due = callers.len() as u64;
        if line == b"end" {
            let is_whole = due == wanted && lines.rest.is_empty();
            return is_whole.then_some(Workload { version, callers });
        }
        if due == wanted || numbered(line, b"caller", MOST_CALLERS)? != due {
            return None;
        }
    }
}

/// The workload on standard input, or the status of `setbench` where there is none.
pub fn read_workload() -> Result<Workload, u8> {
    let mut bytes = Vec::new();
    let mut input = io::stdin().take(MOST_BYTES + 1);
    input.read_to_end(&mut bytes).map_err(|_| 6)?;
    if bytes.len() as u64 > MOST_BYTES {
        return Err(9);
    }
    workload_of(&bytes).ok_or(3)
}

/// What `check` prints.
pub fn print_sizes(out: &mut impl Write, workload: &Workload) -> io::Result<()> {
    write!(out, "ok callers {} calls {}", workload.callers.len(), workload.total())?;
    if workload.version == 2 {
        write!(out, " phases {}", workload.phases())?;
    }
    writeln!(out)
}
