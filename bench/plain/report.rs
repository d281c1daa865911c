//! Reports and their text, for the plain programs.

use crate::workload::Workload;
use std::io::{self, Write};

/// What a run left.
pub struct Left {
    /// Whether each call of each caller was answered yes.
    pub replies: Vec<Vec<bool>>,
    pub size: u64,
    pub sum: u64,
    pub records: Records,
}

/// How many records were drawn, reused and retired, and where they are. What was retired and isn't in limbo was freed.
#[derive(Default)]
pub struct Records {
    pub drawn: u64,
    pub reused: u64,
    pub retired: u64,
    pub limbo: u64,
    pub free: u64,
    pub spare: u64,
}

pub fn print_report(out: &mut impl Write, set: &str, reclaimer: &str, workload: &Workload, left: &Left) -> io::Result<()> {
    let (callers, total) = (workload.callers.len(), workload.total());
    writeln!(out, "set {set} reclaimer {reclaimer} callers {callers} calls {total}")?;
    for (number, (caller, replies)) in workload.callers.iter().zip(&left.replies).enumerate() {
        writeln!(out, "caller {number}")?;
        for (call, reply) in caller.calls.iter().zip(replies) {
            let (letter, key) = call.letter_and_key();
            let reply = if *reply { "yes" } else { "no" };
            writeln!(out, "{letter} {key} {reply}")?;
        }
    }
    writeln!(out, "size {} sum {}", left.size, left.sum)?;
    let Records { drawn, reused, retired, limbo, free, spare } = left.records;
    let freed = retired - limbo;
    writeln!(
        out,
        "records drawn {drawn} reused {reused} retired {retired} freed {freed} limbo {limbo} free {free} spare {spare} spent 0"
    )
}
