//! Says whether a report of `setbench play` can be right, by the workload alone that was played: `judge WORKLOAD REPORT`,
//! which takes the names of two files. It shares no code with the program, and knows nothing of how a run went.
//!
//! Where the report can be right, it prints one line of names with values and ends with status 0: for how many keys an
//! order was `searched` and found, and for how many it was only `counted`; whether one of all calls together, the `whole`,
//! was found; whether the replies are those of one caller after another, `in_turn`; how often a record was `reused`, how many
//! are `spare`, and how many are `marked` and yet linked. Where it can't be right, it prints why not, after the word
//! `refused`, and ends with status 1. Status 2: a file couldn't be read, or is no text of its kind. `--buckets N --records N`
//! in front tell it of the table, so that it also judges how many records were drawn.
//!
//! Build it with `rustc --edition 2021 -O judge.rs`. README.md, beside this file, has the rules.

#[path = "judge/counts.rs"]
mod counts;
#[path = "judge/keys.rs"]
mod keys;
#[path = "judge/orders.rs"]
mod orders;
#[path = "judge/report.rs"]
mod report;
#[path = "judge/run.rs"]
mod run;
#[path = "judge/text.rs"]
mod text;
#[path = "judge/workload.rs"]
mod workload;

use counts::Table;
use report::{read_report, Report};
use run::Run;
use std::process::ExitCode;
use workload::{read_workload, Workload};

/// What the words ask for.
struct Asked {
    table: Option<Table>,
    workload: String,
    report: String,
}

fn asked(words: &[String]) -> Option<Asked> {
    let (table, files) = match words {
        [first, buckets, second, records, files @ ..] if first == "--buckets" && second == "--records" => {
            let (buckets, records) = (text::number(buckets)?, text::number(records)?);
            (Some(Table { buckets, records }), files)
        }
        files => (None, files),
    };
    let [workload, report] = files else { return None };
    Some(Asked { table, workload: workload.clone(), report: report.clone() })
}

fn read<T>(name: &str, of: fn(&str) -> Result<T, String>) -> Result<T, String> {
    let text = std::fs::read_to_string(name).map_err(|error| format!("{name}: {error}"))?;
    of(&text).map_err(|cause| format!("{name}: {cause}"))
}

/// The line about a report that can be right.
fn judged(table: Option<Table>, workload: Workload, report: &Report) -> Result<String, String> {
    let run = Run::of(workload, report)?;
    run.has_size_and_sum(report.size, report.sum)?;
    run.has_replies_of_its_set()?;
    let keys = keys::judged(&run)?;
    counts::judged(&run, &report.counts, table)?;
    let in_turn = if run.first_out_of_turn().is_none() { "yes" } else { "no" };
    let numbers = format!("callers {} calls {} full {}", report.callers, report.calls, run.fulls());
    let orders = format!("searched {} counted {} whole {} in_turn {in_turn}", keys.searched, keys.counted, keys.whole);
    let (marked, told) = (counts::marked(&run, &report.counts), &report.counts);
    Ok(format!("right {numbers} {orders} reused {} spare {} marked {marked}", told.reused, told.spare))
}

fn main() -> ExitCode {
    let words: Vec<String> = std::env::args().skip(1).collect();
    let Some(asked) = asked(&words) else {
        eprintln!("usage: judge [--buckets N --records N] WORKLOAD REPORT");
        return ExitCode::from(2);
    };
    let files =
        read(&asked.workload, read_workload).and_then(|workload| Ok((workload, read(&asked.report, read_report)?)));
    match files.map(|(workload, report)| judged(asked.table, workload, &report)) {
        Ok(Ok(line)) => {
            println!("{line}");
            ExitCode::from(0)
        }
        Ok(Err(cause)) => {
            println!("refused: {cause}");
            ExitCode::from(1)
        }
        Err(cause) => {
            eprintln!("judge: {cause}");
            ExitCode::from(2)
        }
    }
}
