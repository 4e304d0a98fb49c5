//! The tests that are not rows of the vectors: exhaustive and hostile inputs, items and schemas
//! made by hand, places that no path leads to, and failing allocations.
//!
//! As a program, `unit SUBJECT COUNT` makes the calls of a subject while one allocation fails.
//! `checks/allocations/failing_calls` lets the allocation of some number fail, and COUNT says how
//! many are made before the calls. The call in which it fails has to run out of memory, and is
//! printed. The last line is `before` or `after` if it failed there, and `within` if it did not.
#![tactic(auto)]

mod claimed;
#[cfg(test)]
mod edits;
#[cfg(test)]
mod edn_notes;
#[cfg(test)]
mod floats;
#[cfg(test)]
mod hidden;
#[cfg(test)]
mod hostile_bytes;
#[cfg(test)]
mod hostile_names;
#[cfg(test)]
mod hostile_tokens;
#[cfg(test)]
mod items;
#[cfg(test)]
mod kept_schemas;
#[cfg(test)]
mod marks;
mod note_lines;
#[cfg(test)]
mod pieces;
mod refused_bytes;
mod refused_conversions;
mod refused_inputs;
mod refused_notes;
mod refused_places;
mod samples;
mod tally;

use crate::tally::Tally;
use std::alloc::Global;
use std::io::Print;
use std::process::{Abort, ExitCode};
use std::{env, io};

/// The subjects of the calls.
const SUBJECTS: [&str; 6] = [
    "bytes",
    "claimed",
    "conversions",
    "inputs",
    "notes",
    "places",
];

/// Makes the calls of a subject.
fn make_calls(
    rt: &(impl Abort + Print),
    alloc: Global,
    subject: &str,
    tally: &mut Tally,
) -> io::Result<()> {
    match subject {
        "bytes" => refused_bytes::run(rt, alloc, tally),
        "claimed" => claimed::run(rt, alloc, tally),
        "conversions" => refused_conversions::run(rt, alloc, tally),
        "inputs" => refused_inputs::run(rt, alloc, tally),
        "notes" => refused_notes::run(rt, alloc, tally),
        _ => refused_places::run(rt, alloc, tally),
    }
}

/// Makes this many allocations; returns whether one of them failed.
fn is_refused(alloc: Global, count: usize) -> bool {
    for _ in 0..count {
        if String::from_str(alloc, "text").is_err() {
            return true;
        }
    }
    false
}

/// Makes the calls of a subject after as many allocations, and prints what became of them.
fn run(rt: &(impl Abort + Print), alloc: Global, subject: &str, count: usize) -> io::Result<()> {
    if is_refused(alloc, count) {
        return println!(rt; "before");
    }
    let mut tally = Tally::NONE;
    make_calls(rt, alloc, subject, &mut tally)?;
    println!(rt; "{} calls", tally.calls)?;
    let place = if is_refused(alloc, 10_000) {
        "after"
    } else {
        "within"
    };
    println!(rt; "{place}")
}

fn main(rt: HostRuntime) -> ExitCode {
    let alloc = rt.alloc();
    let Ok(words) = env::args(&rt) else {
        return ExitCode::FAILURE;
    };
    let mut words = words.skip(1);
    let subject = words.next().unwrap_or(String::new(alloc));
    let count = words.next().unwrap_or(String::new(alloc));
    match run(&rt, alloc, &subject, count.parse::<usize>().unwrap_or(0)) {
        Ok(()) => ExitCode::SUCCESS,
        Err(_) => ExitCode::FAILURE,
    }
}

#[test]
fn calls_answer_where_memory_is_found(rt: HostRuntime) -> io::Result<()> {
    for subject in SUBJECTS {
        let mut tally = Tally::NONE;
        make_calls(&rt, rt.alloc(), subject, &mut tally)?;
        assert!(rt; tally.calls > 0 && tally.refused == 0, "{subject}");
    }
    Ok(())
}
