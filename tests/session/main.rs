//! Runs the program `run_cases` on many conversations over ASHv3, and on many lines to be cut into
//! frames, and compares what it prints with the reference. Before that it sets the conversations of
//! source document 002, sections 5.1 to 5.6, beside the document.
//!
//! Arguments: the program, then seeds; without them the run is always the same.

#[path = "../reference/ash.rs"]
#[allow(dead_code)]
mod ash;
#[path = "../shared/ash_inputs.rs"]
mod ash_inputs;
#[path = "../shared/batches.rs"]
mod batches;
mod cases;
#[path = "../shared/child.rs"]
mod child;
mod classes;
#[path = "../shared/comparison.rs"]
mod comparison;
mod cut_classes;
#[path = "../reference/cutter.rs"]
mod cutter;
mod document;
mod events;
#[path = "../reference/frame.rs"]
#[allow(dead_code)]
mod frame;
mod generated;
#[path = "../shared/lent.rs"]
mod lent;
#[path = "../shared/line_bytes.rs"]
#[allow(dead_code)]
mod line_bytes;
mod peer;
mod pieces;
mod printed;
#[path = "../shared/random.rs"]
mod random;
#[cfg(test)]
mod readings;
#[path = "../shared/seeds.rs"]
mod seeds;
#[path = "../reference/session.rs"]
mod session;
mod states;
#[cfg(test)]
#[path = "../shared/stored.rs"]
mod stored;
#[cfg(test)]
mod stored_cases;
mod streams;
mod systematic;
#[path = "../shared/tally.rs"]
mod tally;

use batches::{part, Case as _};
use cases::{Case, CUTTER_SUBJECT, SESSION_SUBJECT};
use classes::Class;
use comparison::{Comparison, Part};
use std::process::ExitCode;
use systematic::Data;

// For each seed.
const CONVERSATIONS: usize = 700;
const STREAMS: usize = 1_000;

fn main() -> ExitCode {
    if let Some(program) = std::env::args().nth(1) {
        if let Err(difference) = document::run(&program) {
            eprintln!("{difference}");
            return ExitCode::FAILURE;
        }
    }
    let comparison = Comparison {
        name: "session",
        tally: Case::tally(),
        least: 25,
    };
    comparison.main(parts)
}

/// The systematic cases and those of each seed, of each subject.
fn parts<'a>(program: &'a str, seeds: &'a [u64]) -> Vec<Part<'a, Class>> {
    let mut parts = vec![
        part(program, SESSION_SUBJECT, systematic::frames(Data::Short)),
        part(program, SESSION_SUBJECT, systematic::frames(Data::Longest)),
        part(program, SESSION_SUBJECT, systematic::others()),
        part(program, CUTTER_SUBJECT, pieces::cases()),
    ];
    for &seed in seeds {
        let conversations = generated::cases(seed, CONVERSATIONS);
        let streams = streams::cases(seed, STREAMS);
        parts.push(part(program, SESSION_SUBJECT, conversations));
        parts.push(part(program, CUTTER_SUBJECT, streams));
    }
    parts
}

/// Request C-21 is compared over at least so many random events.
#[cfg(test)]
#[test]
fn random_events_are_many() {
    let seeds = seeds::seeds(std::iter::empty()).expect("the fixed seeds");
    let cases = seeds.iter().flat_map(|&seed| generated::cases(seed, CONVERSATIONS));
    let events = cases.map(|case| match case {
        Case::Conversation(events) => events.len(),
        _ => 0,
    });
    assert!(events.sum::<usize>() >= 100_000);
}
