//! Runs the calls of the display by the program `run_cases`, each list of calls from a fresh
//! display on, and compares what it prints with the reference: every answer with its place, the
//! replies, the packets, the frames sent, in lists with sends or timeouts the sender behind each
//! event, and at the end of each list the counts and the rows.
//!
//! Arguments: the program, then seeds; without them the run is always the same.

#[path = "../shared/batches.rs"]
mod batches;
#[path = "../reference/board.rs"]
#[allow(dead_code)]
mod board;
mod cases;
#[path = "../shared/child.rs"]
mod child;
mod classes;
#[path = "../shared/comparison.rs"]
mod comparison;
#[path = "../reference/display.rs"]
mod display;
#[path = "../reference/frame.rs"]
#[allow(dead_code)]
mod frame;
mod generated;
#[path = "../shared/lent.rs"]
mod lent;
#[path = "../shared/line_bytes.rs"]
mod line_bytes;
#[path = "../reference/packet.rs"]
#[allow(dead_code)]
mod packet;
#[path = "../shared/pairs.rs"]
mod pairs;
mod past;
#[path = "../shared/places.rs"]
mod places;
mod printed;
#[path = "../shared/random.rs"]
mod random;
mod random_sends;
#[path = "../reference/receiver.rs"]
mod receiver;
mod script;
#[path = "../shared/seeds.rs"]
mod seeds;
#[path = "../reference/sender.rs"]
mod sender;
mod sender_classes;
mod sends;
#[cfg(test)]
#[path = "../shared/stored.rs"]
mod stored;
#[cfg(test)]
mod stored_cases;
#[path = "../shared/strings.rs"]
mod strings;
mod systematic;
#[path = "../shared/tally.rs"]
mod tally;

use batches::{part, Case as _};
use cases::{Case, SUBJECT};
use classes::Class;
use comparison::{Comparison, Part};
use std::process::ExitCode;

// Random lists for each seed: of pieces, and of sends, timeouts and pieces.
const LISTS: usize = 120;
const LISTS_WITH_SENDS: usize = 250;

/// How often each kind of answer must be met for each seed.
const LEAST: u64 = 2;

fn main() -> ExitCode {
    let comparison = Comparison {
        name: "display",
        tally: Case::tally(),
        least: LEAST,
    };
    comparison.main(parts)
}

/// The systematic lists and those of each seed.
fn parts<'a>(program: &'a str, seeds: &'a [u64]) -> Vec<Part<'a, Class>> {
    let mut parts = vec![
        part(program, SUBJECT, systematic::divisions()),
        part(program, SUBJECT, systematic::places()),
        part(program, SUBJECT, systematic::long_runs()),
        part(program, SUBJECT, sends::cases()),
        part(program, SUBJECT, sends::orders()),
    ];
    for &seed in seeds {
        parts.push(part(program, SUBJECT, generated::cases(seed, LISTS)));
        let with_sends = random_sends::cases(seed, LISTS_WITH_SENDS);
        parts.push(part(program, SUBJECT, with_sends));
    }
    parts
}

/// Without the program: the lists have enough calls, they meet each kind of answer often enough,
/// and the program reads their lines.
#[cfg(test)]
mod calls {
    use super::*;
    use crate::tally::Tally;

    /// A batch that is nearly full has room for so many bytes.
    const LIST_BYTES_MAX: usize = 200_000;

    /// How many calls the lists make. The program has to read each line, and each list at once.
    fn count(cases: impl Iterator<Item = Case>, tally: &mut Tally<Class>) -> usize {
        let mut calls = 0;
        for case in cases {
            assert!(case.events.iter().all(cases::Event::fits_a_line));
            let steps = case.steps("label");
            let bytes = steps.iter().map(|step| step.line.len());
            assert!(bytes.sum::<usize>() < LIST_BYTES_MAX);
            for step in steps.iter().filter(|step| !step.classes.is_empty()) {
                calls += step.wanted.lines().count();
                tally.add(&step.classes);
            }
        }
        calls
    }

    #[test]
    fn are_many_and_of_each_kind() {
        let seeds = seeds::seeds(std::iter::empty()).expect("the fixed seeds");
        let random = seeds.iter().flat_map(|&seed| generated::cases(seed, LISTS));
        let systematic = systematic::divisions()
            .chain(systematic::places())
            .chain(systematic::long_runs());
        let with_sends = seeds
            .iter()
            .flat_map(|&seed| random_sends::cases(seed, LISTS_WITH_SENDS));
        let with_sends = sends::cases().chain(sends::orders()).chain(with_sends);
        let mut tally = Case::tally();
        let calls = count(systematic.chain(random), &mut tally);
        let calls_with_sends = count(with_sends.filter(Case::is_for_the_sender), &mut tally);
        assert_eq!(tally.rare(LEAST * seeds.len() as u64), []);
        assert!((20_000..80_000).contains(&calls), "{calls} calls");
        let many = 100_000..300_000;
        assert!(many.contains(&calls_with_sends), "{calls_with_sends} calls");
    }
}
