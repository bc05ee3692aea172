//! Runs the program `run_cases` on many packets, readings of the board, watch lists and file
//! fragments, and compares what it prints with the reference.
//!
//! Arguments: the program, then seeds; without them the run is always the same.

mod applying;
#[path = "../shared/batches.rs"]
mod batches;
#[path = "../reference/board.rs"]
mod board;
mod cases;
#[path = "../shared/child.rs"]
mod child;
mod classes;
#[path = "../shared/comparison.rs"]
mod comparison;
mod draft;
mod files;
mod fragments;
mod generated;
mod list_classes;
mod lists;
#[path = "../reference/packet.rs"]
mod packet;
#[path = "../shared/random.rs"]
mod random;
mod random_lists;
mod receiver;
#[path = "../shared/seeds.rs"]
mod seeds;
#[cfg(test)]
#[path = "../shared/stored.rs"]
mod stored;
#[path = "../shared/strings.rs"]
mod strings;
mod systematic;
#[path = "../shared/tally.rs"]
mod tally;
#[path = "../reference/transfer.rs"]
mod transfer;
#[path = "../reference/watch_list.rs"]
mod watch_list;

use batches::{part, Case as _};
use cases::{Case, BOARD_SUBJECT, PACKET_SUBJECT, TRANSFER_SUBJECT};
use classes::Class;
use comparison::{Comparison, Part};
use std::process::ExitCode;

// Generated packets and watch lists for each seed.
const PACKETS: usize = 16_000;
const READINGS: usize = 16_000;
const LISTS: usize = 16_000;
const FRAGMENTS: usize = 16_000;

fn main() -> ExitCode {
    let comparison = Comparison {
        name: "packet",
        tally: Case::tally(),
        least: 25,
    };
    comparison.main(parts)
}

/// The systematic cases and those of each seed, of each subject.
fn parts<'a>(program: &'a str, seeds: &'a [u64]) -> Vec<Part<'a, Class>> {
    let mut parts = vec![
        part(program, PACKET_SUBJECT, systematic::packet_cases()),
        part(program, BOARD_SUBJECT, systematic::board_cases()),
        part(program, BOARD_SUBJECT, lists::cases()),
        part(program, TRANSFER_SUBJECT, files::cases()),
    ];
    for &seed in seeds {
        let packets = generated::packet_cases(seed, PACKETS);
        let readings = generated::board_cases(seed, READINGS);
        let lists = random_lists::cases(seed, LISTS);
        let fragments = fragments::cases(seed, FRAGMENTS);
        parts.push(part(program, PACKET_SUBJECT, packets));
        parts.push(part(program, BOARD_SUBJECT, readings));
        parts.push(part(program, BOARD_SUBJECT, lists));
        parts.push(part(program, TRANSFER_SUBJECT, fragments));
    }
    parts
}
