//! Damage on the line (C-19), given to the library: what it has to catch, and what it cannot. Seeds
//! may be given as arguments; without them the run is always the same.

#[path = "../shared/archive.rs"]
#[allow(dead_code)]
mod archive;
mod bursts;
mod checks;
mod classes;
mod content;
#[path = "../reference/division.rs"]
mod division;
mod escapes;
#[path = "../reference/frame.rs"]
#[allow(dead_code)]
mod frame;
#[path = "../shared/line_bytes.rs"]
mod line_bytes;
mod passing;
#[path = "../shared/random.rs"]
mod random;
mod random_bursts;
mod reader;
mod runs;
#[path = "../shared/seeds.rs"]
mod seeds;
mod sent;
#[path = "../shared/tally.rs"]
#[allow(dead_code)]
mod tally;
#[path = "../shared/trials.rs"]
#[allow(dead_code)]
mod trials;

use classes::Class;
use std::process::ExitCode;

/// How often each kind of damage must be met.
const LEAST: u64 = 40;

fn main() -> ExitCode {
    trials::main("damage", Class::all(), LEAST, |trials, seeds| {
        runs::shortest(trials);
        println!("damage that is caught:");
        runs::within_16_bits(trials, seeds);
        runs::within_two_sent_bytes(trials, seeds);
        runs::other_17_bits(trials, seeds);
        println!("damage that passes:");
        runs::polynomial(trials, seeds);
        trials.note_many("7d or 7e made or unmade", runs::flags_and_escapes_made());
    })
}
