//! Runs the program `run_cases` on many cases of ASHv3 frames, and compares what it prints with the
//! reference.
//!
//! Arguments: the program, then seeds; without them the run is always the same.

#[path = "../reference/ash.rs"]
mod ash;
#[path = "../shared/ash_inputs.rs"]
mod ash_inputs;
#[path = "../shared/batches.rs"]
mod batches;
mod cases;
#[path = "../shared/child.rs"]
mod child;
mod classes;
#[path = "../shared/comparison.rs"]
mod comparison;
#[path = "../reference/frame.rs"]
#[allow(dead_code)]
mod frame;
mod generated;
#[path = "../shared/random.rs"]
mod random;
#[path = "../shared/seeds.rs"]
mod seeds;
#[cfg(test)]
#[path = "../shared/stored.rs"]
mod stored;
mod systematic;
#[path = "../shared/tally.rs"]
mod tally;

use batches::{part, Case as _};
use cases::{Case, SUBJECT};
use classes::Class;
use comparison::{Comparison, Part};
use std::process::ExitCode;

/// Generated cases for each seed.
const GENERATED: usize = 32_000;

fn main() -> ExitCode {
    let comparison = Comparison {
        name: "ash",
        tally: Case::tally(),
        least: 50,
    };
    comparison.main(parts)
}

/// The systematic cases and those of each seed.
fn parts<'a>(program: &'a str, seeds: &'a [u64]) -> Vec<Part<'a, Class>> {
    let mut parts = vec![part(program, SUBJECT, systematic::cases())];
    for seed in seeds {
        parts.push(part(program, SUBJECT, generated::cases(*seed, GENERATED)));
    }
    parts
}
