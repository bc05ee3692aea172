//! Runs the program `replay` on generated histories, and compares what it prints with the program
//! written a second time from document 01.
//!
//! Arguments: the program, how many histories, the seed.

#[path = "../reference/board.rs"]
#[allow(dead_code)]
mod board;
#[path = "../shared/child.rs"]
mod child;
#[path = "../reference/frame.rs"]
#[allow(dead_code)]
mod frame;
mod histories;
#[path = "../reference/packet.rs"]
#[allow(dead_code)]
mod packet;
#[path = "../reference/program.rs"]
mod program;
#[path = "../shared/random.rs"]
mod random;
#[path = "../reference/receiver.rs"]
#[allow(dead_code)]
mod receiver;
mod sights;
#[path = "../reference/watch_list.rs"]
#[allow(dead_code)]
mod watch_list;

use random::Random;
use sights::Sights;
use std::env;
use std::process::ExitCode;
use std::thread;

fn main() -> ExitCode {
    let words: Vec<String> = env::args().collect();
    let [_, program, count, seed] = words.as_slice() else {
        eprintln!("usage: replay_test PROGRAM COUNT SEED");
        return ExitCode::from(2);
    };
    let (Ok(count), Ok(seed)) = (count.parse::<u64>(), seed.parse::<u64>()) else {
        eprintln!("COUNT and SEED are numbers");
        return ExitCode::from(2);
    };
    if count == 0 {
        eprintln!("no history, no test");
        return ExitCode::from(2);
    }
    let workers = thread::available_parallelism().map_or(1, |n| n.get() as u64);
    let runs: Vec<_> = (0..workers)
        .map(|worker| {
            let program = program.clone();
            thread::spawn(move || run(&program, (worker..count).step_by(workers as usize), seed))
        })
        .collect();
    let mut seen = Sights::new();
    for worker in runs {
        match worker.join().expect("a worker that ended") {
            Ok(sights) => seen.join(&sights),
            Err(difference) => {
                eprintln!("{difference}");
                return ExitCode::FAILURE;
            }
        }
    }
    seen.print();
    println!("replay: {count} histories alike, seed {seed}");
    let rare = seen.rare();
    if !rare.is_empty() {
        eprintln!("too few histories show {rare:?}");
    }
    ExitCode::from(u8::from(!rare.is_empty()))
}

fn run(
    program: &str,
    numbers: impl Iterator<Item = u64>,
    seed: u64,
) -> Result<Sights, String> {
    let mut seen = Sights::new();
    for number in numbers {
        let mut random = Random::new(seed.wrapping_add(number.wrapping_mul(0x9e37)));
        let history = match number {
            0 => histories::noise_of_a_mebibyte(&mut random),
            1 => histories::counts_that_wrap(),
            _ => histories::history(&mut random),
        };
        let expected = program::output(&history);
        let printed = child::printed(program, &history).map_err(|error| error.to_string())?;
        if printed != expected.as_bytes() {
            let printed = String::from_utf8_lossy(&printed);
            return Err(format!(
                "history {number} of seed {seed}: {history:02x?}\nexpected\n{expected}printed\n{printed}"
            ));
        }
        seen.add(&expected);
    }
    Ok(seen)
}
