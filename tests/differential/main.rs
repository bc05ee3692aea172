//! The library against the reference on many inputs. Seeds may be given as arguments; without
//! them the run is always the same.

#[path = "../shared/archive.rs"]
mod archive;
mod classes;
mod compare;
#[path = "../reference/division.rs"]
mod division;
mod faults;
#[path = "../reference/frame.rs"]
mod frame;
mod inputs;
#[path = "../shared/line_bytes.rs"]
mod line_bytes;
#[path = "../shared/pairs.rs"]
mod pairs;
#[path = "../shared/places.rs"]
mod places;
#[path = "../shared/random.rs"]
mod random;
#[path = "../shared/seeds.rs"]
mod seeds;
mod systematic;
#[path = "../shared/tally.rs"]
#[allow(dead_code)]
mod tally;
#[path = "../shared/trials.rs"]
mod trials;

use classes::Class;
use random::Random;
use std::process::ExitCode;

/// How often each kind of answer must be met.
const LEAST: u64 = 1;

// Inputs for each seed.
const CHECKS: usize = 40_000;
const WRITES: usize = 20_000;
const CRCS: usize = 5_000;
// A hundred of each length.
const PLACED: usize = 100 * (inputs::PLACED_MAX + 1);
const LAWS: usize = 5_000;

type Trials = trials::Trials<Class>;

fn seed(trials: &mut Trials, seed: u64) {
    let mut random = Random::new(seed);
    trials.each_many(&format!("seed {seed}, frame check"), 0..CHECKS, |_| {
        compare::frame_check(&inputs::check_input(&mut random))
    });
    trials.repeat(WRITES, &format!("seed {seed}, frame write"), || {
        compare::frame_write(&inputs::write_input(&mut random))
    });
    trials.repeat(CRCS, &format!("seed {seed}, crc"), || {
        compare::crc(Class::Crc, &inputs::crc_input(&mut random))
    });
    let mut lengths = (0..=inputs::PLACED_MAX).cycle();
    trials.repeat(PLACED, &format!("seed {seed}, crc at each place"), || {
        let length = lengths.next().expect("a length without end");
        compare::placed(&inputs::placed_input(&mut random, length))
    });
    trials.repeat(LAWS, &format!("seed {seed}, strings joined"), || {
        compare::joined(&inputs::joined_input(&mut random))
    });
    trials.repeat(LAWS, &format!("seed {seed}, three strings"), || {
        compare::three_strings(&inputs::three_input(&mut random))
    });
}

fn systematic_frames(trials: &mut Trials) {
    let checks = systematic::every_short_frame();
    trials.each_many("short frame", checks, compare::frame_check);
    let checks = systematic::every_length_checked();
    trials.each_many("payload length, check", checks, compare::frame_check);
    let checks = systematic::every_two_bits_in_a_frame();
    trials.each_many("two bits in a frame", checks, compare::frame_check);
    let writes = systematic::every_length_written();
    trials.each("payload length, write", writes, compare::frame_write);
}

/// Faults at every place of a frame.
fn systematic_faults(trials: &mut Trials) {
    let checks = faults::every_bad_escape();
    trials.each_many("bad escape", checks, compare::frame_check);
    let checks = faults::every_passing();
    trials.each_many("about the limit", checks, compare::frame_check);
    let checks = faults::every_bad_check();
    trials.each_many("bad check", checks, compare::frame_check);
    let checks = faults::every_wrong_flags();
    trials.each_many("wrong flags", checks, compare::frame_check);
    let checks = faults::every_two_faults();
    trials.each_many("two faults", checks, compare::frame_check);
}

fn systematic_checks(trials: &mut Trials) {
    trials.each("byte alone", systematic::every_byte(), |input| {
        compare::crc(Class::ByteAlone, input)
    });
    trials.each("each start", systematic::every_start(), |input| {
        compare::crc(Class::EachStart, input)
    });
    let bytes = systematic::every_byte_at_every_place();
    trials.each("byte at its place", bytes, |input| {
        compare::crc(Class::ByteAtPlace, input)
    });
    trials.each("bit alone", systematic::every_bit(), |input| {
        compare::crc(Class::BitAlone, input)
    });
    trials.each("two bits", systematic::every_two_bits(), compare::two_bits);
}

fn main() -> ExitCode {
    trials::main("differential", Class::all(), LEAST, |trials, seeds| {
        systematic_checks(trials);
        systematic_frames(trials);
        systematic_faults(trials);
        seeds.iter().for_each(|each| seed(trials, *each));
    })
}
