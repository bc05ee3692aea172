//! What the run tries, part by part. Each part prints how much it tried.

use crate::bursts;
use crate::classes::Class;
use crate::content::Content;
use crate::escapes::{self, spaced};
use crate::frame::CONTENT_MAX;
use crate::passing;
use crate::random::Random;
use crate::random_bursts;
use crate::reader;
use crate::sent;
use crate::trials;
use std::ops::RangeInclusive;

/// Lengths of the contents in which all damage is tried: by the check alone, and in frames.
const CHECKED: RangeInclusive<usize> = 2..=8;
const FRAMED: RangeInclusive<usize> = 4..=8;

/// Lengths of the contents with the polynomial in each window, and with each pattern of 17 bits.
const POLYNOMIAL: RangeInclusive<usize> = 3..=20;
const SEVENTEEN_BITS: RangeInclusive<usize> = 3..=4;

// Inputs for each seed.
const BURSTS: usize = 5_000;
const SENT: usize = 10_000;
const PASSING: usize = 2_000;

type Trials = trials::Trials<Class>;

/// Contents too short for a window of 16 bits.
pub fn shortest(trials: &mut Trials) {
    trials.each("no bytes", 0..=u16::MAX, |start| bursts::no_bytes(*start));
    trials.each("one byte", 0..=u16::MAX, |start| bursts::one_byte(*start));
}

pub fn within_16_bits(trials: &mut Trials, seeds: &[u64]) {
    let mut random = Random::new(seeds[0]);
    let contents = Content::of_lengths(&mut random, CHECKED);
    let windows = bursts::windows(&contents);
    let mut caught = trials.each_many("16 bits", windows, |(content, window)| {
        bursts::caught(content, *window)
    });
    let contents = Content::of_lengths(&mut random, FRAMED);
    let windows = bursts::windows(&contents).filter(|(content, _)| content.is_of_a_frame());
    let mut refused = trials.each_many("16 bits in a frame", windows, |(content, window)| {
        bursts::refused(content, *window)
    });
    for seed in seeds {
        let mut random = Random::new(*seed);
        let input = format!("seed {seed}, 16 bits");
        caught += trials.each_many(&input, 0..BURSTS, |_| random_bursts::caught(&mut random));
        refused += trials.each_many(&input, 0..BURSTS, |_| random_bursts::refused(&mut random));
        let longest = Content::of_lengths(&mut random, CONTENT_MAX..=CONTENT_MAX);
        let windows = bursts::windows(&longest);
        caught += trials.each_many(&input, windows, |(content, window)| {
            random_bursts::caught_in(&mut random, content, *window)
        });
    }
    println!("  {caught} contents damaged within 16 adjacent bits: caught");
    println!("  {refused} frames of contents damaged within 16 adjacent bits: refused by 4");
}

pub fn within_two_sent_bytes(trials: &mut Trials, seeds: &[u64]) {
    let mut refused = 0;
    for frame in sent::short_frames() {
        if let Err(fault) = reader::taken(&frame) {
            trials.note("sent bytes without damage", Err(fault));
        }
        refused += trials.each_many("sent bytes", sent::all(&frame), sent::refused);
    }
    for seed in seeds {
        let mut random = Random::new(*seed);
        refused += trials.each_many(&format!("seed {seed}, sent bytes"), 0..SENT, |_| {
            sent::random_refused(&mut random)
        });
    }
    println!(
        "  {refused} frames damaged in the sent bytes of two neighbouring content bytes, \
         each 7d and 7e\n  in its place, 7d 5e 7d 5d to 7d 5d 7d 5e among them: refused by 1 or 4"
    );
}

pub fn polynomial(trials: &mut Trials, seeds: &[u64]) {
    let contents = Content::of_lengths(&mut Random::new(seeds[0]), POLYNOMIAL);
    let windows = passing::windows(&contents);
    let mut passed = trials.each_many("polynomial", windows, |(content, window)| {
        passing::passes(content, *window)
    });
    let windows = passing::windows(&contents).filter(|(content, _)| content.is_of_a_frame());
    let mut taken = trials.each_many("polynomial in a frame", windows, |(content, window)| {
        passing::is_taken(content, *window)
    });
    for seed in seeds {
        let mut random = Random::new(*seed);
        let input = format!("seed {seed}, polynomial");
        passed += trials.each_many(&input, 0..PASSING, |_| passing::random_passes(&mut random));
        taken += trials.each_many(&input, 0..PASSING, |_| {
            passing::random_is_taken(&mut random)
        });
    }
    println!("  {passed} contents damaged by the 17 bits of the polynomial, 11021 (hex): passed");
    println!("  {taken} frames of contents so damaged: taken");
}

pub fn other_17_bits(trials: &mut Trials, seeds: &[u64]) {
    let contents = Content::of_lengths(&mut Random::new(seeds[0]), SEVENTEEN_BITS);
    let windows = passing::windows(&contents);
    let caught = trials.each_many("17 bits", windows, |(content, window)| {
        passing::no_other_passes(content, *window)
    });
    println!("  {caught} contents damaged by other patterns of exactly 17 bits: caught");
}

/// The frames of the example are both taken. All damage of its kind to them is tried.
pub fn flags_and_escapes_made() -> Result<([Class; 1], u64), String> {
    for line in escapes::example()? {
        println!("  {line}");
    }
    let mut tried = 0;
    for (frame, taken) in escapes::FRAMES {
        let damaged = escapes::all(&frame, taken)?;
        println!(
            "  of {damaged} ways to damage one byte or two neighbouring bytes of {}\n  \
             so that a 7d or 7e is made or unmade these are taken:",
            spaced(&frame)
        );
        for frame in taken {
            println!("    {}", spaced(frame));
        }
        tried += damaged;
    }
    Ok(([Class::FlagOrEscapeMade], tried))
}
