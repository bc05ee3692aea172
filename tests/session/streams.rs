//! Random lines to be cut into frames, in random pieces: frames, wakes, noise and parts of frames.

use crate::ash::{Parts, FLAG, PAYLOAD_MAX};
use crate::ash_inputs::{byte, damage};
use crate::cases::{Case, LINE_BYTES_MAX};
use crate::cutter::{FRAME_MAX, HEADER, WAKE};
use crate::generated::spoil_header_escape;
use crate::peer::some_data;
use crate::pieces::ROOM_MAX;
use crate::random::Random;

pub fn cases(seed: u64, count: usize) -> impl Iterator<Item = Case> {
    let mut random = Random::new(seed);
    (0..count).map(move |_| {
        let line = line(&mut random);
        Case::Pieces(pieces(&mut random, &line))
    })
}

fn line(random: &mut Random) -> Vec<u8> {
    let mut line = Vec::new();
    for _ in 0..1 + random.below(12) {
        line.extend(stretch(random));
    }
    line
}

/// What stands somewhere on the line.
fn stretch(random: &mut Random) -> Vec<u8> {
    let mut frame = right(random);
    match random.below(16) {
        0..=6 => {}
        7 | 8 => return vec![WAKE; 1 + random.below(4)],
        9 => return noise(random),
        10 => return vec![FLAG; 1 + random.below(3)],
        11 => frame.truncate(1 + random.below(HEADER + 2)),
        12 => frame = wrong_header(random),
        13 => drop(frame.remove(0)),
        _ => damage(random, &mut frame),
    }
    frame
}

fn right(random: &mut Random) -> Vec<u8> {
    let data = match random.below(2) {
        0 => Vec::new(),
        _ => some_data(random),
    };
    Parts::new(byte(random), &data).frame()
}

fn wrong_header(random: &mut Random) -> Vec<u8> {
    let mut parts = Parts::new(byte(random), &some_data(random));
    match random.below(2) {
        0 => spoil_header_escape(random, &mut parts),
        _ => parts.set_length(PAYLOAD_MAX as u8 + 1 + random.byte() % 4),
    }
    parts.frame()
}

fn noise(random: &mut Random) -> Vec<u8> {
    let length = 1 + random.below(20);
    (0..length).map(|_| byte(random)).collect()
}

/// Pieces that are mostly short on one line and long on another; some are empty, and some calls have
/// too little room and are made again with enough.
fn pieces(random: &mut Random, line: &[u8]) -> Vec<(usize, Vec<u8>)> {
    let longest = random.one_of(&[3, 8, 30, 100, LINE_BYTES_MAX - 1]);
    let mut pieces = Vec::new();
    let mut rest = line;
    while !rest.is_empty() {
        let (piece, behind) = rest.split_at(random.below(longest + 1).min(rest.len()));
        if random.below(20) == 0 {
            pieces.push((random.one_of(&[0, 7, 57, FRAME_MAX - 1]), piece.to_vec()));
        }
        let room = random.one_of(&[FRAME_MAX, FRAME_MAX, FRAME_MAX, FRAME_MAX + 1, ROOM_MAX]);
        pieces.push((room, piece.to_vec()));
        rest = behind;
    }
    pieces
}
