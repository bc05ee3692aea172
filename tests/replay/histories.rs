//! Histories: a watch list, then pieces of a stream of good and damaged frames, and ticks.

use crate::frame::{enclose, ESCAPE, FLAG};
use crate::random::Random;

/// More than a display takes, so that some good names are never watched.
const NAMES: [&str; 46] = [
    "h1", "h2", "H1", "h", "h10", "hive_3", "hive-4", "a", "b", "c", "d", "e", "f", "g", "i", "j", "k",
    "l", "abcdefghijklmnopqrstuvwxyz1", "m", "n", "o", "p", "q", "r", "s", "t", "u", "v", "w", "x", "y",
    "z", "A", "B", "C", "D", "E", "F", "h17", "h40", "h41", "hive-40", "hive-41",
    "abcdefghijklmnopqrstuvwxyz2", "Abcdefghijklmnopqrstuvwxyz1",
];

/// Names that are not valid, the first of them by its length alone.
const BAD_NAMES: [&str; 5] = ["abcdefghijklmnopqrstuvwxyz12", "", "1h", "h 1", "_h"];

/// The module at the other end: the names that it tells of, and the sequence that it sent last.
pub struct Sender {
    names: Vec<Vec<u8>>,
    sequence: u8,
}

pub fn history(random: &mut Random) -> Vec<u8> {
    let names = watched(random);
    let mut history = watch_list(random, &names);
    let mut sender = Sender::new(random, names);
    let parts = random.below(40);
    let mut stream: Vec<u8> = (0..parts).flat_map(|_| sender.part(random)).collect();
    if random.below(40) == 0 {
        // All in one field, near the greatest length.
        stream.resize(4092 + random.below(10), 0);
        field(&mut history, 2, &stream);
    } else {
        play(random, &mut history, &stream);
    }
    if random.below(10) == 0 {
        damage(random, &mut history);
    }
    history
}

/// A name, then a mebibyte of noise in fields of the greatest length.
pub fn noise_of_a_mebibyte(random: &mut Random) -> Vec<u8> {
    let mut history = Vec::new();
    field(&mut history, 1, NAMES[0].as_bytes());
    for _ in 0..256 {
        let piece: Vec<u8> = (0..4096).map(|_| random.byte()).collect();
        field(&mut history, 2, &piece);
    }
    history
}

/// Every count passes 65,535, the one of refusal 2 apart.
pub fn counts_that_wrap() -> Vec<u8> {
    let frames = [
        enclose(1, 0, &[]),
        enclose(1, 1, &[]).repeat(2),
        enclose(2, 1, &[]),
        vec![FLAG, ESCAPE, FLAG],
        vec![FLAG, 0, FLAG],
        vec![FLAG, 0, 0, 0, 0, FLAG],
        enclose(3, 1, &[]),
        enclose(2, 1, &[0]),
    ];
    let mut history = Vec::new();
    for _ in 0..65_540 {
        field(&mut history, 2, &frames.concat());
    }
    history
}

pub fn field(history: &mut Vec<u8>, tag: u8, value: &[u8]) {
    history.push(tag);
    history.extend((value.len() as u16).to_be_bytes());
    history.extend(value);
}

/// Up to 41 names, each once.
fn watched(random: &mut Random) -> Vec<Vec<u8>> {
    let count = random.one_of(&[0, 1, 1, 2, 2, 2, 3, 3, 3, 4, 5, 5, 7, 9, 16, 17, 39, 40, 40, 41]);
    let first = random.below(NAMES.len());
    let names = NAMES.iter().cycle().skip(first).take(count);
    names.map(|name| name.as_bytes().to_vec()).collect()
}

fn watch_list(random: &mut Random, names: &[Vec<u8>]) -> Vec<u8> {
    let mut history = Vec::new();
    for name in names {
        field(&mut history, 1, name);
    }
    if random.below(40) == 0 {
        field(&mut history, 1, random.one_of(&NAMES).as_bytes());
    }
    if random.below(40) == 0 {
        field(&mut history, 1, random.one_of(&BAD_NAMES).as_bytes());
    }
    if random.below(40) == 0 {
        // A length with a high byte, of which the low byte alone would be right.
        let name = random.one_of(&NAMES).as_bytes();
        history.extend([1, 1, name.len() as u8]);
        history.extend(name);
    }
    history
}

/// The stream in pieces, with ticks at a few of the cuts.
fn play(random: &mut Random, history: &mut Vec<u8>, stream: &[u8]) {
    let most = random.one_of(&[1, 7, 60, 400, 4096]);
    let mut pieces = Vec::new();
    let mut rest = stream;
    while !rest.is_empty() {
        let (piece, behind) = rest.split_at(rest.len().min(1 + random.below(most)));
        pieces.push(piece);
        rest = behind;
    }
    let mut ticks = vec![0; pieces.len() + 1];
    for _ in 0..random.below(8) {
        let cut = random.below(ticks.len());
        ticks[cut] += random.one_of(&[1, 1, 1, 2, 3, 7, 14, 28, 29, 30, 31]);
    }
    for (cut, count) in ticks.into_iter().enumerate() {
        (0..count).for_each(|_| field(history, 3, &[]));
        if let Some(piece) = pieces.get(cut) {
            field(history, 2, piece);
        }
    }
}

impl Sender {
    pub fn new(random: &mut Random, names: Vec<Vec<u8>>) -> Sender {
        Sender {
            names,
            sequence: random.one_of(&[0, 0x70, 0x7b, 0xef, 0xf8, 0xfe]),
        }
    }

    /// A frame, sometimes twice, sometimes damaged, or noise.
    pub fn part(&mut self, random: &mut Random) -> Vec<u8> {
        let mut sent = self.frame(random);
        match random.below(30) {
            0 => sent = sent.repeat(2),
            1 => damage(random, &mut sent),
            2 => sent = noise(random),
            3 => sent.insert(sent.len() - 1, ESCAPE),
            // One flag closes this frame and opens the next.
            4 => sent.truncate(sent.len() - 1),
            _ => {}
        }
        sent
    }

    fn frame(&mut self, random: &mut Random) -> Vec<u8> {
        match random.below(40) {
            0..=2 => enclose(2, random.byte(), &[]),
            3 => enclose(2, random.byte(), &[random.byte()]),
            4 => enclose(random.byte(), random.byte(), &[]),
            5..=6 => enclose(1, self.next(random), &long(random)),
            7 => vec![FLAG, random.byte() & 0x3f, FLAG],
            8 => two_faults(random),
            _ => enclose(1, self.next(random), &self.packet(random)),
        }
    }

    /// Most often the next sequence, which goes from ff to 00.
    fn next(&mut self, random: &mut Random) -> u8 {
        self.sequence = match random.below(20) {
            0..=2 => self.sequence,
            3 => 0,
            4 => random.byte(),
            _ => self.sequence.wrapping_add(1),
        };
        self.sequence
    }

    /// Most often an update of a watched name.
    fn packet(&self, random: &mut Random) -> Vec<u8> {
        if random.below(4) == 0 {
            return odd_packet(random);
        }
        let mut packet = vec![1, 3, 0, random.byte()];
        if random.below(8) == 0 {
            item(&mut packet, 0x07, &[random.byte()]);
        }
        let name = match self.names.as_slice() {
            [] => NAMES[0].as_bytes(),
            [.., last] if random.below(6) == 0 => last,
            names => &names[random.below(names.len())],
        };
        item(&mut packet, 0x01, name);
        if random.below(6) == 0 {
            item(&mut packet, 0x0f, &[random.byte() & 1]);
        } else {
            let bytes = bytes(random, &[1, 2, 4, 8]);
            item(&mut packet, random.one_of(&[0x02, 0x16]), &bytes);
        }
        if random.below(8) == 0 {
            item(&mut packet, 0x14, &[]);
        }
        packet
    }
}

/// A frame with two faults: 1 and 2 in either order, 3 and 5, 4 and 5, 4 and 6.
fn two_faults(random: &mut Random) -> Vec<u8> {
    match random.below(4) {
        0 => {
            let mut sent = vec![0; 384 + random.below(8)];
            let place = sent.len() - random.below(10);
            sent.splice(place..place, [ESCAPE, 0x41]);
            [&[FLAG], sent.as_slice(), &[FLAG]].concat()
        }
        1 => vec![FLAG, 3, random.byte() & 0x3f, FLAG],
        2 => wrong_check(enclose(3, random.byte(), &[])),
        _ => wrong_check(enclose(2, random.byte(), &[random.byte()])),
    }
}

/// The frame with one bit of its check changed.
fn wrong_check(mut frame: Vec<u8>) -> Vec<u8> {
    let last = frame.len() - 2;
    frame[last] ^= 1;
    frame
}

/// A packet with any of its parts wrong or missing.
fn odd_packet(random: &mut Random) -> Vec<u8> {
    let opcode = random.one_of(&[3, 3, 3, 3, 3, 3, 3, 3, 0x0b]);
    let mut packet = vec![random.one_of(&[1, 1, 1, 1, 1, 1, 1, 1, 0]), opcode, 0, random.byte()];
    if random.below(8) == 0 {
        item(&mut packet, 0x14, &[]);
    }
    if random.below(4) != 0 {
        item(&mut packet, 0x01, random.one_of(&NAMES).as_bytes());
    }
    if random.below(6) != 0 {
        let bytes = bytes(random, &[0, 1, 2, 3, 4, 8, 9]);
        item(&mut packet, random.one_of(&[0x02, 0x02, 0x16, 0x0f, 0x03]), &bytes);
    }
    if random.below(6) == 0 {
        item(&mut packet, 0x01, random.one_of(&NAMES).as_bytes());
    }
    for _ in 0..random.one_of(&[0, 0, 0, 0, 1, 2]) {
        item(&mut packet, 0x14, &[0][..random.one_of(&[0, 0, 0, 1])]);
    }
    if random.below(8) == 0 {
        packet.truncate(random.below(packet.len()));
    }
    packet
}

fn bytes(random: &mut Random, lengths: &[usize]) -> Vec<u8> {
    let length = random.one_of(lengths);
    let any = random.byte();
    (0..length).map(|_| random.one_of(&[0, 1, 0xff, 0x80, 0x26, any])).collect()
}

fn noise(random: &mut Random) -> Vec<u8> {
    let most = random.one_of(&[4, 40, 800]);
    (0..random.below(most)).map(|_| random.byte()).collect()
}

/// A payload around the limit, of bytes that are often escaped.
fn long(random: &mut Random) -> Vec<u8> {
    let length = random.one_of(&[0, 3, 4, 380, 383, 384, 388]);
    (0..length)
        .map(|_| random.one_of(&[0, 1, FLAG, ESCAPE]))
        .collect()
}

fn item(packet: &mut Vec<u8>, kind: u8, value: &[u8]) {
    packet.push(kind);
    packet.push(value.len() as u8);
    packet.extend(value);
}

/// A byte changed, dropped or put in between, or the end cut off.
fn damage(random: &mut Random, bytes: &mut Vec<u8>) {
    if bytes.is_empty() {
        return;
    }
    let at = random.below(bytes.len());
    match random.below(4) {
        0 => bytes[at] ^= 1 << random.below(8),
        1 => bytes.insert(at, random.byte()),
        2 => drop(bytes.remove(at)),
        _ => bytes.truncate(at),
    }
}
