//! Random lists of calls: good frames, frames with a fault or several, runs without an end, noise,
//! all cut anywhere, with ticks and refused calls between.

use crate::cases::{Case, Event, LINE_BYTES_MAX, ZEROS_MAX};
use crate::frame::{between_flags, check, enclose, stuff, CONTENT_MAX, ESCAPE, FLAG, PAYLOAD_MAX};
use crate::line_bytes::bytes;
use crate::pairs::{sent, ORDERS};
use crate::random::Random;

/// A line that is cut into single bytes is not longer.
const SINGLE_MAX: usize = 200;

/// In each round one list is endless and one goes byte by byte; they are long.
const ROUND: usize = 30;

pub fn cases(seed: u64, count: usize) -> impl Iterator<Item = Case> {
    let mut random = Random::new(seed);
    (0..count).map(move |number| Case {
        events: match number % ROUND {
            0 => endless(&mut random, number / ROUND % 2 == 0),
            1 => byte_by_byte(&mut random, number / ROUND % 2 == 0),
            _ => mixed(&mut random),
        },
    })
}

/// A line that is cut anywhere, with other events between.
fn mixed(random: &mut Random) -> Vec<Event> {
    let line = line(random);
    let pieces = cut(random, &line);
    events(random, pieces)
}

/// A run of more bytes than 16 bits count, behind a bad escape or behind nothing.
fn endless(random: &mut Random, is_escape_bad: bool) -> Vec<Event> {
    let mut first = vec![FLAG];
    if is_escape_bad {
        let content = random.below(CONTENT_MAX + 1);
        first.extend(any_pairs(random, content));
        first.extend(bad_pair(random));
    }
    let mut events = vec![Event::Piece(first)];
    events.extend((0..170).map(|_| Event::Zeros(ZEROS_MAX)));
    events.push(Event::Piece(vec![random.one_of(&[0x41, ESCAPE]), FLAG]));
    events
}

/// A frame with a wrong check or with too much content, each byte in a piece of its own.
fn byte_by_byte(random: &mut Random, is_check_wrong: bool) -> Vec<Event> {
    let between = match is_check_wrong {
        true => any_pairs(random, CONTENT_MAX),
        false => any_pairs(random, CONTENT_MAX + 1),
    };
    let frame = between_flags(&between).into_iter();
    frame.map(|byte| Event::Piece(vec![byte])).collect()
}

/// Frames one behind the other, perhaps with noise before them and an open end.
fn line(random: &mut Random) -> Vec<u8> {
    let mut sender = Sender {
        sequence: random.one_of(&[0x00, 0x01, 0x7c, 0x7d, 0xfe]),
        last: Vec::new(),
    };
    let mut line = match random.below(3) {
        0 => {
            let length = random.below(20);
            noise(random, length)
        }
        _ => Vec::new(),
    };
    line.push(FLAG);
    for _ in 0..1 + random.below(8) {
        line.extend(sender.between(random));
        let flags = random.one_of(&[1, 1, 1, 2, 3]);
        line.extend([FLAG].repeat(flags));
    }
    if random.below(3) == 0 {
        let length = random.below(40);
        line.extend(noise(random, length));
    }
    line
}

/// Any bytes but flags.
pub fn noise(random: &mut Random, length: usize) -> Vec<u8> {
    let mut noise = bytes(random, length);
    for byte in noise.iter_mut().filter(|byte| **byte == FLAG) {
        *byte = random.one_of(&[0x5e, 0x5d, 0x00]);
    }
    noise
}

/// What stands between the flags of a frame with these parts.
pub fn frame(kind: u8, sequence: u8, payload: &[u8]) -> Vec<u8> {
    let frame = enclose(kind, sequence, payload);
    frame[1..frame.len() - 1].to_vec()
}

/// A module that sends data frames, and other things.
struct Sender {
    sequence: u8,
    /// The last data frame, between its flags.
    last: Vec<u8>,
}

impl Sender {
    /// What stands between two flags.
    fn between(&mut self, random: &mut Random) -> Vec<u8> {
        match random.below(16) {
            0..=3 => self.data(random),
            4 => self.last.clone(),
            5 => frame(2, random.byte(), &[]),
            6 => other_type(random),
            7 => short(random),
            8 => wrong_check(random),
            9..=11 => bad_escape(random),
            12 | 13 => about_the_limit(random),
            14 => several_faults(random),
            _ => {
                let length = random.one_of(&[1, 5, 60, 600, 1_500]);
                noise(random, length)
            }
        }
    }

    /// The next sequence, sometimes 0, sometimes the last one with another packet.
    fn data(&mut self, random: &mut Random) -> Vec<u8> {
        let next = self.sequence.wrapping_add(1);
        self.sequence = random.one_of(&[next, next, next, next, self.sequence, 0]);
        self.last = frame(1, self.sequence, &packet(random));
        self.last.clone()
    }
}

/// An update, one of a name that is not watched, an end mark, no packet, or none at all.
pub fn packet(random: &mut Random) -> Vec<u8> {
    let [id, value] = [random.byte(), random.byte()];
    let name = random.one_of(&[b"h1", b"h2", b"h1", b"h2", b"h3"]);
    let item: &[u8] = match random.below(8) {
        0 => return vec![0x01, 0x03, 0x00, id, 0x14, 0x00],
        1 => return Vec::new(),
        2 => {
            let length = random.one_of(&[1, 20, 200, PAYLOAD_MAX]);
            return bytes(random, length);
        }
        3 | 4 => &[0x02, 0x02, 0x7e, value],
        _ => &[0x0f, 0x01, value & 1],
    };
    [&[0x01, 0x03, 0x7d, id, 0x01, 0x02], &name[..], item].concat()
}

fn other_type(random: &mut Random) -> Vec<u8> {
    let (kind, sequence) = (random.byte(), random.byte());
    let kind = random.one_of(&[0x02, 0x02, 0x00, 0x03, 0x7e, kind]);
    let length = 1 + random.below(4);
    frame(kind, sequence, &bytes(random, length))
}

/// Content of one to three bytes.
fn short(random: &mut Random) -> Vec<u8> {
    let length = 1 + random.below(3);
    stuff(&bytes(random, length))
}

/// Content of any length with a bit changed.
fn wrong_check(random: &mut Random) -> Vec<u8> {
    let any = 4 + random.below(CONTENT_MAX - 3);
    let length = random.one_of(&[4, 4, 5, 10, 20, any, CONTENT_MAX, CONTENT_MAX]);
    let payload = bytes(random, length - 4);
    let mut content = vec![1, random.byte()];
    content.extend(payload);
    content.extend(check(0xffff, &content).to_be_bytes());
    content[random.below(length)] ^= 1 << random.below(8);
    stuff(&content)
}

/// So much content, of which any number of bytes are pairs.
fn any_pairs(random: &mut Random, content: usize) -> Vec<u8> {
    let some = random.below(content + 1);
    let pairs = random.one_of(&[0, some, content]);
    sent(content, pairs, random.one_of(&ORDERS))
}

/// A pair whose second byte is wrong, or an escape that the closing flag follows.
fn bad_pair(random: &mut Random) -> Vec<u8> {
    let any = random.byte() & 0x3f;
    match random.below(4) {
        0 => vec![ESCAPE],
        1 => vec![ESCAPE, ESCAPE],
        2 => vec![ESCAPE, ESCAPE, 0x5e],
        _ => vec![ESCAPE, any],
    }
}

/// A bad escape, and behind it nothing, a few bytes or many.
fn bad_escape(random: &mut Random) -> Vec<u8> {
    let any = random.below(CONTENT_MAX);
    let content = random.one_of(&[0, 1, 2, 10, any, CONTENT_MAX, CONTENT_MAX]);
    let mut between = any_pairs(random, content);
    between.extend(bad_pair(random));
    let length = random.one_of(&[0, 0, 0, 5, 300, 1_100]);
    between.extend(noise(random, length));
    between
}

/// Content of 387 to 389 bytes, and behind it nothing, a pair, a bad one or many bytes.
fn about_the_limit(random: &mut Random) -> Vec<u8> {
    let content = CONTENT_MAX + random.one_of(&[0, 1, 1, 1, 2]);
    let mut between = any_pairs(random, content);
    match random.below(5) {
        0 => between.extend([ESCAPE, 0x5e]),
        1 => between.extend(bad_pair(random)),
        2 => between.extend(noise(random, 1_100)),
        _ => {}
    }
    between
}

/// Bad escapes and much content in any order.
fn several_faults(random: &mut Random) -> Vec<u8> {
    let mut between = Vec::new();
    for _ in 0..2 + random.below(3) {
        match random.below(3) {
            0 => between.extend(any_pairs(random, 390)),
            1 => {
                let length = random.below(30);
                between.extend(any_pairs(random, length));
            }
            _ => between.extend(bad_pair(random)),
        }
    }
    between.push(0x41);
    between
}

/// The line in pieces: single bytes, pieces of random lengths, cut behind escapes and around flags,
/// or as few as there can be.
fn cut(random: &mut Random, line: &[u8]) -> Vec<Vec<u8>> {
    let most = match random.below(6) {
        0 if line.len() <= SINGLE_MAX => 1,
        0 | 1 => return cut_where(random, line, |two| two[0] == ESCAPE || two.contains(&FLAG)),
        2 => return cut_where(random, line, |two| two[0] == ESCAPE),
        3 => 200,
        4 => 600,
        _ => LINE_BYTES_MAX,
    };
    let mut pieces = Vec::new();
    let mut rest = line;
    while !rest.is_empty() {
        let length = match most {
            LINE_BYTES_MAX => most,
            _ => 1 + random.below(most),
        };
        let (piece, behind) = rest.split_at(rest.len().min(length));
        pieces.push(piece.to_vec());
        rest = behind;
    }
    pieces
}

/// Cuts between two bytes of this kind: between all, or in a long line between some.
fn cut_where(random: &mut Random, line: &[u8], is_cut: fn(&[u8]) -> bool) -> Vec<Vec<u8>> {
    let one_of = if line.len() <= SINGLE_MAX { 1 } else { 10 };
    let mut pieces = vec![Vec::new()];
    for place in 0..line.len() {
        let last = pieces.last_mut().expect("a piece");
        let cut = place > 0 && is_cut(&line[place - 1..=place]) && random.below(one_of) == 0;
        if cut || last.len() == LINE_BYTES_MAX {
            pieces.push(vec![line[place]]);
        } else {
            last.push(line[place]);
        }
    }
    pieces
}

/// The pieces, and at a few of the cuts ticks, a refused call or zero bytes.
fn events(random: &mut Random, pieces: Vec<Vec<u8>>) -> Vec<Event> {
    let often = random.one_of(&[4, 20, 100]);
    let mut events = Vec::new();
    for piece in pieces {
        if random.below(often) == 0 {
            let ticks = random.one_of(&[1, 1, 2, 29, 30]);
            let zeros = 1 + random.below(ZEROS_MAX);
            match random.below(4) {
                0 => events.extend((0..ticks).map(|_| Event::Tick)),
                1 => events.push(Event::Zeros(zeros)),
                _ => events.push(Event::ShortBuffers(piece.clone())),
            }
        }
        events.push(Event::Piece(piece));
    }
    events
}
