//! Random lists of sends, timeouts and pieces: a module acknowledges, late, wrongly or not at all,
//! sends data of its own, and its line is cut anywhere.

use crate::cases::{Case, Event, LINE_BYTES_MAX, OUTPUT_MAX};
use crate::frame::{ESCAPE, FLAG, PAYLOAD_MAX};
use crate::generated::{frame, noise, packet};
use crate::line_bytes::bytes;
use crate::random::Random;
use crate::receiver::{ACKNOWLEDGEMENT, DATA};
use crate::script::Script;
use crate::sends::behind_longest;

/// In each round one list begins shortly before the sequences 7d and 7e, one shortly before 255,
/// and one with the longest frame; they are long.
const ROUND: usize = 25;

pub fn cases(seed: u64, count: usize) -> impl Iterator<Item = Case> {
    let mut random = Random::new(seed);
    (0..count).map(move |number| {
        let start = match number % ROUND {
            0 => Script::behind(0x7b),
            1 => Script::behind(0xfc),
            2 => {
                let mut byte = || random.one_of(&[ESCAPE, FLAG]);
                behind_longest([byte(), byte()])
            }
            _ => Script::new(),
        };
        list(&mut random, start)
    })
}

fn list(random: &mut Random, script: Script) -> Case {
    let length = script.len() + random.one_of(&[8, 40, 80, 120]);
    let mut talk = Talk {
        script,
        line: vec![FLAG],
        sequence: random.byte(),
        habits: random.one_of(&HABITS),
    };
    while talk.script.len() < length {
        talk.go_on(random);
    }
    talk.script.case()
}

/// How often a send comes next, a timeout, a tick, a refused piece, a frame of the module, a piece.
type Habits = [usize; 6];

/// A busy line, a quiet one on which frames are dropped, and one that is ahead of its reader.
const HABITS: [Habits; 3] = [[4, 2, 1, 1, 5, 7], [4, 7, 1, 1, 3, 4], [5, 3, 1, 2, 4, 4]];

/// A display and its module.
struct Talk {
    script: Script,
    /// What the module has sent and the display has not taken.
    line: Vec<u8>,
    /// The sequence of the module's last data frame.
    sequence: u8,
    habits: Habits,
}

impl Talk {
    fn go_on(&mut self, random: &mut Random) {
        let mut drawn = random.below(self.habits.iter().sum());
        let mut way = 0;
        while drawn >= self.habits[way] {
            drawn -= self.habits[way];
            way += 1;
        }
        match way {
            0 => self.send(random),
            1 => self.timeout(random),
            2 => self.tick(random),
            3 => self.refused_piece(random),
            4 => self.frame(random),
            _ => self.piece(random),
        }
    }

    fn send(&mut self, random: &mut Random) {
        let payload = payload(random);
        let room = room(random, self.script.room_to_send(&payload));
        self.script.send_into(room, &payload);
    }

    fn timeout(&mut self, random: &mut Random) {
        let room = room(random, self.script.room_to_repeat());
        self.script.timeout_into(room);
    }

    fn tick(&mut self, random: &mut Random) {
        for _ in 0..random.one_of(&[1, 1, 1, 2, 30]) {
            self.script.add(Event::Tick);
        }
    }

    /// The piece that would come next, given with buffers that are too short.
    fn refused_piece(&mut self, random: &mut Random) {
        let length = self.piece_length(random);
        let piece = self.line[..length].to_vec();
        self.script.add(Event::ShortBuffers(piece));
    }

    fn piece(&mut self, random: &mut Random) {
        let length = self.piece_length(random);
        let piece: Vec<u8> = self.line.drain(..length).collect();
        self.script.piece(&piece);
    }

    /// One byte, a few, or all that a line takes.
    fn piece_length(&self, random: &mut Random) -> usize {
        let few = 1 + random.below(12);
        let most = random.one_of(&[1, few, few, LINE_BYTES_MAX, LINE_BYTES_MAX]);
        self.line.len().min(most)
    }

    /// The module sends something, and behind it a flag or several.
    fn frame(&mut self, random: &mut Random) {
        let between = self.between(random);
        self.line.extend(between);
        let flags = random.one_of(&[1, 1, 1, 2]);
        self.line.extend([FLAG].repeat(flags));
    }

    /// What stands between two flags.
    fn between(&mut self, random: &mut Random) -> Vec<u8> {
        let held = self.script.sequence();
        let next = self.script.sender().next;
        match random.below(20) {
            0..=6 => frame(ACKNOWLEDGEMENT, held, &[]),
            7 | 8 => frame(ACKNOWLEDGEMENT, next, &[]),
            9 | 10 => frame(ACKNOWLEDGEMENT, other(random, held), &[]),
            11 | 12 => spoilt(random, held),
            13 => {
                let length = random.one_of(&[1, 3, 12]);
                noise(random, length)
            }
            14 => frame(DATA, held, &packet(random)),
            _ => self.data(random),
        }
    }

    /// The next sequence most often, or the last one again, or 0.
    fn data(&mut self, random: &mut Random) -> Vec<u8> {
        let next = self.sequence.wrapping_add(1);
        self.sequence = random.one_of(&[next, next, self.sequence, 0]);
        frame(DATA, self.sequence, &packet(random))
    }
}

/// An acknowledgement with a wrong check, with a payload, cut, or with a bad escape.
fn spoilt(random: &mut Random, sequence: u8) -> Vec<u8> {
    let right = frame(ACKNOWLEDGEMENT, sequence, &[]);
    let (head, last) = right.split_at(right.len() - 1);
    match random.below(12) {
        0..=3 => [head, &[last[0] ^ 1]].concat(),
        4..=7 => frame(ACKNOWLEDGEMENT, sequence, &[random.byte()]),
        8 => frame(ACKNOWLEDGEMENT, sequence, &[0; PAYLOAD_MAX + 1]),
        9 | 10 => head.to_vec(),
        _ => [head, &[ESCAPE], last].concat(),
    }
}

/// A sequence near the held one, or any.
fn other(random: &mut Random, held: u8) -> u8 {
    let any = random.byte();
    random.one_of(&[held.wrapping_sub(1), held.wrapping_add(1), 0, 1, any])
}

/// Most are short.
fn payload(random: &mut Random) -> Vec<u8> {
    let few = random.below(8);
    let length = match random.below(30) {
        0 => PAYLOAD_MAX - 1 + random.below(4),
        1 | 2 => random.below(100),
        _ => few,
    };
    bytes(random, length)
}

/// Just enough room most often, else a byte less or more, none, all or any.
fn room(random: &mut Random, enough: usize) -> usize {
    let any = random.below(OUTPUT_MAX + 1);
    let more = OUTPUT_MAX.min(enough + 1);
    match random.below(8) {
        0 | 1 => enough - 1,
        2 => random.one_of(&[0, any]),
        3 => random.one_of(&[more, OUTPUT_MAX]),
        _ => enough,
    }
}
