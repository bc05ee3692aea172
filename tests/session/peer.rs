//! The module at the other end of a generated conversation, and the line between: frames are lost,
//! repeated and damaged on their way. It is no model of a right module; it keeps a conversation going.

use crate::ash::{read_frame, PAYLOAD_MAX};
use crate::ash_inputs::{damage, payload};
use crate::cutter::Cutter;
use crate::random::Random;
use crate::session::{next, Control, Kind};
use crate::states::frame;
use std::collections::VecDeque;

pub struct Peer {
    /// The OFC of its last frame with data.
    counter: u8,
    /// The OFC of the host's last good frame.
    good: u8,
    held: Vec<(u8, Vec<u8>)>,
    /// The frames on their way to the host.
    coming: VecDeque<Vec<u8>>,
}

impl Peer {
    pub fn new() -> Peer {
        Peer {
            counter: 1,
            good: 1,
            held: Vec::new(),
            coming: VecDeque::new(),
        }
    }

    /// The next frame that comes out of the line to the host, if one does.
    pub fn next_frame(&mut self, random: &mut Random) -> Option<Vec<u8>> {
        let mut frame = self.coming.pop_front()?;
        match random.below(24) {
            0 => return None,
            1 => self.coming.push_front(frame.clone()),
            2 => self.coming.push_back(frame.clone()),
            3 | 4 => damage(random, &mut frame),
            _ => {}
        }
        Some(frame)
    }

    /// What the host sent goes into the line.
    pub fn hear(&mut self, random: &mut Random, sent: &[u8]) {
        let mut cutter = Cutter::new();
        let frames = sent.iter().filter_map(|byte| cutter.step(*byte));
        for mut frame in frames.collect::<Vec<_>>() {
            match random.below(16) {
                0 => {}
                1 => {
                    damage(random, &mut frame);
                    self.hear_frame(random, &frame);
                }
                _ => self.hear_frame(random, &frame),
            }
        }
    }

    fn hear_frame(&mut self, random: &mut Random, bytes: &[u8]) {
        let Ok(frame) = read_frame(bytes, PAYLOAD_MAX) else {
            return self.say(random, Kind::Nack);
        };
        let control = Control::of(frame.control);
        match control.kind {
            Kind::Reset => self.answer_reset(random),
            Kind::ResetAck => self.good = control.ofc,
            kind => {
                self.held.retain(|held| held.0 != control.afc);
                if kind == Kind::Nack {
                    self.say_again();
                }
                if !frame.payload.is_empty() {
                    self.take(random, control.ofc);
                }
            }
        }
    }

    /// Good data is acknowledged, sometimes by a NACK, and sometimes only by what it says next.
    fn take(&mut self, random: &mut Random, ofc: u8) {
        if ofc != next(self.good) {
            return self.say(random, Kind::Nack);
        }
        self.good = ofc;
        match random.below(6) {
            0 => {}
            1 | 2 => self.say(random, Kind::Nack),
            _ => self.say(random, Kind::Ack),
        }
    }

    /// An ACK or NACK, often with data.
    pub fn say(&mut self, random: &mut Random, kind: Kind) {
        let mut data = Vec::new();
        if self.held.len() < 2 && random.below(2) == 0 {
            data = some_data(random);
            self.counter = next(self.counter);
            self.held.push((self.counter, data.clone()));
        }
        let frame = frame(kind, self.counter, self.good, &data);
        self.coming.push_back(frame);
    }

    pub fn say_again(&mut self) {
        for (ofc, data) in &self.held {
            let frame = frame(Kind::Ack, *ofc, self.good, data);
            self.coming.push_back(frame);
        }
    }

    pub fn reset(&mut self) {
        self.start_anew(1);
        self.coming.push_back(frame(Kind::Reset, 1, 0, &[]));
    }

    fn answer_reset(&mut self, random: &mut Random) {
        let (ofc, data) = match random.below(2) {
            0 => (1, Vec::new()),
            _ => (2, some_data(random)),
        };
        self.start_anew(ofc);
        self.coming.push_back(frame(Kind::ResetAck, ofc, 1, &data));
    }

    /// What it said before still comes out of the line.
    fn start_anew(&mut self, counter: u8) {
        self.counter = counter;
        self.good = 1;
        self.held.clear();
    }
}

/// Data that fits into a frame and is not empty, mostly short.
pub fn some_data(random: &mut Random) -> Vec<u8> {
    let sent_length = match random.below(6) {
        0 => random.one_of(&[1, 17, 19, PAYLOAD_MAX - 1, PAYLOAD_MAX, PAYLOAD_MAX]),
        1 => 1 + random.below(PAYLOAD_MAX),
        _ => 1 + random.below(6),
    };
    payload(random, sent_length)
}
