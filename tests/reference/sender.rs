//! The sender of request C-13, which holds one frame of ours until it is acknowledged or dropped,
//! written for reading and not for speed. The comparison of tests/display/ holds `run_cases` to
//! this.

use crate::frame::{self, write_frame};
use crate::receiver::DATA;

/// "A timeout event sends the same frame again the first two times; the third drops and reports
/// it."
pub const REPEATS_MAX: u8 = 2;

/// Why an event was refused: by the frame that still waits, or by the frame writer.
#[derive(Clone, Copy, Debug, PartialEq, Eq)]
pub enum Refusal {
    Waiting,
    Frame(frame::Refusal),
}

impl Refusal {
    pub fn number(self) -> u8 {
        match self {
            Refusal::Waiting => 25,
            Refusal::Frame(refusal) => refusal.number(),
        }
    }
}

/// A frame that went out, at the start of the lent output.
#[derive(Clone, Debug, PartialEq, Eq)]
pub struct Sent {
    pub sequence: u8,
    pub frame: Vec<u8>,
}

/// What a timeout gives that was not refused.
#[derive(Clone, Debug, PartialEq, Eq)]
pub enum Timeout {
    Repeated(Sent),
    /// The frame of this sequence will not be sent again.
    Dropped(u8),
    Nothing,
}

/// A frame that waits for its acknowledgement, and how often it was sent again.
#[derive(Clone, Debug, PartialEq, Eq)]
pub struct Held {
    pub sequence: u8,
    pub payload: Vec<u8>,
    pub repeats: u8,
}

impl Held {
    fn written(&self, room: usize) -> Result<Sent, Refusal> {
        let frame = write_frame(DATA, self.sequence, &self.payload, room);
        Ok(Sent {
            sequence: self.sequence,
            frame: frame.map_err(Refusal::Frame)?,
        })
    }
}

/// "First sequence 0, then 1 to 255, then 1 again."
pub fn following(sequence: u8) -> u8 {
    sequence.checked_add(1).unwrap_or(1)
}

#[derive(Clone, Debug, Default, PartialEq, Eq)]
pub struct Sender {
    /// The sequence that the next accepted send will use.
    pub next: u8,
    pub held: Option<Held>,
}

impl Sender {
    /// Refused by 25, then as the frame writer refuses, by 8 and 7.
    pub fn send(&mut self, room: usize, payload: &[u8]) -> Result<Sent, Refusal> {
        if self.held.is_some() {
            return Err(Refusal::Waiting);
        }
        let held = Held {
            sequence: self.next,
            payload: payload.to_vec(),
            repeats: 0,
        };
        let sent = held.written(room)?;
        self.next = following(held.sequence);
        self.held = Some(held);
        Ok(sent)
    }

    /// Room is asked only for a frame that goes out.
    pub fn timeout(&mut self, room: usize) -> Result<Timeout, Refusal> {
        let Some(held) = &mut self.held else {
            return Ok(Timeout::Nothing);
        };
        if held.repeats == REPEATS_MAX {
            let sequence = held.sequence;
            self.held = None;
            return Ok(Timeout::Dropped(sequence));
        }
        let sent = held.written(room)?;
        held.repeats += 1;
        Ok(Timeout::Repeated(sent))
    }

    /// An acknowledgement that the receiver calls heard: one of the held frame's sequence frees it.
    pub fn hear(&mut self, sequence: u8) {
        self.held.take_if(|held| held.sequence == sequence);
    }
}

#[cfg(test)]
mod known_events {
    use super::*;
    use crate::frame::{read_frame, Frame, PAYLOAD_MAX};

    /// Enough for a frame of no payload.
    const ROOM: usize = 7;

    const SHORT: Refusal = Refusal::Frame(frame::Refusal::ShortOutput);

    #[test]
    fn sequences_of_600_sends() {
        let mut sender = Sender::default();
        let mut sequences = Vec::new();
        for _ in 0..600 {
            let sent = sender.send(ROOM, &[]).expect("a send");
            sender.hear(sent.sequence);
            sequences.push(sent.sequence);
        }
        let wanted = (0..=255).chain(1..=255).chain(1..=89);
        assert_eq!(sequences, wanted.collect::<Vec<u8>>());
    }

    /// Its check is that of Python's binascii.crc_hqx.
    #[test]
    fn an_empty_frame_has_six_bytes() {
        let mut sender = Sender::default();
        assert_eq!(sender.send(5, &[]), Err(SHORT));
        assert_eq!(sender, Sender::default());
        let sent = sender.send(6, &[]).expect("a send");
        assert_eq!(sent.sequence, 0);
        assert_eq!(sent.frame, [0x7e, 0x01, 0x00, 0x2e, 0x3e, 0x7e]);
    }

    #[test]
    fn two_repeats_and_a_drop() {
        let mut sender = Sender::default();
        assert_eq!(sender.timeout(0), Ok(Timeout::Nothing));
        let sent = sender.send(11, &[0x7d, 0x7e, 0xff]).expect("a send");
        for _ in 0..REPEATS_MAX {
            assert_eq!(sender.timeout(10), Err(SHORT));
            assert_eq!(sender.timeout(11), Ok(Timeout::Repeated(sent.clone())));
            sender.hear(1);
        }
        assert_eq!(sender.timeout(0), Ok(Timeout::Dropped(0)));
        assert_eq!(sender.timeout(0), Ok(Timeout::Nothing));
        assert_eq!(sender.send(ROOM, &[]).map(|sent| sent.sequence), Ok(1));
    }

    #[test]
    fn refusals_in_their_order() {
        let mut sender = Sender::default();
        let long = vec![0; PAYLOAD_MAX + 1];
        let number = |answer: Result<Sent, Refusal>| answer.expect_err("a refusal").number();
        assert_eq!(number(sender.send(0, &long)), 8);
        assert_eq!(number(sender.send(0, &[])), 7);
        assert!(sender.send(ROOM, &[]).is_ok());
        assert_eq!(number(sender.send(0, &long)), 25);
        assert_eq!(number(sender.send(0, &[])), 25);
        assert_eq!(sender.timeout(0), Err(SHORT));
    }

    /// What goes out is read back as type 01 with the sequence and the payload.
    #[test]
    fn the_longest_payload_is_sent_whole() {
        let payload = vec![0x7e; PAYLOAD_MAX];
        let sent = Sender::default().send(800, &payload).expect("a send");
        let parts = Frame {
            kind: DATA,
            sequence: 0,
            payload,
        };
        assert_eq!(read_frame(&sent.frame, PAYLOAD_MAX), Ok(parts));
    }
}
