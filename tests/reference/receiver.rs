//! The calls of the receiver, from document 01 ("The receiver", "The ledger" and refusals 1 to 7)
//! with the places of request C-16, written for reading and not for speed. The comparison of
//! tests/display/ holds `run_cases` to this, and the program written a second time rests on it.

use crate::board::{self, Board, Reading};
use crate::frame::{self, between_flags, enclose, read_frame, Frame, FLAG, PAYLOAD_MAX};

/// "A reply buffer of at least 9 bytes and a packet buffer of at least 383."
pub const REPLY_MIN: usize = 9;
pub const PACKET_MIN: usize = PAYLOAD_MAX;

// Types of a frame.
pub const DATA: u8 = 0x01;
pub const ACKNOWLEDGEMENT: u8 = 0x02;

/// Why a call was refused: by the frame that it closed, or by its buffers.
#[derive(Clone, Copy, Debug, PartialEq, Eq)]
pub enum Refusal {
    Frame(frame::Refused),
    OtherType,
    AcknowledgementWithPayload,
    ShortBuffer,
}

impl Refusal {
    pub fn number(self) -> u8 {
        match self {
            Refusal::Frame(refused) => refused.reason.number(),
            Refusal::OtherType => 5,
            Refusal::AcknowledgementWithPayload => 6,
            Refusal::ShortBuffer => 7,
        }
    }

    /// The last flag is the opening one, from which the frame's offsets are counted.
    pub fn place(self) -> usize {
        match self {
            Refusal::Frame(refused) => refused.place,
            _ => 0,
        }
    }
}

/// What a call says, and what it hands out at the start of its buffers.
#[derive(Clone, Debug, PartialEq, Eq)]
pub enum Answer {
    /// No frame was closed.
    Nothing,
    Refused(Refusal),
    Heard(u8),
    Again {
        reply: Vec<u8>,
    },
    New {
        reply: Vec<u8>,
        packet: Vec<u8>,
        reading: Result<Reading, board::Refusal>,
    },
}

/// An answer, and how many bytes of the piece were taken.
#[derive(Clone, Debug, PartialEq, Eq)]
pub struct Call {
    pub taken: usize,
    pub answer: Answer,
}

#[derive(Clone, Debug, Default)]
pub struct Counts {
    new: u64,
    again: u64,
    heard: u64,
    unread: u64,
    refused: [u64; 6],
}

impl Counts {
    /// The two lines of the program. "Each count is 16 bits and goes from 65,535 back to 0."
    pub fn shown(&self) -> String {
        let [new, again, heard, unread] =
            [self.new, self.again, self.heard, self.unread].map(|count| count % 65_536);
        let refused = self.refused.map(|count| (count % 65_536).to_string());
        format!(
            "new {new} again {again} heard {heard} unread {unread}\nrefused {}\n",
            refused.join(" ")
        )
    }
}

#[derive(Clone, Debug, Default)]
pub struct Receiver {
    /// The sent bytes since the last flag; none before the first flag.
    pub run: Option<Vec<u8>>,
    last: Option<u8>,
    pub board: Board,
    pub counts: Counts,
}

impl Receiver {
    /// Takes the piece up to the flag that closes a frame, or all of it.
    pub fn take(&mut self, piece: &[u8], reply_room: usize, packet_room: usize) -> Call {
        if reply_room < REPLY_MIN || packet_room < PACKET_MIN {
            return Call {
                taken: 0,
                answer: Answer::Refused(Refusal::ShortBuffer),
            };
        }
        for (place, &byte) in piece.iter().enumerate() {
            if let Some(run) = self.join(byte) {
                return Call {
                    taken: place + 1,
                    answer: self.close(&run),
                };
            }
        }
        Call {
            taken: piece.len(),
            answer: Answer::Nothing,
        }
    }

    /// "Each byte joins the run, if there is one. A 7e starts an empty run instead; if the old one
    /// held bytes, it is a frame, closed here."
    fn join(&mut self, byte: u8) -> Option<Vec<u8>> {
        if byte == FLAG {
            let run = self.run.replace(Vec::new())?;
            return (!run.is_empty()).then_some(run);
        }
        if let Some(run) = &mut self.run {
            run.push(byte);
        }
        None
    }

    fn close(&mut self, run: &[u8]) -> Answer {
        match judge(run) {
            Err(refusal) => {
                self.counts.refused[usize::from(refusal.number()) - 1] += 1;
                Answer::Refused(refusal)
            }
            Ok(frame) if frame.kind == ACKNOWLEDGEMENT => {
                self.counts.heard += 1;
                Answer::Heard(frame.sequence)
            }
            Ok(frame) => self.data(frame),
        }
    }

    /// A repeated frame is answered and dropped; any other is handed up and read at once.
    fn data(&mut self, frame: Frame) -> Answer {
        let reply = enclose(ACKNOWLEDGEMENT, frame.sequence, &[]);
        if frame.sequence != 0 && self.last == Some(frame.sequence) {
            self.counts.again += 1;
            return Answer::Again { reply };
        }
        self.counts.new += 1;
        self.last = Some(frame.sequence);
        let packet = frame.payload;
        let reading = self.board.take(&packet);
        self.counts.unread += u64::from(reading.is_err());
        Answer::New {
            reply,
            packet,
            reading,
        }
    }
}

/// "A frame is unstuffed from the left and tested by 1 to 6."
fn judge(run: &[u8]) -> Result<Frame, Refusal> {
    let frame = read_frame(&between_flags(run), PAYLOAD_MAX).map_err(Refusal::Frame)?;
    match frame.kind {
        DATA => Ok(frame),
        ACKNOWLEDGEMENT if frame.payload.is_empty() => Ok(frame),
        ACKNOWLEDGEMENT => Err(Refusal::AcknowledgementWithPayload),
        _ => Err(Refusal::OtherType),
    }
}

#[cfg(test)]
mod known_calls {
    use super::*;
    use crate::packet::CASE_6;

    fn receiver() -> Receiver {
        let mut receiver = Receiver::default();
        receiver.board.watch(b"h1");
        receiver
    }

    fn take(receiver: &mut Receiver, piece: &[u8]) -> Call {
        receiver.take(piece, REPLY_MIN, PACKET_MIN)
    }

    /// Bytes taken, number and place of a call that refuses.
    fn refused(receiver: &mut Receiver, piece: &[u8]) -> (usize, u8, usize) {
        let call = take(receiver, piece);
        match call.answer {
            Answer::Refused(refusal) => (call.taken, refusal.number(), refusal.place()),
            other => panic!("{other:?}"),
        }
    }

    fn nothing(receiver: &mut Receiver, piece: &[u8]) {
        let wanted = Call {
            taken: piece.len(),
            answer: Answer::Nothing,
        };
        assert_eq!(take(receiver, piece), wanted);
    }

    #[test]
    fn case_6_sent_twice() {
        let mut receiver = receiver();
        let sent = [&[0x33], enclose(DATA, 1, CASE_6).as_slice()].concat();
        let call = take(&mut receiver, &sent);
        let reply = vec![0x7e, 0x02, 0x01, 0x6b, 0x4c, 0x7e];
        let reading = Ok(Reading::Update {
            row: 0,
            id: 0,
            value: 3450,
        });
        let new = Answer::New {
            reply: reply.clone(),
            packet: CASE_6.to_vec(),
            reading,
        };
        assert_eq!((call.taken, call.answer), (21, new));
        let call = take(&mut receiver, &sent[2..]);
        assert_eq!((call.taken, call.answer), (19, Answer::Again { reply }));
        let counts = "new 1 again 1 heard 0 unread 0\nrefused 0 0 0 0 0 0\n";
        assert_eq!(receiver.counts.shown(), counts);
    }

    /// Offsets go on from piece to piece, and begin anew at each flag.
    #[test]
    fn places_across_pieces() {
        let mut receiver = receiver();
        nothing(&mut receiver, &[0x41, 0x7d]);
        assert_eq!(refused(&mut receiver, &[0x7e, 0x7d, 0x7e]), (3, 1, 2));
        nothing(&mut receiver, &[0x01, 0x7d]);
        nothing(&mut receiver, &[0x7d, 0x5e]);
        assert_eq!(refused(&mut receiver, &[0x7d, 0x7e]), (2, 1, 3));
        nothing(&mut receiver, &[0x01, 0x7d]);
        assert_eq!(refused(&mut receiver, &[0x7e]), (1, 1, 3));
        assert_eq!(refused(&mut receiver, &[0x7e, 1, 2, 3, 4, 0x7e]), (6, 4, 4));
        assert_eq!(receiver.counts.refused, [3, 0, 0, 1, 0, 0]);
    }

    #[test]
    fn places_of_long_runs() {
        let mut receiver = receiver();
        nothing(&mut receiver, &[0x7e]);
        for _ in 0..200 {
            nothing(&mut receiver, &[0; 387]);
        }
        assert_eq!(refused(&mut receiver, &[0x7d, 0x7e]), (2, 2, 388));
        nothing(&mut receiver, &[0; 387]);
        nothing(&mut receiver, &[0x7d]);
        assert_eq!(refused(&mut receiver, &[0x5e, 0x7e]), (2, 2, 389));
        nothing(&mut receiver, &[0; 387]);
        nothing(&mut receiver, &[0x7d]);
        assert_eq!(refused(&mut receiver, &[0x7e]), (1, 1, 389));
    }

    #[test]
    fn refusals_without_a_place() {
        let mut receiver = receiver();
        nothing(&mut receiver, &[0x7e, 0x7e, 0x7e]);
        assert_eq!(refused(&mut receiver, &[0x01, 0x7e]), (2, 3, 0));
        assert_eq!(refused(&mut receiver, &enclose(3, 9, &[])), (6, 5, 0));
        assert_eq!(refused(&mut receiver, &enclose(2, 9, &[0])), (7, 6, 0));
        for (reply, packet) in [(REPLY_MIN - 1, PACKET_MIN), (REPLY_MIN, PACKET_MIN - 1)] {
            let call = receiver.take(&[0x7d, 0x7e], reply, packet);
            let short = Answer::Refused(Refusal::ShortBuffer);
            assert_eq!((call.taken, call.answer), (0, short));
        }
        let short = Refusal::ShortBuffer;
        assert_eq!((short.number(), short.place()), (7, 0));
        assert_eq!(receiver.counts.refused, [0, 0, 1, 0, 1, 1]);
    }
}
