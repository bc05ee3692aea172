//! What a session meets, and the lines that `run_cases` is given for it.

use crate::ash::PAYLOAD_MAX;
use crate::batches;
use crate::session::{Answer, Refusal, Session, OUTPUT_MIN};

// The longest buffers that the program lends.
pub const OUTPUT_MAX: usize = 160;
pub const PAYLOAD_ROOM_MAX: usize = 80;

/// `room` is the length of the lent output, `payload_room` that of the payload's.
#[derive(Clone, Debug, PartialEq, Eq)]
pub enum Event {
    Reset {
        room: usize,
    },
    Timeout {
        room: usize,
    },
    Send {
        room: usize,
        data: Vec<u8>,
    },
    Receive {
        room: usize,
        payload_room: usize,
        frame: Vec<u8>,
    },
}

// The events with just enough room.

pub fn reset() -> Event {
    let room = OUTPUT_MIN;
    Event::Reset { room }
}

pub fn timeout() -> Event {
    let room = OUTPUT_MIN;
    Event::Timeout { room }
}

pub fn send(data: Vec<u8>) -> Event {
    let room = OUTPUT_MIN;
    Event::Send { room, data }
}

pub fn receive(frame: Vec<u8>) -> Event {
    Event::Receive {
        room: OUTPUT_MIN,
        payload_room: PAYLOAD_MAX,
        frame,
    }
}

impl Event {
    pub fn meet(&self, session: &mut Session) -> Result<Answer, Refusal> {
        match self {
            Event::Reset { room } => session.reset(*room),
            Event::Timeout { room } => session.timeout(*room),
            Event::Send { room, data } => session.send(*room, data),
            Event::Receive {
                room,
                payload_room,
                frame,
            } => session.receive(*room, *payload_room, frame),
        }
    }

    pub fn line(&self, label: &str) -> String {
        let (key, head, bytes) = match self {
            Event::Reset { room } => ('r', vec![*room as u8], &[][..]),
            Event::Timeout { room } => ('t', vec![*room as u8], &[][..]),
            Event::Send { room, data } => ('s', vec![*room as u8], data.as_slice()),
            Event::Receive {
                room,
                payload_room,
                frame,
            } => ('f', vec![*room as u8, *payload_room as u8], &frame[..]),
        };
        batches::line(key, label, &[&head, bytes].concat())
    }

    pub fn room(&self) -> usize {
        match self {
            Event::Reset { room }
            | Event::Timeout { room }
            | Event::Send { room, .. }
            | Event::Receive { room, .. } => *room,
        }
    }
}
