//! A list of events under way, in which each may depend on how the sender stands.

use crate::cases::{Case, Event, Observed, OUTPUT_MAX};
use crate::frame::enclose;
use crate::receiver::{ACKNOWLEDGEMENT, DATA};
use crate::sender::{following, Sender};

/// What a list goes on with. Where room is not named, an output has just enough of it; if nothing
/// is held, the last frame stands for the held one.
#[derive(Clone, Copy, Debug, PartialEq, Eq)]
pub enum Next {
    Send,
    /// One byte of room too few.
    ShortSend,
    Timeout,
    /// One byte of room too few.
    ShortTimeout,
    /// Of the held sequence, as all that follow.
    Acknowledgement,
    /// Of the sequence behind the held one.
    OtherAcknowledgement,
    DamagedAcknowledgement,
    AcknowledgementWithPayload,
    /// An acknowledgement in a piece whose calls are refused by 7.
    RefusedPiece,
    Data,
    Tick,
}

impl Next {
    pub const ALL: [Next; 11] = [
        Next::Send,
        Next::ShortSend,
        Next::Timeout,
        Next::ShortTimeout,
        Next::Acknowledgement,
        Next::OtherAcknowledgement,
        Next::DamagedAcknowledgement,
        Next::AcknowledgementWithPayload,
        Next::RefusedPiece,
        Next::Data,
        Next::Tick,
    ];
}

pub struct Script {
    observed: Observed,
    events: Vec<Event>,
    /// The sequence of the last frame that was held.
    sequence: u8,
    /// The length of that frame.
    length: usize,
}

impl Script {
    pub fn new() -> Script {
        Script {
            observed: Observed::new(),
            events: Vec::new(),
            sequence: 0,
            length: frame_length(0, &[]),
        }
    }

    /// One behind which so many frames were sent and acknowledged.
    pub fn behind(sends: usize) -> Script {
        let mut script = Script::new();
        for _ in 0..sends {
            script.go_on(Next::Send);
            script.go_on(Next::Acknowledgement);
        }
        script
    }

    pub fn case(self) -> Case {
        let events = self.events;
        Case { events }
    }

    pub fn len(&self) -> usize {
        self.events.len()
    }

    pub fn sender(&self) -> &Sender {
        self.observed.sender()
    }

    /// The sequence of the held frame, or of the last one.
    pub fn sequence(&self) -> u8 {
        self.sequence
    }

    /// The room that a timeout asks.
    pub fn room_to_repeat(&self) -> usize {
        self.length
    }

    /// The room that a send of this payload asks, as far as there is so much.
    pub fn room_to_send(&self, payload: &[u8]) -> usize {
        frame_length(self.sender().next, payload).min(OUTPUT_MAX)
    }

    pub fn add(&mut self, event: Event) {
        self.observed.meet(&event, "");
        self.events.push(event);
        if let Some(held) = &self.observed.sender().held {
            self.sequence = held.sequence;
            self.length = frame_length(held.sequence, &held.payload);
        }
    }

    /// A piece, unless it is empty.
    pub fn piece(&mut self, bytes: &[u8]) {
        if !bytes.is_empty() {
            self.add(Event::Piece(bytes.to_vec()));
        }
    }

    pub fn send_into(&mut self, room: usize, payload: &[u8]) {
        let payload = payload.to_vec();
        self.add(Event::Send { room, payload });
    }

    /// A send with just enough room.
    pub fn send(&mut self, payload: &[u8]) {
        self.send_into(self.room_to_send(payload), payload);
    }

    /// A send with a byte of room too few.
    pub fn short_send(&mut self, payload: &[u8]) {
        self.send_into(self.room_to_send(payload) - 1, payload);
    }

    pub fn timeout_into(&mut self, room: usize) {
        self.add(Event::Timeout { room });
    }

    pub fn go_on(&mut self, next: Next) {
        let number = self.events.len() as u8;
        match next {
            Next::Send => self.send(&[number]),
            Next::ShortSend => self.short_send(&[number]),
            Next::Timeout => self.timeout_into(self.length),
            Next::ShortTimeout => self.timeout_into(self.length - 1),
            Next::RefusedPiece => self.add(Event::ShortBuffers(self.acknowledgement())),
            Next::Tick => self.add(Event::Tick),
            _ => self.piece(&self.frame(next)),
        }
    }

    /// The acknowledgement of the held frame.
    fn acknowledgement(&self) -> Vec<u8> {
        enclose(ACKNOWLEDGEMENT, self.sequence, &[])
    }

    /// The frame that the module sends.
    fn frame(&self, next: Next) -> Vec<u8> {
        match next {
            Next::OtherAcknowledgement => enclose(ACKNOWLEDGEMENT, following(self.sequence), &[]),
            Next::DamagedAcknowledgement => damaged(self.acknowledgement()),
            Next::AcknowledgementWithPayload => enclose(ACKNOWLEDGEMENT, self.sequence, &[0]),
            Next::Data => enclose(DATA, self.sequence, &[]),
            _ => self.acknowledgement(),
        }
    }
}

/// The length of the frame that is sent for a payload.
fn frame_length(sequence: u8, payload: &[u8]) -> usize {
    enclose(DATA, sequence, payload).len()
}

/// A frame with a bit of its check changed.
fn damaged(mut frame: Vec<u8>) -> Vec<u8> {
    let last = frame.len() - 2;
    frame[last] ^= 1;
    frame
}
