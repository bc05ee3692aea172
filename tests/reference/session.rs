//! The ASHv3 conversation, from request C-21 and source document 002 (3.2 to 3.6), written for
//! reading and not for speed. The comparison of tests/session/ holds `run_cases` to this.

use crate::ash::{read_frame, stuff, write_frame, PAYLOAD_MAX};

/// What every event asks of its output: two of the longest frames and an empty one.
pub const OUTPUT_MIN: usize = 135;

/// The most frames that are out and not acknowledged.
const HELD_MAX: usize = 2;

/// Counters go from 1 to this and back to 1.
pub const COUNTER_MAX: u8 = 7;

#[derive(Clone, Copy, Debug, PartialEq, Eq)]
pub enum Kind {
    Reset,
    ResetAck,
    Ack,
    Nack,
}

/// What a control byte says.
#[derive(Clone, Copy, Debug, PartialEq, Eq)]
pub struct Control {
    pub kind: Kind,
    pub ofc: u8,
    pub afc: u8,
}

impl Control {
    pub fn of(byte: u8) -> Control {
        let kind = match byte >> 6 {
            0 => Kind::Reset,
            1 => Kind::ResetAck,
            2 => Kind::Ack,
            _ => Kind::Nack,
        };
        Control {
            kind,
            ofc: byte >> 3 & 7,
            afc: byte & 7,
        }
    }

    pub fn byte(self) -> u8 {
        (self.kind as u8) << 6 | self.ofc << 3 | self.afc
    }

    /// The bytes of the frame with this control byte and data that is not too long.
    pub fn frame(self, data: &[u8]) -> Vec<u8> {
        write_frame(self.byte(), data, usize::MAX).expect("data of at most 57 bytes as sent")
    }
}

/// The number behind this one; behind 0, which numbers no frame, comes 1.
pub fn next(counter: u8) -> u8 {
    counter % COUNTER_MAX + 1
}

/// Why an event was refused.
#[derive(Clone, Copy, Debug, PartialEq, Eq)]
pub enum Refusal {
    ShortOutput,
    ResetAckAwaited,
    TwoHeld,
    EmptyData,
    LongData,
}

impl Refusal {
    pub fn number(self) -> u8 {
        match self {
            Refusal::ShortOutput => 7,
            Refusal::ResetAckAwaited => 28,
            Refusal::TwoHeld => 29,
            Refusal::EmptyData | Refusal::LongData => 22,
        }
    }
}

/// What an event that was not refused gives.
#[derive(Clone, Debug, Default, PartialEq, Eq)]
pub struct Answer {
    /// The frames that go out, one behind the other.
    pub sent: Vec<u8>,
    /// The peer's data that is handed up.
    pub payload: Option<Vec<u8>>,
    /// The OFCs of the frames that a RESET dropped, oldest first.
    pub dropped: Vec<u8>,
}

impl Answer {
    fn sent(sent: Vec<u8>) -> Answer {
        Answer {
            sent,
            ..Answer::default()
        }
    }
}

/// A frame of ours that is not acknowledged yet: its OFC, and its data before stuffing.
#[derive(Clone, Debug, PartialEq, Eq)]
pub struct Held {
    pub ofc: u8,
    pub data: Vec<u8>,
}

#[derive(Clone, Debug, PartialEq, Eq)]
pub struct Session {
    /// Our outgoing counter.
    pub counter: u8,
    /// The OFC of the peer's last good frame.
    pub good: u8,
    /// Whether RESET ACK is awaited.
    pub awaiting: bool,
    /// Oldest first.
    pub held: Vec<Held>,
}

impl Session {
    /// A fresh session stands after our RESET.
    pub fn new() -> Session {
        Session {
            counter: 1,
            good: 0,
            awaiting: true,
            held: Vec::new(),
        }
    }

    /// Our RESET.
    pub fn reset(&mut self, room: usize) -> Result<Answer, Refusal> {
        ask(room)?;
        let dropped = self.drop_held();
        *self = Session::new();
        Ok(Answer {
            sent: self.empty(Kind::Reset),
            dropped,
            ..Answer::default()
        })
    }

    /// Our data: it advances the counter first and goes out in an ACK.
    pub fn send(&mut self, room: usize, data: &[u8]) -> Result<Answer, Refusal> {
        ask(room)?;
        if self.awaiting {
            return Err(Refusal::ResetAckAwaited);
        }
        if self.held.len() == HELD_MAX {
            return Err(Refusal::TwoHeld);
        }
        if data.is_empty() {
            return Err(Refusal::EmptyData);
        }
        if stuff(data).len() > PAYLOAD_MAX {
            return Err(Refusal::LongData);
        }
        self.counter = next(self.counter);
        let held = Held {
            ofc: self.counter,
            data: data.to_vec(),
        };
        let sent = self.frame(Kind::Ack, held.ofc, &held.data);
        self.held.push(held);
        Ok(Answer::sent(sent))
    }

    /// 500 ms without an acknowledgement: what is held goes out again.
    pub fn timeout(&mut self, room: usize) -> Result<Answer, Refusal> {
        ask(room)?;
        Ok(Answer::sent(self.held_again()))
    }

    /// The bytes of one frame of the peer.
    pub fn receive(
        &mut self,
        room: usize,
        payload_room: usize,
        bytes: &[u8],
    ) -> Result<Answer, Refusal> {
        ask(room)?;
        if payload_room < PAYLOAD_MAX {
            return Err(Refusal::ShortOutput);
        }
        let Ok(frame) = read_frame(bytes, payload_room) else {
            return Ok(self.only_nack());
        };
        let control = Control::of(frame.control);
        Ok(match control.kind {
            Kind::Reset => self.receive_reset(control, &frame.payload),
            Kind::ResetAck => self.receive_reset_ack(control, frame.payload),
            Kind::Ack | Kind::Nack => self.receive_acknowledgement(control, frame.payload),
        })
    }

    /// A RESET is 1/0 and empty. It does not end a wait of ours.
    fn receive_reset(&mut self, control: Control, payload: &[u8]) -> Answer {
        if control.ofc != 1 || control.afc != 0 || !payload.is_empty() {
            return self.only_nack();
        }
        let dropped = self.drop_held();
        self.counter = 1;
        self.good = 1;
        Answer {
            sent: self.empty(Kind::ResetAck),
            dropped,
            ..Answer::default()
        }
    }

    /// One that is not awaited is ignored. An awaited one is 1/1 and empty, or 2/1 and has data.
    fn receive_reset_ack(&mut self, control: Control, payload: Vec<u8>) -> Answer {
        if !self.awaiting {
            return Answer::default();
        }
        let ofc = if payload.is_empty() { 1 } else { 2 };
        if control.ofc != ofc || control.afc != 1 {
            return self.only_nack();
        }
        self.awaiting = false;
        self.good = ofc;
        self.hand_up(Vec::new(), payload)
    }

    /// An ACK or NACK covers; a NACK then has sent again what is still held; data is acknowledged
    /// behind that. With data that is not next it gets the NACK only.
    fn receive_acknowledgement(&mut self, control: Control, payload: Vec<u8>) -> Answer {
        if self.awaiting {
            return Answer::default();
        }
        if !payload.is_empty() {
            if control.ofc != next(self.good) {
                return self.only_nack();
            }
            self.good = control.ofc;
        }
        self.cover(control.afc);
        let again = match control.kind {
            Kind::Nack => self.held_again(),
            _ => Vec::new(),
        };
        self.hand_up(again, payload)
    }

    /// Good data is handed up and gets an empty ACK behind what else is sent.
    fn hand_up(&self, mut sent: Vec<u8>, payload: Vec<u8>) -> Answer {
        if payload.is_empty() {
            return Answer::sent(sent);
        }
        sent.extend(self.empty(Kind::Ack));
        Answer {
            sent,
            payload: Some(payload),
            ..Answer::default()
        }
    }

    /// The held frames up to the one that the peer's AFC names are acknowledged.
    fn cover(&mut self, afc: u8) {
        if let Some(named) = self.held.iter().position(|held| held.ofc == afc) {
            self.held.drain(..=named);
        }
    }

    fn drop_held(&mut self) -> Vec<u8> {
        self.held.drain(..).map(|held| held.ofc).collect()
    }

    /// Each frame of ours has as AFC the last good OFC.
    fn frame(&self, kind: Kind, ofc: u8, data: &[u8]) -> Vec<u8> {
        let afc = self.good;
        Control { kind, ofc, afc }.frame(data)
    }

    /// An empty frame does not advance the counter.
    fn empty(&self, kind: Kind) -> Vec<u8> {
        self.frame(kind, self.counter, &[])
    }

    fn only_nack(&self) -> Answer {
        Answer::sent(self.empty(Kind::Nack))
    }

    fn held_again(&self) -> Vec<u8> {
        let held = self.held.iter();
        held.flat_map(|held| self.frame(Kind::Ack, held.ofc, &held.data))
            .collect()
    }
}

fn ask(room: usize) -> Result<(), Refusal> {
    if room < OUTPUT_MIN {
        return Err(Refusal::ShortOutput);
    }
    Ok(())
}
