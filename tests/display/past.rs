//! What came before an event, as far as it tells the situations of the sender apart.

use crate::frame::{check, enclose, read_frame, stuff, ESCAPE, FLAG, PAYLOAD_MAX};
use crate::receiver::{self, Answer, Call, ACKNOWLEDGEMENT, DATA};
use crate::sender::{Held, Refusal, Sender, Sent, Timeout};
use crate::sender_classes::{Between, Cause, End, Inner, Sending, Sequence};
use crate::sender_classes::{FAULTS, FRAME_MAX, FRAME_MIN, LENGTHS};

/// How a display stood before an event.
pub struct Moment {
    pub sender: Sender,
    /// Whether there were bytes of a frame that was not closed yet.
    pub inside: bool,
}

/// What came before an event.
#[derive(Debug, Default)]
pub struct Past {
    /// The sequence of the last accepted send, and the end of its frame if it has one.
    last: Option<u8>,
    end: Option<End>,
    /// The numbers of the sends that were refused since.
    refused: Vec<u8>,
    between: Vec<Between>,
    inside: Vec<Inner>,
}

impl Past {
    pub fn tick(&mut self) {
        note(&mut self.between, Between::Tick);
    }

    /// The kinds of a send.
    pub fn of_send(
        &mut self,
        before: &Moment,
        room: usize,
        payload: &[u8],
        answer: &Result<Sent, Refusal>,
    ) -> Vec<Sending> {
        match answer {
            Ok(sent) => {
                let kinds = self.of_accepted(sent, room, payload);
                self.last = Some(sent.sequence);
                self.end = None;
                self.refused.clear();
                self.between.retain(|what| *what == Between::IdleTimeout);
                self.inside.clear();
                self.come_inside(before, Inner::Send);
                kinds
            }
            Err(refusal) => {
                note(&mut self.refused, refusal.number());
                of_refused(&before.sender, room, payload)
            }
        }
    }

    fn of_accepted(&self, sent: &Sent, room: usize, payload: &[u8]) -> Vec<Sending> {
        let content = [&[DATA, sent.sequence], payload].concat();
        let check = check(0xffff, &content).to_be_bytes();
        let is_check_escaped = check.iter().any(|byte| [ESCAPE, FLAG].contains(byte));
        let length = sent.frame.len();
        let mut kinds = vec![Sending::Sent(self.sequence(sent.sequence))];
        kinds.extend(met([
            (
                LENGTHS.contains(&payload.len()),
                Sending::SentLength(payload.len()),
            ),
            (room == length, Sending::SentExactly),
            (room == FRAME_MIN, Sending::SentIntoSix),
            (is_check_escaped, Sending::SentEscapedCheck),
            (length == FRAME_MAX, Sending::SentLongest),
        ]));
        kinds.extend(self.end.map(Sending::SentAfter));
        kinds.extend(self.refused.iter().copied().map(Sending::SentAfterRefused));
        kinds
    }

    fn sequence(&self, sequence: u8) -> Sequence {
        match sequence {
            0 => Sequence::First,
            u8::MAX => Sequence::Last,
            1 if self.last == Some(u8::MAX) => Sequence::BehindLast,
            ESCAPE | FLAG => Sequence::Escaped,
            _ => Sequence::Middle,
        }
    }

    /// The kinds of a timeout.
    pub fn of_timeout(
        &mut self,
        before: &Moment,
        room: usize,
        answer: &Result<Timeout, Refusal>,
    ) -> Vec<Sending> {
        match (answer, &before.sender.held) {
            (_, None) => {
                note(&mut self.between, Between::IdleTimeout);
                self.of_idle(room)
            }
            (Ok(Timeout::Repeated(sent)), Some(held)) => {
                self.come_inside(before, Inner::Repeat);
                self.of_repeated(held.repeats + 1, room == sent.frame.len())
            }
            (Ok(_), Some(_)) => {
                self.come_inside(before, Inner::Drop);
                let kinds = self.of_dropped(room);
                self.end_by(End::Dropped);
                kinds
            }
            (Err(_), Some(held)) => {
                note(&mut self.between, Between::RefusedTimeout);
                of_refused_repeat(held, room)
            }
        }
    }

    fn of_idle(&self, room: usize) -> Vec<Sending> {
        let mut kinds = vec![Sending::Idle];
        kinds.extend(met([(room == 0, Sending::IdleWithoutRoom)]));
        kinds.extend(self.end.map(Sending::IdleAfter));
        kinds
    }

    fn of_repeated(&self, number: u8, is_exact: bool) -> Vec<Sending> {
        let mut kinds = vec![Sending::Repeated(number)];
        kinds.extend(met([(is_exact, Sending::RepeatedExactly(number))]));
        let between = self.between.iter();
        kinds.extend(between.map(|between| Sending::RepeatedAfter(number, *between)));
        kinds
    }

    fn of_dropped(&self, room: usize) -> Vec<Sending> {
        let mut kinds = vec![Sending::Dropped];
        kinds.extend(met([(room == 0, Sending::DroppedWithoutRoom)]));
        kinds.extend(self.between.iter().copied().map(Sending::DroppedAfter));
        kinds
    }

    /// The kinds of a call with a piece, and of the frame that it closes if it closes one.
    pub fn of_call(
        &mut self,
        before: &Moment,
        piece: &[u8],
        call: &Call,
        frame: Option<&[u8]>,
    ) -> Vec<Sending> {
        let held = before.sender.held.as_ref();
        let kinds = match (&call.answer, frame) {
            (Answer::Heard(sequence), _) => self.of_heard(&before.sender, *sequence),
            (_, Some(frame)) => self.of_frame(before, &call.answer, frame),
            (Answer::Refused(receiver::Refusal::ShortBuffer), None) => of_short_call(held, piece),
            _ => Vec::new(),
        };
        if piece[..call.taken].contains(&FLAG) {
            self.inside.clear();
        }
        kinds
    }

    fn of_heard(&mut self, before: &Sender, sequence: u8) -> Vec<Sending> {
        match &before.held {
            Some(held) if held.sequence == sequence => {
                let mut kinds = vec![Sending::Freed(held.repeats)];
                kinds.extend(self.between.iter().copied().map(Sending::FreedAfter));
                kinds.extend(self.inside.iter().copied().map(Sending::FreedAround));
                self.end_by(End::Freed);
                kinds
            }
            Some(held) => {
                note(&mut self.between, Between::OtherAcknowledgement);
                vec![Sending::Other(held.repeats)]
            }
            None => {
                let mut kinds = vec![Sending::HeardIdle];
                let end = self.end.filter(|_| self.last == Some(sequence));
                kinds.extend(end.map(Sending::HeardAfter));
                kinds.extend(met([(sequence == before.next, Sending::HeardTooSoon)]));
                kinds
            }
        }
    }

    fn of_frame(&self, before: &Moment, answer: &Answer, frame: &[u8]) -> Vec<Sending> {
        let mut kinds = Vec::new();
        let sequence = read_frame(frame, PAYLOAD_MAX).map(|frame| frame.sequence);
        if let Some(held) = &before.sender.held {
            let has_sequence = match sequence {
                Ok(sequence) => sequence == held.sequence,
                Err(_) => frame[1..].starts_with(&stuff(&[ACKNOWLEDGEMENT, held.sequence])),
            };
            kinds.extend(met([(has_sequence, Sending::NotFreed(cause(answer)))]));
        }
        if matches!(answer, Answer::New { .. }) {
            let is_0 = sequence == Ok(0) && before.sender.next != 0;
            kinds.extend(met([(is_0, Sending::NewOfSequence0)]));
            kinds.extend(self.inside.iter().copied().map(Sending::NewAround));
        }
        kinds
    }

    fn come_inside(&mut self, before: &Moment, what: Inner) {
        if before.inside {
            note(&mut self.inside, what);
        }
    }

    fn end_by(&mut self, end: End) {
        self.end = Some(end);
        self.between.clear();
    }
}

fn note<T: PartialEq>(noted: &mut Vec<T>, what: T) {
    if !noted.contains(&what) {
        noted.push(what);
    }
}

fn met<const N: usize>(kinds: [(bool, Sending); N]) -> impl Iterator<Item = Sending> {
    let met = kinds.into_iter().filter(|kind| kind.0);
    met.map(|kind| kind.1)
}

/// The kinds of a refused send.
fn of_refused(before: &Sender, room: usize, payload: &[u8]) -> Vec<Sending> {
    let length = enclose(DATA, before.next, payload).len();
    let applying = [
        (before.held.is_some(), 25),
        (payload.len() > PAYLOAD_MAX, 8),
        (room < length, 7),
    ];
    let numbers = applying.iter().filter(|entry| entry.0);
    let numbers: Vec<u8> = numbers.map(|entry| entry.1).collect();
    let faults = FAULTS.into_iter().find(|faults| **faults == numbers);
    let mut kinds = vec![Sending::SendRefused(faults.expect("a reason"))];
    let is_one_byte_short = numbers == [7] && room + 1 == length;
    kinds.extend(met([(is_one_byte_short, Sending::SendOneByteShort)]));
    kinds
}

/// The kinds of a timeout whose output is too short.
fn of_refused_repeat(held: &Held, room: usize) -> Vec<Sending> {
    let number = held.repeats + 1;
    let length = enclose(DATA, held.sequence, &held.payload).len();
    let mut kinds = vec![Sending::RepeatRefused(number)];
    kinds.extend(met([(
        room + 1 == length,
        Sending::RepeatOneByteShort(number),
    )]));
    kinds
}

fn of_short_call(held: Option<&Held>, piece: &[u8]) -> Vec<Sending> {
    let has_acknowledgement = held.is_some_and(|held| {
        let acknowledgement = enclose(ACKNOWLEDGEMENT, held.sequence, &[]);
        let mut places = piece.windows(acknowledgement.len());
        places.any(|place| place == acknowledgement)
    });
    met([(has_acknowledgement, Sending::NotFreed(Cause::ShortBuffers))]).collect()
}

/// Why a frame was not heard.
fn cause(answer: &Answer) -> Cause {
    match answer {
        Answer::Refused(refusal) => Cause::Refused(refusal.number()),
        Answer::Again { .. } => Cause::DataAgain,
        _ => Cause::NewData,
    }
}
