//! Each kind of answer that a run must meet, and how the line was cut before it.

use crate::board::Reading;
use crate::frame::{Refused, FLAG};
use crate::places::{Place, AFTER_ESCAPE};
use crate::receiver::{Answer, Call, Refusal};
use crate::sender_classes::Sending;

/// More bytes than any frame has, and more than 16 bits count.
const MANY: usize = 1_000;
const PAST_16_BITS: usize = 0xffff;

#[derive(Clone, Copy, Debug, PartialEq, Eq)]
pub enum Class {
    Nothing,
    Heard,
    Again,
    Update,
    EndMark,
    Unread,
    Refused(u8),
    Place(Place),
    /// The frame's first byte and the byte of the place, for 4 the last one, came in different
    /// pieces.
    Across(u8),
    /// A piece ended with the escape before the byte of this place.
    CutBehindEscape(Place),
    /// Each byte of the frame came in a piece of its own.
    ByteByByte(u8),
    /// So many bytes came behind the fault.
    ManyBehind(u8),
    Past16BitsBehind(u8),
    /// A tick, or a call with short buffers, came inside the frame.
    TickInside(u8),
    ShortCallInside(u8),
    Sender(Sending),
}

/// Refusals that have a place, and those of them whose fault may have bytes behind it.
const PLACED: [u8; 3] = [1, 2, 4];
const FAULTS: [u8; 2] = [1, 2];

impl Class {
    pub fn all() -> impl Iterator<Item = Class> {
        let answers = [
            Class::Nothing,
            Class::Heard,
            Class::Again,
            Class::Update,
            Class::EndMark,
            Class::Unread,
        ];
        answers
            .into_iter()
            .chain((1..=7).map(Class::Refused))
            .chain(Place::all().map(Class::Place))
            .chain(AFTER_ESCAPE.map(Class::CutBehindEscape))
            .chain(PLACED.map(Class::Across))
            .chain(PLACED.map(Class::ByteByByte))
            .chain(PLACED.map(Class::TickInside))
            .chain(PLACED.map(Class::ShortCallInside))
            .chain(FAULTS.map(Class::ManyBehind))
            .chain(FAULTS.map(Class::Past16BitsBehind))
            .chain(Sending::all().map(Class::Sender))
    }

    fn of_answer(answer: &Answer) -> Class {
        match answer {
            Answer::Nothing => Class::Nothing,
            Answer::Refused(refusal) => Class::Refused(refusal.number()),
            Answer::Heard(_) => Class::Heard,
            Answer::Again { .. } => Class::Again,
            Answer::New { reading, .. } => match reading {
                Ok(Reading::Update { .. }) => Class::Update,
                Ok(Reading::EndMark { .. }) => Class::EndMark,
                Err(_) => Class::Unread,
            },
        }
    }
}

/// What came between since the last flag.
#[derive(Debug, Default)]
pub struct Cut {
    /// The offsets at which pieces began, the one right behind the flag left out.
    starts: Vec<usize>,
    pub ticked: bool,
    short_call: bool,
}

impl Cut {
    /// The kinds of a call that is given this piece, with the run that there was before.
    pub fn classes(&mut self, run: Option<&[u8]>, piece: &[u8], call: &Call) -> Vec<Class> {
        let mut classes = vec![Class::of_answer(&call.answer)];
        if call.answer == Answer::Refused(Refusal::ShortBuffer) {
            self.short_call = true;
            return classes;
        }
        match run {
            Some(run @ [_, ..]) => self.starts.push(run.len() + 1),
            _ => *self = Cut::default(),
        }
        if let Answer::Refused(Refusal::Frame(refused)) = call.answer {
            let frame = closed(run, piece, call).expect("a closed frame");
            classes.extend(self.of_refused(&frame, refused));
        }
        classes
    }

    /// The kinds of the place of a refusal that has one.
    fn of_refused(&self, frame: &[u8], refused: Refused) -> Vec<Class> {
        let number = refused.reason.number();
        if !PLACED.contains(&number) {
            return Vec::new();
        }
        let closing = frame.len() - 1;
        // A place of 4 is a length: there all bytes before the closing flag count.
        let last = match number {
            4 => closing - 1,
            _ => refused.place,
        };
        let is_across = self.starts.iter().any(|start| *start <= last);
        let is_byte_by_byte = self.starts.len() == closing - 1;
        let kinds = [
            is_across.then_some(Class::Across(number)),
            is_byte_by_byte.then_some(Class::ByteByByte(number)),
            self.ticked.then_some(Class::TickInside(number)),
            self.short_call.then_some(Class::ShortCallInside(number)),
        ];
        let places = Place::kinds(frame, refused).into_iter().map(Class::Place);
        let mut classes: Vec<Class> = places.chain(kinds.into_iter().flatten()).collect();
        if let Some(place) = Place::of_byte(frame, refused) {
            classes.extend(self.of_fault(refused, place, closing - refused.place));
        }
        classes
    }

    /// The kinds of a fault at a byte, with so many bytes from there to the closing flag.
    fn of_fault(&self, refused: Refused, place: Place, behind: usize) -> Vec<Class> {
        let number = refused.reason.number();
        let is_cut = AFTER_ESCAPE.contains(&place) && self.starts.contains(&refused.place);
        let kinds = [
            is_cut.then_some(Class::CutBehindEscape(place)),
            (behind > MANY).then_some(Class::ManyBehind(number)),
            (behind > PAST_16_BITS).then_some(Class::Past16BitsBehind(number)),
        ];
        kinds.into_iter().flatten().collect()
    }
}

/// The frame that a call closes, with its flags.
pub fn closed(run: Option<&[u8]>, piece: &[u8], call: &Call) -> Option<Vec<u8>> {
    match call.answer {
        Answer::Nothing | Answer::Refused(Refusal::ShortBuffer) => return None,
        _ => {}
    }
    let taken = &piece[..call.taken];
    let line = match run {
        Some(run) => [&[FLAG], run, taken].concat(),
        None => taken.to_vec(),
    };
    let before = &line[..line.len() - 1];
    let opening = before.iter().rposition(|byte| *byte == FLAG);
    Some(line[opening.expect("an opening flag")..].to_vec())
}
