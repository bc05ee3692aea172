//! Each kind of answer that a run must meet.

use crate::applying::{board_numbers, fragment_numbers};
use crate::board::{self, Reading};
use crate::cases::lent_board;
use crate::list_classes::List;
use crate::packet::{self, read_packet, Item, Packet, CENTS, EOF, INTEGER, NAME};
use crate::transfer::{self, read_fragment, BadForm, Fragment, Transfer};

#[derive(Clone, Copy, Debug, PartialEq, Eq)]
pub enum Class {
    Parts(Form),
    PartsRefused(packet::Refusal),
    Look(Form),
    LookRefused(packet::Refusal),
    Value(Held),
    BadValue,
    Update(usize, Held),
    /// Whether other items stand before the Name, and behind the value.
    PassedOver(bool, bool),
    EndMark(End),
    /// The request id of an update or an end mark.
    Id(u16),
    BoardRefused(board::Refusal),
    /// The first two numbers, where several refusals apply.
    BoardBoth(u8, u8),
    List(List),
    /// Whether a transfer started.
    Start(bool),
    Accepted(Taken),
    /// The bytes of an Offset, or of a Length, that was accepted.
    OffsetBytes(usize),
    LengthBytes(usize),
    FragmentRefused(transfer::Refusal),
    FragmentBoth(u8, u8),
}

/// What a packet has of the type that is looked for.
#[derive(Clone, Copy, Debug, PartialEq, Eq)]
pub enum Form {
    NoItems,
    NoneOfIt,
    OneLast,
    OneFollowed,
    TwoInARow,
    Several,
    /// As many items as a payload can have, or more.
    Crowded,
}

/// The type and the length of a good value.
#[derive(Clone, Copy, Debug, PartialEq, Eq)]
pub enum Held {
    Integer(usize),
    Cents(usize),
    Boolean,
}

#[derive(Clone, Copy, Debug, PartialEq, Eq)]
pub enum End {
    Alone,
    Several,
    BesideOthers,
}

/// What a fragment is to its file.
#[derive(Clone, Copy, Debug, PartialEq, Eq)]
pub enum Taken {
    Whole,
    First,
    Later,
    Last,
    /// An empty Binary with EOF behind other fragments.
    EofAlone,
    EmptyFile,
    /// The last byte of the buffer is written.
    ToTheEnd,
    UnknownLength,
}

/// So many empty items fill a payload.
const CROWD: usize = 189;

const IDS: [u16; 5] = [0, 1, 255, 256, 65_535];

pub fn of_parts(bytes: &[u8]) -> Vec<Class> {
    vec![match read_packet(bytes) {
        Ok(packet) => Class::Parts(Form::of(&packet, NAME)),
        Err(refusal) => Class::PartsRefused(refusal),
    }]
}

pub fn of_look(kind: u8, bytes: &[u8]) -> Vec<Class> {
    vec![match read_packet(bytes) {
        Ok(packet) => Class::Look(Form::of(&packet, kind)),
        Err(refusal) => Class::LookRefused(refusal),
    }]
}

impl Form {
    fn of(packet: &Packet, kind: u8) -> Form {
        let look = packet.look(kind);
        if packet.items.is_empty() {
            return Form::NoItems;
        }
        if packet.items.len() >= CROWD {
            return Form::Crowded;
        }
        match (look.count, look.behind) {
            (0, _) => Form::NoneOfIt,
            (1, None) => Form::OneLast,
            (1, Some(_)) => Form::OneFollowed,
            (_, Some(item)) if item.kind == kind => Form::TwoInARow,
            _ => Form::Several,
        }
    }
}

pub fn of_value(kind: u8, value: &[u8]) -> Vec<Class> {
    let start = 0;
    let item = Item { kind, start, value };
    vec![match board::read_value(&item) {
        Ok(_) => Class::Value(Held::of(&item)),
        Err(_) => Class::BadValue,
    }]
}

impl Held {
    fn of(value: &Item) -> Held {
        match value.kind {
            INTEGER => Held::Integer(value.value.len()),
            CENTS => Held::Cents(value.value.len()),
            _ => Held::Boolean,
        }
    }
}

pub fn of_reading(bytes: &[u8]) -> Vec<Class> {
    match lent_board().read(bytes) {
        Ok(Reading::Update { row, id, .. }) => of_update(row, id, bytes),
        Ok(Reading::EndMark { id }) => of_end_mark(id, bytes),
        Err(refusal) => {
            let both = pair(&board_numbers(bytes), refusal.number());
            let both = both.map(|(first, second)| Class::BoardBoth(first, second));
            [Some(Class::BoardRefused(refusal)), both]
                .into_iter()
                .flatten()
                .collect()
        }
    }
}

/// The first two of the numbers that apply, of which the first is the answer.
fn pair(numbers: &[u8], answer: u8) -> Option<(u8, u8)> {
    assert_eq!(
        numbers.first(),
        Some(&answer),
        "the first number that applies"
    );
    Some((answer, *numbers.get(1)?))
}

fn of_update(row: usize, id: u16, bytes: &[u8]) -> Vec<Class> {
    let items = read_packet(bytes).expect("an update").items;
    let name = items.iter().position(|item| item.kind == NAME);
    let name = name.expect("a Name");
    let mut classes = of_id(id);
    classes.push(Class::Update(row, Held::of(&items[name + 1])));
    classes.push(Class::PassedOver(name > 0, name + 2 < items.len()));
    classes
}

fn of_end_mark(id: u16, bytes: &[u8]) -> Vec<Class> {
    let packet = read_packet(bytes).expect("an end mark");
    let end = match (packet.look(EOF).count, packet.items.len()) {
        (1, 1) => End::Alone,
        (1, _) => End::BesideOthers,
        _ => End::Several,
    };
    let mut classes = of_id(id);
    classes.push(Class::EndMark(end));
    classes
}

fn of_id(id: u16) -> Vec<Class> {
    let ids = IDS.into_iter().filter(|known| *known == id);
    ids.map(Class::Id).collect()
}

/// The answer to a packet that a transfer was given. After a refused start there is no transfer.
pub fn of_fragment(
    before: Option<&Transfer>,
    bytes: &[u8],
    room: usize,
    answer: Result<(), transfer::Refusal>,
) -> Vec<Class> {
    let Err(refusal) = answer else {
        return of_accepted(before.expect("a transfer"), bytes, room);
    };
    let mut classes = vec![Class::FragmentRefused(refusal)];
    if let Some(transfer) = before {
        let both = pair(&fragment_numbers(transfer, bytes, room), refusal.number());
        classes.extend(both.map(|(first, second)| Class::FragmentBoth(first, second)));
    }
    classes
}

fn of_accepted(before: &Transfer, bytes: &[u8], room: usize) -> Vec<Class> {
    let fragment = read_fragment(bytes).expect("a fragment");
    let packet = read_packet(bytes).expect("a packet");
    let bytes_of = |kind| packet.look(kind).first.map(|item| item.value.len());
    let mut classes = vec![Class::Accepted(Taken::of(&fragment))];
    classes.extend(bytes_of(packet::OFFSET).map(Class::OffsetBytes));
    classes.extend(bytes_of(packet::LENGTH).map(Class::LengthBytes));
    if !fragment.binary.is_empty() && fragment.end() == room as u64 {
        classes.push(Class::Accepted(Taken::ToTheEnd));
    }
    if fragment.eof && fragment.length.or(before.declared).is_none() {
        classes.push(Class::Accepted(Taken::UnknownLength));
    }
    classes
}

impl Taken {
    fn of(fragment: &Fragment) -> Taken {
        match (fragment.offset, fragment.binary.is_empty(), fragment.eof) {
            (0, true, _) => Taken::EmptyFile,
            (0, false, true) => Taken::Whole,
            (0, false, false) => Taken::First,
            (_, true, _) => Taken::EofAlone,
            (_, false, true) => Taken::Last,
            (_, false, false) => Taken::Later,
        }
    }
}

impl Class {
    pub fn all() -> impl Iterator<Item = Class> {
        let packets = FORMS
            .into_iter()
            .flat_map(|form| [Class::Parts(form), Class::Look(form)]);
        let refused = PACKET_REFUSALS.into_iter().flat_map(|refusal| {
            [
                Class::PartsRefused(refusal),
                Class::LookRefused(refusal),
                Class::BoardRefused(board::Refusal::Packet(refusal)),
                Class::FragmentRefused(transfer::Refusal::Packet(refusal)),
            ]
        });
        packets
            .chain(refused)
            .chain(of_boards())
            .chain(List::all().map(Class::List))
            .chain(of_transfers())
    }
}

fn of_boards() -> impl Iterator<Item = Class> {
    let held = HELD.into_iter();
    let held = held.flat_map(|held| {
        [
            Class::Value(held),
            Class::Update(0, held),
            Class::Update(1, held),
        ]
    });
    let passed = [false, true].into_iter();
    let passed =
        passed.flat_map(|before| [false, true].map(|behind| Class::PassedOver(before, behind)));
    held.chain(passed)
        .chain([End::Alone, End::Several, End::BesideOthers].map(Class::EndMark))
        .chain(IDS.map(Class::Id))
        .chain([Class::BadValue])
        .chain(VALUE_REFUSALS.map(Class::BoardRefused))
        .chain(BOARD_REFUSALS.map(Class::BoardRefused))
        .chain(pairs(&[9, 10, 11, 12, 13, 14]).map(|(a, b)| Class::BoardBoth(a, b)))
}

fn of_transfers() -> impl Iterator<Item = Class> {
    let bad_forms = BAD_FORMS.map(transfer::Refusal::BadForm);
    [false, true]
        .map(Class::Start)
        .into_iter()
        .chain(TAKEN.map(Class::Accepted))
        .chain([1, 2, 4].map(Class::OffsetBytes))
        .chain([1, 2, 4].map(Class::LengthBytes))
        .chain(FRAGMENT_REFUSALS.map(Class::FragmentRefused))
        .chain(bad_forms.map(Class::FragmentRefused))
        .chain(pairs(&[9, 10, 11, 20, 16, 17, 18, 19]).map(|(a, b)| Class::FragmentBoth(a, b)))
}

/// Each two of them, in their order.
pub fn pairs<T: Copy>(all: &'static [T]) -> impl Iterator<Item = (T, T)> {
    let firsts = all.iter().enumerate();
    firsts.flat_map(|(place, first)| {
        let seconds = all[place + 1..].iter();
        seconds.map(|second| (*first, *second))
    })
}

const FORMS: [Form; 7] = [
    Form::NoItems,
    Form::NoneOfIt,
    Form::OneLast,
    Form::OneFollowed,
    Form::TwoInARow,
    Form::Several,
    Form::Crowded,
];

const PACKET_REFUSALS: [packet::Refusal; 5] = [
    packet::Refusal::ShortPacket,
    packet::Refusal::WrongFirstByte,
    packet::Refusal::TypeAlone,
    packet::Refusal::CutValue,
    packet::Refusal::EofWithLength,
];

const HELD: [Held; 9] = [
    Held::Integer(1),
    Held::Integer(2),
    Held::Integer(4),
    Held::Integer(8),
    Held::Cents(1),
    Held::Cents(2),
    Held::Cents(4),
    Held::Cents(8),
    Held::Boolean,
];

const VALUE_REFUSALS: [board::Refusal; 5] = [
    board::Refusal::EofBehind,
    board::Refusal::OtherType,
    board::Refusal::BadInteger,
    board::Refusal::BadCents,
    board::Refusal::BadBoolean,
];

const BOARD_REFUSALS: [board::Refusal; 6] = [
    board::Refusal::OtherOpcode,
    board::Refusal::NoName,
    board::Refusal::SeveralNames,
    board::Refusal::BadName,
    board::Refusal::NothingBehind,
    board::Refusal::NotWatched,
];

const TAKEN: [Taken; 8] = [
    Taken::Whole,
    Taken::First,
    Taken::Later,
    Taken::Last,
    Taken::EofAlone,
    Taken::EmptyFile,
    Taken::ToTheEnd,
    Taken::UnknownLength,
];

const FRAGMENT_REFUSALS: [transfer::Refusal; 8] = [
    transfer::Refusal::OtherOpcode,
    transfer::Refusal::OtherLocation,
    transfer::Refusal::OtherOffset,
    transfer::Refusal::Complete,
    transfer::Refusal::FragmentPastLength,
    transfer::Refusal::FragmentPastBuffer,
    transfer::Refusal::LengthPastBuffer,
    transfer::Refusal::EarlyEof,
];

const BAD_FORMS: [BadForm; 14] = [
    BadForm::OtherItem,
    BadForm::NoLocation,
    BadForm::SeveralLocations,
    BadForm::BadLocation,
    BadForm::NoOffset,
    BadForm::SeveralOffsets,
    BadForm::BadOffset,
    BadForm::NoBinary,
    BadForm::SeveralBinaries,
    BadForm::SeveralLengths,
    BadForm::BadLength,
    BadForm::LateLength,
    BadForm::SeveralEofs,
    BadForm::EmptyBinary,
];
