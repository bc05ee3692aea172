//! Lines to be cut into frames that go through every value of something.

use crate::ash::{Parts, CONTROL_ESCAPED, FLAG, FLIP, LENGTH_ESCAPED, PAYLOAD_MAX, RESERVED};
use crate::cases::Case;
use crate::cutter::{FRAME_MAX, WAKE};
use crate::session::Kind;
use crate::states::frame;

/// The longest buffer that the program lends.
pub const ROOM_MAX: usize = 80;

const RESET: u8 = 0x08;
const ACK: u8 = 0x89;

pub fn cases() -> impl Iterator<Item = Case> {
    every_escape()
        .chain(every_length())
        .chain(every_control())
        .chain(every_byte_between())
        .chain(every_flag())
        .chain(every_division())
        .chain(every_room())
}

/// The RESET that stands behind a fault, to see that it is found.
fn reset() -> Vec<u8> {
    frame(Kind::Reset, 1, 0, &[])
}

/// Pieces with just enough room.
fn pieces(pieces: Vec<Vec<u8>>) -> Case {
    let pieces = pieces.into_iter().map(|piece| (FRAME_MAX, piece));
    Case::Pieces(pieces.collect())
}

/// A header and bytes behind it, as one piece, and RESET as another.
fn header(escape: u8, control: u8, length: u8) -> Case {
    let header = [FLAG, escape, control, length];
    let line = [&header[..], &[b'a'; PAYLOAD_MAX]].concat();
    pieces(vec![line, reset()])
}

/// Each header escape, with control and length bytes of each kind.
fn every_escape() -> impl Iterator<Item = Case> {
    let flipped = RESERVED.map(|byte| byte ^ FLIP);
    let bytes = [&RESERVED[1..], &flipped, &[RESET]].concat();
    let longest = PAYLOAD_MAX as u8;
    let few = [0, 0x11, 0x31, 0x33, longest, longest + 1];
    (0..=255).flat_map(move |escape| {
        let bytes = bytes.clone().into_iter();
        let pairs = bytes.flat_map(move |control| few.map(|length| (control, length)));
        pairs.map(move |(control, length)| header(escape, control, length))
    })
}

/// Each control byte, and each length byte, under the four header escapes without reserved bits.
fn every_control() -> impl Iterator<Item = Case> {
    escapes(|escape, control| header(escape, control, 0))
}

fn every_length() -> impl Iterator<Item = Case> {
    escapes(|escape, length| header(escape, ACK, length))
}

fn escapes(case: fn(u8, u8) -> Case) -> impl Iterator<Item = Case> {
    let both = CONTROL_ESCAPED | LENGTH_ESCAPED;
    let escapes = [0, LENGTH_ESCAPED, CONTROL_ESCAPED, both];
    let escapes = escapes.into_iter();
    escapes.flat_map(move |escape| (0..=255).map(move |byte| case(escape, byte)))
}

/// Each byte between two frames, alone, behind wakes, before a wake, and with bytes behind it.
fn every_byte_between() -> impl Iterator<Item = Case> {
    (0..=255).map(|byte| {
        let mut line = reset();
        line.push(byte);
        line.extend(reset());
        line.extend([WAKE, WAKE, byte, WAKE, byte]);
        line.extend(reset());
        pieces(vec![line])
    })
}

/// Frames of each form.
fn frames() -> [Vec<u8>; 6] {
    [
        reset(),
        frame(Kind::Ack, 2, 1, b"a"),
        Parts::new(0x11, &[b'a'; 17]).frame(),
        Parts::new(0xf8, &RESERVED).frame(),
        Parts::new(ACK, &[WAKE; 19]).frame(),
        Parts::new(ACK, &[b'a'; PAYLOAD_MAX]).frame(),
    ]
}

/// Each frame cut short by a flag at each place, in one piece and in two.
fn every_flag() -> impl Iterator<Item = Case> {
    frames().into_iter().flat_map(|frame| {
        let places = 1..=frame.len();
        places.flat_map(move |place| {
            let cut = frame[..place].to_vec();
            let behind = [&frame[..], &[WAKE], &reset()].concat();
            let whole = [&cut[..], &behind].concat();
            [pieces(vec![whole]), pieces(vec![cut, behind])]
        })
    })
}

/// A line with frames, wakes and faults, cut into pieces of each length.
fn every_division() -> impl Iterator<Item = Case> {
    let [reset, short, escaped, stuffed, wakes, longest] = frames();
    let line = [
        &[WAKE][..],
        &reset,
        &short[..5],
        &escaped,
        b"\xff\xffnoise\xff",
        &stuffed,
        &[FLAG, FLAG, 0x01, 0x08, 0x00, 0x00],
        &wakes,
        &[WAKE],
        &longest,
        &[FLAG, 0x00, 0x08],
    ];
    let line = line.concat();
    (1..=line.len()).map(move |length| {
        let chunks = line.chunks(length).map(<[u8]>::to_vec);
        pieces(chunks.collect())
    })
}

/// Each room for an empty piece, for the end of a frame under way and for the start of the next.
fn every_room() -> impl Iterator<Item = Case> {
    (0..=ROOM_MAX).map(|room| {
        let [.., longest] = frames();
        let (start, end) = longest.split_at(30);
        let given = [start, &[], end, b"a", &reset()].map(<[u8]>::to_vec);
        let given = given.into_iter();
        let tried = given.flat_map(|piece| [(room, piece.clone()), (FRAME_MAX, piece)]);
        Case::Pieces(tried.collect())
    })
}
