//! Cases that go through every value of something.

use crate::ash::{
    Parts, CONTROL_ESCAPED, ESCAPE, FLAG, FLIP, LENGTH_ESCAPED, PAYLOAD_MAX, RESERVED,
};
use crate::ash_inputs::{plain, stuffed};
use crate::cases::{Case, OUTPUT_MAX};

const RESET: u8 = 0x08;
const RESET_ACK: u8 = 0x49;
const ACK: u8 = 0x89;

pub fn cases() -> impl Iterator<Item = Case> {
    every_control()
        .chain(every_room())
        .chain(every_header_escape())
        .chain(every_sent_length())
        .chain(every_payload_length())
        .chain(every_payload_byte())
        .chain(every_change())
        .chain(every_cut())
}

fn read(frame: Vec<u8>) -> Case {
    let room = PAYLOAD_MAX;
    Case::Read { room, frame }
}

/// Each control byte with payloads at the limits: written into more, into just enough and into one
/// byte too few, and read back.
fn every_control() -> impl Iterator<Item = Case> {
    let lengths = [17, 19, 57, 58];
    let mut payloads = vec![Vec::new(), RESERVED.to_vec()];
    payloads.extend(lengths.map(plain));
    payloads.extend(lengths.map(stuffed));
    let pairs = (0..=255).flat_map(move |control| {
        let payloads = payloads.clone().into_iter();
        payloads.map(move |payload| (control, payload))
    });
    pairs.flat_map(|(control, payload)| written_and_read(control, &payload))
}

fn written_and_read(control: u8, payload: &[u8]) -> Vec<Case> {
    let frame = Parts::new(control, payload).frame();
    let rooms = [OUTPUT_MAX, frame.len(), frame.len() - 1];
    let mut cases: Vec<Case> = rooms.map(|room| write(room, control, payload)).into();
    cases.push(read(frame));
    cases
}

fn write(room: usize, control: u8, payload: &[u8]) -> Case {
    Case::Write {
        room,
        control,
        payload: payload.to_vec(),
    }
}

/// Each length of output for the shortest and the longest frame.
fn every_room() -> impl Iterator<Item = Case> {
    (0..=OUTPUT_MAX).flat_map(|room| {
        let payloads = [plain(0), plain(PAYLOAD_MAX), stuffed(PAYLOAD_MAX)];
        payloads.into_iter().flat_map(move |payload| {
            let frame = Parts::new(ACK, &payload).frame();
            [write(room, ACK, &payload), Case::Read { room, frame }]
        })
    })
}

/// Each header escape with control bytes of each kind, and each control byte with the four header
/// escapes that have no reserved bit; the check is that of the header.
fn every_header_escape() -> impl Iterator<Item = Case> {
    let flipped = RESERVED.map(|byte| byte ^ FLIP);
    let controls = [&RESERVED[..], &flipped, &[RESET, RESET_ACK, 0xff]].concat();
    let each_escape = (0..=255).flat_map(move |escape| {
        let controls = controls.clone().into_iter();
        controls.map(move |control| (escape, control))
    });
    let escapes = [
        0,
        LENGTH_ESCAPED,
        CONTROL_ESCAPED,
        CONTROL_ESCAPED | LENGTH_ESCAPED,
    ];
    let each_control = (0..=255).flat_map(move |control| escapes.map(|escape| (escape, control)));
    each_escape.chain(each_control).map(|(escape, control)| {
        let mut parts = Parts::new(control, &[]);
        parts.escape = escape;
        read(parts.frame())
    })
}

/// Each length byte with just so many bytes present, escaped in the header and not.
fn every_sent_length() -> impl Iterator<Item = Case> {
    (0..=255).flat_map(|length| {
        [0, LENGTH_ESCAPED].map(|escape| {
            let mut parts = Parts::new(ACK, &plain(length));
            parts.escape = escape;
            read(parts.frame())
        })
    })
}

/// Payloads of each length, plain, of unlike bytes and with escapes, written and read back; the
/// check is over four bytes more.
fn every_payload_length() -> impl Iterator<Item = Case> {
    let payloads = (0..=PAYLOAD_MAX).flat_map(|n| [plain(n), unlike(n), stuffed(n)]);
    payloads.flat_map(|payload| written_and_read(ACK, &payload))
}

/// Unlike bytes, so that two that changed places show. Few are reserved.
fn unlike(length: usize) -> Vec<u8> {
    (0..length).map(|place| (place * 167 + 13) as u8).collect()
}

/// Each byte at each place of eleven: a check that takes eight bytes at a time, or eight and then
/// two, has some of each.
fn every_payload_byte() -> impl Iterator<Item = Case> {
    (0..11).flat_map(|place| {
        (0..=255).flat_map(move |byte| {
            let mut payload = unlike(11);
            payload[place] = byte;
            written_and_read(ACK, &payload)
        })
    })
}

/// Frames of each form.
fn frames() -> [Vec<u8>; 8] {
    let payloads = [
        (RESET, plain(0)),
        (RESET_ACK, plain(0)),
        (0x11, plain(1)),
        (ACK, RESERVED.to_vec()),
        (ACK, plain(17)),
        (FLAG, stuffed(19)),
        (ACK, plain(PAYLOAD_MAX)),
        (ESCAPE, stuffed(PAYLOAD_MAX)),
    ];
    payloads.map(|(control, payload)| Parts::new(control, &payload).frame())
}

/// Each byte of each frame changed to each other value.
fn every_change() -> impl Iterator<Item = Case> {
    frames().into_iter().flat_map(|frame| {
        let places = 0..frame.len();
        places.flat_map(move |place| {
            let frame = frame.clone();
            (1..=255).map(move |change| {
                let mut changed = frame.clone();
                changed[place] ^= change;
                read(changed)
            })
        })
    })
}

/// Each frame cut at each byte, and with a byte behind it.
fn every_cut() -> impl Iterator<Item = Case> {
    frames().into_iter().flat_map(|frame| {
        let lengths = 0..=frame.len() + 1;
        lengths.map(move |length| {
            let mut cut = frame.clone();
            cut.resize(length, 0);
            read(cut)
        })
    })
}
