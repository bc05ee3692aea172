//! One input given to the library and to the reference; reports and every lent byte compared.

use crate::archive;
use crate::classes::{self, Class};
use crate::division;
use crate::frame::{check, read_frame, write_frame, Frame};
use crate::inputs::{CheckInput, CrcInput, JoinedInput, ThreeInput, WriteInput, PLACED_MAX};
use crate::line_bytes::hex;

/// Bytes on both sides of a lent output that must stay.
const GUARD: usize = 16;

/// An output with its guards, before and after the call.
struct Lent {
    bytes: Vec<u8>,
    room: usize,
}

impl Lent {
    fn new(room: usize) -> Lent {
        let pattern = (0..room + 2 * GUARD).map(|place| (place * 167 + room + 13) as u8);
        Lent {
            bytes: pattern.collect(),
            room,
        }
    }

    fn output(&mut self) -> &mut [u8] {
        &mut self.bytes[GUARD..GUARD + self.room]
    }

    /// What the whole is to be once `written` stands at the start of the output.
    fn with(&self, written: &[u8]) -> Vec<u8> {
        let mut wanted = self.bytes.clone();
        wanted[GUARD..GUARD + written.len()].copy_from_slice(written);
        wanted
    }
}

/// The report of a call that was not refused, as `arznavik.h` lays it out.
fn taken(kind: u8, sequence: u8, length: usize) -> u64 {
    u64::from(kind) << 8 | u64::from(sequence) << 16 | (length as u64) << 24
}

fn compare(report: u64, wanted_report: u64, bytes: &[u8], wanted: &[u8]) -> Result<(), String> {
    if report != wanted_report {
        return Err(format!("report {report:x}, wanted {wanted_report:x} (hex)"));
    }
    match bytes.iter().zip(wanted).position(|(a, b)| a != b) {
        None => Ok(()),
        Some(place) => Err(format!(
            "byte {} of the output is {:02x}, wanted {:02x}",
            place as isize - GUARD as isize,
            bytes[place],
            wanted[place]
        )),
    }
}

pub fn frame_check(input: &CheckInput) -> Result<(Vec<Class>, u64), String> {
    let answer = read_frame(&input.frame, input.room);
    let (classes, report, payload): (Vec<Class>, u64, &[u8]) = match &answer {
        Ok(Frame {
            kind,
            sequence,
            payload,
        }) => (
            vec![Class::checked(payload.len())],
            taken(*kind, *sequence, payload.len()),
            payload,
        ),
        Err(refused) => (
            classes::of_refused(&input.frame, *refused),
            archive::refused(refused.reason.number(), refused.place),
            &[],
        ),
    };
    let mut lent = Lent::new(input.room);
    let wanted = lent.with(payload);
    let got = archive::frame_check(&input.frame, lent.output());
    compare(got, report, &lent.bytes, &wanted).map_err(|fault| {
        let frame = hex(&input.frame);
        format!("output of {}, frame {frame}: {fault}", input.room)
    })?;
    Ok((classes, 1))
}

pub fn frame_write(input: &WriteInput) -> Result<Class, String> {
    let (kind, sequence) = (input.kind, input.sequence);
    let answer = write_frame(kind, sequence, &input.payload, input.room);
    let (class, report, frame): (Class, u64, &[u8]) = match &answer {
        Ok(frame) if frame.len() == input.room => {
            (Class::WrittenExactly, taken(0, 0, frame.len()), frame)
        }
        Ok(frame) => (Class::WrittenWithRoom, taken(0, 0, frame.len()), frame),
        Err(refusal) => {
            let report = archive::refused(refusal.number(), 0);
            (Class::WriteRefused(*refusal), report, &[])
        }
    };
    let mut lent = Lent::new(input.room);
    let wanted = lent.with(frame);
    let got = archive::frame_write(kind, sequence, &input.payload, lent.output());
    compare(got, report, &lent.bytes, &wanted).map_err(|fault| {
        let parts = format!("type {kind:02x}, sequence {sequence:02x}");
        let payload = hex(&input.payload);
        format!(
            "output of {}, {parts}, payload {payload}: {fault}",
            input.room
        )
    })?;
    Ok(class)
}

fn alike(start: u16, bytes: &[u8], got: u16, wanted: u16) -> Result<u16, String> {
    if got != wanted {
        let bytes = hex(bytes);
        return Err(format!(
            "start {start:04x}, bytes {bytes}: {got:04x}, wanted {wanted:04x}"
        ));
    }
    Ok(got)
}

/// The library's check, which is to be the reference's.
fn checked(start: u16, bytes: &[u8]) -> Result<u16, String> {
    alike(
        start,
        bytes,
        archive::crc(start, bytes),
        check(start, bytes),
    )
}

/// The same, and it is to be that of the division too.
fn checked_twice(input: &CrcInput) -> Result<u16, String> {
    let (start, bytes) = (input.start, &input.bytes);
    let got = checked(start, bytes)?;
    alike(start, bytes, got, division::check(start, bytes))
}

pub fn crc(class: Class, input: &CrcInput) -> Result<Class, String> {
    checked_twice(input)?;
    Ok(class)
}

/// A string that differs in two bits from one with check 0.
pub fn two_bits(input: &CrcInput) -> Result<Class, String> {
    match checked_twice(input)? {
        0 => Err(format!("bytes {}: two bits unseen", hex(&input.bytes))),
        _ => Ok(Class::TwoBits),
    }
}

/// Places of a string in memory: one for each remainder of its address by eight.
const PLACES: usize = 8;

/// Bytes that stand around a string.
const AROUND: [u8; 3] = [0x00, 0x5a, 0xff];

/// Room for the longest string at the last place, and for bytes on both sides.
const MEMORY: usize = GUARD + PLACES + PLACED_MAX + GUARD;

#[repr(align(8))]
struct Memory([u8; MEMORY]);

/// The check asks neither where its string stands nor what stands around it.
pub fn placed(input: &CrcInput) -> Result<Class, String> {
    let (start, bytes) = (input.start, &input.bytes);
    let wanted = checked_twice(input)?;
    for around in AROUND {
        for place in 0..PLACES {
            let mut memory = Memory([around; MEMORY]);
            let string = &mut memory.0[GUARD + place..][..bytes.len()];
            string.copy_from_slice(bytes);
            alike(start, bytes, archive::crc(start, string), wanted)
                .map_err(|fault| format!("at place {place} among {around:02x}, {fault}"))?;
        }
    }
    Ok(Class::Placed)
}

/// The check of two strings joined is the second's, started from the first's check.
pub fn joined(input: &JoinedInput) -> Result<Class, String> {
    let (first, second) = (&input.first, &input.second);
    let both = checked(input.start, &[first.as_slice(), second].concat())?;
    let in_parts = checked(checked(input.start, first)?, second)?;
    if both != in_parts {
        let (start, first, second) = (input.start, hex(first), hex(second));
        return Err(format!(
            "start {start:04x}, {first} and {second}: {both:04x} joined, {in_parts:04x} in parts"
        ));
    }
    if first.is_empty() || second.is_empty() {
        return Ok(Class::JoinedWithEmpty);
    }
    Ok(Class::Joined)
}

/// The check of the exclusive-or of three strings of equal length is that of their checks.
pub fn three_strings(input: &ThreeInput) -> Result<Class, String> {
    let [x, y, z] = &input.strings;
    let bytes: Vec<u8> = (0..x.len()).map(|i| x[i] ^ y[i] ^ z[i]).collect();
    let all = checked(input.start, &bytes)?;
    let mut of_each = 0;
    for string in &input.strings {
        of_each ^= checked(input.start, string)?;
    }
    if all != of_each {
        let (start, strings) = (input.start, input.strings.each_ref().map(|s| hex(s)));
        return Err(format!(
            "start {start:04x}, {strings:?}: {all:04x} of the whole, {of_each:04x} of each"
        ));
    }
    if bytes.is_empty() {
        return Ok(Class::ThreeEmptyStrings);
    }
    Ok(Class::ThreeStrings)
}
