//! The frame rules of ASHv3, from request C-11 and source document 002 (3.3, 3.8, 3.10 and 3.11),
//! written for reading and not for speed. The comparison of tests/ash/ holds `run_cases` to this.

use crate::frame::check;

pub const FLAG: u8 = 0x7e;
pub const ESCAPE: u8 = 0x7d;
pub const RESERVED: [u8; 5] = [FLAG, ESCAPE, 0x11, 0x13, 0xf8];

/// The bit that escaping flips.
pub const FLIP: u8 = 0x20;

// The bits of the header escape; the others are reserved.
pub const CONTROL_ESCAPED: u8 = 0x80;
pub const LENGTH_ESCAPED: u8 = 0x40;

/// The most payload bytes as sent; as many bytes the reader asks of its output.
pub const PAYLOAD_MAX: usize = 57;

/// Why a call was refused. Most numbers have several reasons.
#[derive(Clone, Copy, Debug, PartialEq, Eq)]
pub enum Refusal {
    ShortOutput,
    WrongFlag,
    ReservedBits,
    NeedlessHeaderEscape,
    MissingHeaderEscape,
    ShortFrame,
    LongPayload,
    WrongLength,
    RawReserved,
    LastEscape,
    NeedlessEscape,
    WrongCheck,
}

impl Refusal {
    pub fn number(self) -> u8 {
        match self {
            Refusal::ShortOutput => 7,
            Refusal::WrongFlag
            | Refusal::ReservedBits
            | Refusal::NeedlessHeaderEscape
            | Refusal::MissingHeaderEscape => 21,
            Refusal::ShortFrame | Refusal::LongPayload | Refusal::WrongLength => 22,
            Refusal::RawReserved | Refusal::LastEscape | Refusal::NeedlessEscape => 23,
            Refusal::WrongCheck => 24,
        }
    }
}

#[derive(Clone, Debug, PartialEq, Eq)]
pub struct Frame {
    pub control: u8,
    pub payload: Vec<u8>,
}

pub fn is_reserved(byte: u8) -> bool {
    RESERVED.contains(&byte)
}

/// Each reserved byte becomes an escape and the byte with bit 5 flipped, no other is escaped.
pub fn stuff(payload: &[u8]) -> Vec<u8> {
    let mut sent = Vec::new();
    for &byte in payload {
        if is_reserved(byte) {
            sent.extend([ESCAPE, byte ^ FLIP]);
        } else {
            sent.push(byte);
        }
    }
    sent
}

/// The payload of its sent bytes, or the fault that comes first.
fn unstuff(sent: &[u8]) -> Result<Vec<u8>, Refusal> {
    let mut payload = Vec::new();
    let mut bytes = sent.iter();
    while let Some(&byte) = bytes.next() {
        if byte == ESCAPE {
            let escaped = bytes.next().ok_or(Refusal::LastEscape)? ^ FLIP;
            if !is_reserved(escaped) {
                return Err(Refusal::NeedlessEscape);
            }
            payload.push(escaped);
        } else if is_reserved(byte) {
            return Err(Refusal::RawReserved);
        } else {
            payload.push(byte);
        }
    }
    Ok(payload)
}

/// A control or length byte of its sent byte, which is escaped exactly if it has to be.
fn read_in_header(sent: u8, escaped: bool) -> Result<u8, Refusal> {
    let byte = flipped_if(escaped, sent);
    match (is_reserved(byte), escaped) {
        (true, false) => Err(Refusal::MissingHeaderEscape),
        (false, true) => Err(Refusal::NeedlessHeaderEscape),
        _ => Ok(byte),
    }
}

/// The control and length bytes that a header has, escapes undone.
pub fn read_header(escape: u8, sent_control: u8, sent_length: u8) -> Result<(u8, u8), Refusal> {
    if escape & !(CONTROL_ESCAPED | LENGTH_ESCAPED) != 0 {
        return Err(Refusal::ReservedBits);
    }
    let control = read_in_header(sent_control, escape & CONTROL_ESCAPED != 0)?;
    let length = read_in_header(sent_length, escape & LENGTH_ESCAPED != 0)?;
    if usize::from(length) > PAYLOAD_MAX {
        return Err(Refusal::LongPayload);
    }
    Ok((control, length))
}

fn flipped_if(escaped: bool, byte: u8) -> u8 {
    if escaped {
        byte ^ FLIP
    } else {
        byte
    }
}

/// The check over the header and the payload before escaping, as three bytes: bit 4 of the first
/// goes to bit 7 of the third, bit 4 of the second to its bit 6.
fn check_bytes(escape: u8, control: u8, length: u8, payload: &[u8]) -> [u8; 3] {
    let header = [FLAG, escape, control, length];
    let [first, second] = check(0, &[&header, payload].concat()).to_be_bytes();
    let third = (first >> 4 & 1) << 7 | (second >> 4 & 1) << 6;
    [first & !0x10, second & !0x10, third]
}

/// What a frame is made of. The control and length bytes stand here before escaping, the payload
/// both before stuffing and as it is sent.
#[derive(Clone, Debug)]
pub struct Parts {
    pub escape: u8,
    pub control: u8,
    pub length: u8,
    pub payload: Vec<u8>,
    pub sent: Vec<u8>,
}

impl Parts {
    /// The parts as the writer makes them of a payload that is not too long.
    pub fn new(control: u8, payload: &[u8]) -> Parts {
        let mut parts = Parts {
            escape: 0,
            control,
            length: 0,
            payload: payload.to_vec(),
            sent: stuff(payload),
        };
        parts.set_length(parts.sent.len() as u8);
        parts
    }

    /// Sets the length, and the header escape that goes with it.
    pub fn set_length(&mut self, length: u8) {
        self.length = length;
        self.escape = 0;
        if is_reserved(self.control) {
            self.escape |= CONTROL_ESCAPED;
        }
        if is_reserved(self.length) {
            self.escape |= LENGTH_ESCAPED;
        }
    }

    /// The frame of these parts, with the check that goes with them even if they are wrong.
    pub fn frame(&self) -> Vec<u8> {
        let header = [
            FLAG,
            self.escape,
            flipped_if(self.escape & CONTROL_ESCAPED != 0, self.control),
            flipped_if(self.escape & LENGTH_ESCAPED != 0, self.length),
        ];
        let check = check_bytes(self.escape, self.control, self.length, &self.payload);
        [&header, self.sent.as_slice(), &check].concat()
    }
}

/// The frame writer: the bytes of the frame, or 22, then 7.
pub fn write_frame(control: u8, payload: &[u8], room: usize) -> Result<Vec<u8>, Refusal> {
    let parts = Parts::new(control, payload);
    if parts.sent.len() > PAYLOAD_MAX {
        return Err(Refusal::LongPayload);
    }
    let frame = parts.frame();
    if room < frame.len() {
        return Err(Refusal::ShortOutput);
    }
    Ok(frame)
}

/// The reader of one frame: 7, the flag, under 7 bytes, the rest of the header, the length, the
/// payload, the check.
pub fn read_frame(bytes: &[u8], room: usize) -> Result<Frame, Refusal> {
    if room < PAYLOAD_MAX {
        return Err(Refusal::ShortOutput);
    }
    if bytes.first() != Some(&FLAG) {
        return Err(Refusal::WrongFlag);
    }
    let [_, escape, sent_control, sent_length, sent @ .., first, second, third] = bytes else {
        return Err(Refusal::ShortFrame);
    };
    let (control, length) = read_header(*escape, *sent_control, *sent_length)?;
    if usize::from(length) != sent.len() {
        return Err(Refusal::WrongLength);
    }
    let payload = unstuff(sent)?;
    if [*first, *second, *third] != check_bytes(*escape, control, length, &payload) {
        return Err(Refusal::WrongCheck);
    }
    Ok(Frame { control, payload })
}

#[cfg(test)]
mod known_answers {
    use super::*;

    const RESET: [u8; 7] = [0x7e, 0x00, 0x08, 0x00, 0x69, 0x86, 0x00];
    const RESET_ACK: [u8; 7] = [0x7e, 0x00, 0x49, 0x00, 0x47, 0x6b, 0xc0];

    fn refused(bytes: &[u8], room: usize) -> u8 {
        read_frame(bytes, room).expect_err("a refusal").number()
    }

    #[test]
    fn resets_are_written_and_read() {
        for (control, sent) in [(0x08, RESET), (0x49, RESET_ACK)] {
            let payload = Vec::new();
            assert_eq!(write_frame(control, &payload, 7), Ok(sent.to_vec()));
            assert_eq!(read_frame(&sent, 57), Ok(Frame { control, payload }));
        }
    }

    #[test]
    fn examples_of_byte_stuffing() {
        assert_eq!(stuff(&[0x7e]), [0x7d, 0x5e]);
        assert_eq!(stuff(&[0x11]), [0x7d, 0x31]);
        assert_eq!(stuff(&[0x13]), [0x7d, 0x33]);
        assert_eq!(stuff(&[0x7d]), [0x7d, 0x5d]);
        assert_eq!(stuff(&[0xf8]), [0x7d, 0xd8]);
        assert_eq!(stuff(&[0xff, 0x5e, 0x31]), [0xff, 0x5e, 0x31]);
    }

    #[test]
    fn header_escapes() {
        let frame = write_frame(0x11, &[b'a'; 19], 80).expect("a frame");
        assert_eq!(frame[..4], [0x7e, 0xc0, 0x31, 0x33]);
        let frame = write_frame(0x12, &[0x7e; 9], 80).expect("a frame");
        assert_eq!(frame[..4], [0x7e, 0x00, 0x12, 0x12]);
    }

    #[test]
    fn the_longest_payload_as_sent() {
        assert_eq!(
            write_frame(0x89, &[b'a'; 57], 64).map(|frame| frame.len()),
            Ok(64)
        );
        assert_eq!(
            write_frame(0x89, &[b'a'; 57], 63),
            Err(Refusal::ShortOutput)
        );
        assert_eq!(write_frame(0x89, &[b'a'; 58], 0), Err(Refusal::LongPayload));
        assert_eq!(
            write_frame(0x89, &[0xf8; 28], 63).map(|frame| frame.len()),
            Ok(63)
        );
        assert_eq!(write_frame(0x89, &[0xf8; 29], 0), Err(Refusal::LongPayload));
    }

    #[test]
    fn refusals_in_their_order() {
        assert_eq!(refused(&[], 56), 7);
        assert_eq!(refused(&[], 57), 21);
        assert_eq!(refused(&[0x7f], 57), 21);
        assert_eq!(refused(&[0x7e, 0x01], 57), 22);
        assert_eq!(refused(&[0x7e, 0x01, 0x08, 0x01, 0, 0, 0], 57), 21);
        assert_eq!(refused(&[0x7e, 0x00, 0x11, 0x01, 0, 0, 0], 57), 21);
        assert_eq!(refused(&[0x7e, 0x80, 0x11, 0x01, 0, 0, 0], 57), 21);
        assert_eq!(refused(&[0x7e, 0x00, 0x08, 0x01, 0, 0, 0], 57), 22);
        assert_eq!(refused(&[0x7e, 0x00, 0x08, 0x00, 0x7e, 0, 0, 0], 57), 22);
        assert_eq!(refused(&[0x7e, 0x00, 0x08, 0x01, 0x7e, 0, 0, 0], 57), 23);
        assert_eq!(refused(&[0x7e, 0x00, 0x08, 0x01, 0x7d, 0, 0, 0], 57), 23);
        assert_eq!(
            refused(&[0x7e, 0x00, 0x08, 0x02, 0x7d, 0x7e, 0, 0, 0], 57),
            23
        );
        assert_eq!(
            refused(&[0x7e, 0x00, 0x08, 0x02, 0x7d, 0x5e, 0, 0, 0], 57),
            24
        );
        assert_eq!(refused(&[0x7e, 0x00, 0x08, 0x00, 0x69, 0x86, 0x01], 57), 24);
    }
}
