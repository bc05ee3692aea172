//! The frame rules of document 01, sections "Refusal numbers" and "Frames", with the places of
//! request C-16, written for reading and not for speed. The differential test holds the library to
//! this.

pub const FLAG: u8 = 0x7e;
pub const ESCAPE: u8 = 0x7d;
pub const PAYLOAD_MAX: usize = 383;
pub const CONTENT_MAX: usize = 387;

/// Why a call was refused. Two reasons share number 1.
#[derive(Clone, Copy, Debug, PartialEq, Eq)]
pub enum Refusal {
    WrongFlags,
    WrongEscape,
    LongContent,
    ShortContent,
    WrongCheck,
    ShortOutput,
    LongPayload,
}

impl Refusal {
    pub fn number(self) -> u8 {
        match self {
            Refusal::WrongFlags | Refusal::WrongEscape => 1,
            Refusal::LongContent => 2,
            Refusal::ShortContent => 3,
            Refusal::WrongCheck => 4,
            Refusal::ShortOutput => 7,
            Refusal::LongPayload => 8,
        }
    }

    fn at(self, place: usize) -> Refused {
        Refused {
            reason: self,
            place,
        }
    }

    /// "Other refusals give place 0", and so do wrong flags.
    fn without_place(self) -> Refused {
        self.at(0)
    }
}

/// Why a frame was refused, and the place that goes with the reason: the offset of the byte after
/// the escape, or of the byte that passes the limit, counted in sent bytes from the opening flag as
/// 0; for a wrong check the length of the content; else 0.
#[derive(Clone, Copy, Debug, PartialEq, Eq)]
pub struct Refused {
    pub reason: Refusal,
    pub place: usize,
}

#[derive(Clone, Debug, PartialEq, Eq)]
pub struct Frame {
    pub kind: u8,
    pub sequence: u8,
    pub payload: Vec<u8>,
}

/// Polynomial 0x1021, one bit of the message after the other, high bit of each byte first.
pub fn check(start: u16, bytes: &[u8]) -> u16 {
    let bits = bytes
        .iter()
        .flat_map(|byte| (0..8).rev().map(move |bit| byte >> bit & 1 == 1));
    bits.fold(start, |register, bit| {
        let falls_out = register & 0x8000 != 0;
        let shifted = register << 1;
        if falls_out != bit {
            shifted ^ 0x1021
        } else {
            shifted
        }
    })
}

/// Each 7e becomes 7d 5e, each 7d becomes 7d 5d, no other byte is escaped.
pub fn stuff(content: &[u8]) -> Vec<u8> {
    let mut sent = Vec::new();
    for &byte in content {
        match byte {
            FLAG => sent.extend([ESCAPE, 0x5e]),
            ESCAPE => sent.extend([ESCAPE, 0x5d]),
            plain => sent.push(plain),
        }
    }
    sent
}

/// The content of the bytes between two flags, or the fault that comes first. The first of them has
/// offset 1; behind an escape that is the last of them stands the closing flag.
fn unstuff(sent: &[u8]) -> Result<Vec<u8>, Refused> {
    let mut content = Vec::new();
    let mut bytes = (1..).zip(sent);
    while let Some((offset, &byte)) = bytes.next() {
        let (last, plain) = if byte == ESCAPE {
            match bytes.next() {
                Some((second, 0x5e)) => (second, FLAG),
                Some((second, 0x5d)) => (second, ESCAPE),
                _ => return Err(Refusal::WrongEscape.at(offset + 1)),
            }
        } else {
            (offset, byte)
        };
        content.push(plain);
        if content.len() > CONTENT_MAX {
            return Err(Refusal::LongContent.at(last));
        }
    }
    Ok(content)
}

pub fn between_flags(sent: &[u8]) -> Vec<u8> {
    [&[FLAG], sent, &[FLAG]].concat()
}

/// Type, sequence, payload and check of any length, between flags.
pub fn enclose(kind: u8, sequence: u8, payload: &[u8]) -> Vec<u8> {
    let mut content = vec![kind, sequence];
    content.extend(payload);
    content.extend(check(0xffff, &content).to_be_bytes());
    between_flags(&stuff(&content))
}

/// The frame writer: the bytes of the frame, or 8, then 7.
pub fn write_frame(
    kind: u8,
    sequence: u8,
    payload: &[u8],
    room: usize,
) -> Result<Vec<u8>, Refusal> {
    if payload.len() > PAYLOAD_MAX {
        return Err(Refusal::LongPayload);
    }
    let frame = enclose(kind, sequence, payload);
    if room < frame.len() {
        return Err(Refusal::ShortOutput);
    }
    Ok(frame)
}

/// The reader of one whole frame: 7, then the flags, then 1 and 2 by whichever comes first, 3, 4.
pub fn read_frame(bytes: &[u8], room: usize) -> Result<Frame, Refused> {
    if room < PAYLOAD_MAX {
        return Err(Refusal::ShortOutput.without_place());
    }
    let [FLAG, between @ .., FLAG] = bytes else {
        return Err(Refusal::WrongFlags.without_place());
    };
    if between.contains(&FLAG) {
        return Err(Refusal::WrongFlags.without_place());
    }
    let content = unstuff(between)?;
    let [kind, sequence, payload @ .., _, _] = content.as_slice() else {
        return Err(Refusal::ShortContent.without_place());
    };
    if check(0xffff, &content) != 0 {
        return Err(Refusal::WrongCheck.at(content.len()));
    }
    Ok(Frame {
        kind: *kind,
        sequence: *sequence,
        payload: payload.to_vec(),
    })
}

#[cfg(test)]
mod known_answers {
    use super::*;

    /// Known answers 1 to 4: the parts and the frame they are sent as.
    fn frames() -> [(Frame, Vec<u8>); 4] {
        let part = |sequence, payload: &[u8]| Frame {
            kind: 2,
            sequence,
            payload: payload.to_vec(),
        };
        [
            (
                part(1, &[0x7a, 0x7b, 0x7c, 0x7d, 0x7e]),
                vec![
                    0x7e, 2, 1, 0x7a, 0x7b, 0x7c, 0x7d, 0x5d, 0x7d, 0x5e, 0x9f, 0xfa, 0x7e,
                ],
            ),
            (part(1, &[]), vec![0x7e, 2, 1, 0x6b, 0x4c, 0x7e]),
            (part(0, &[]), vec![0x7e, 2, 0, 0x7b, 0x6d, 0x7e]),
            (part(0x7d, &[]), vec![0x7e, 2, 0x7d, 0x5d, 0xd4, 0x57, 0x7e]),
        ]
    }

    #[test]
    fn written() {
        for (parts, sent) in frames() {
            let frame = write_frame(parts.kind, parts.sequence, &parts.payload, sent.len());
            assert_eq!(frame, Ok(sent));
        }
    }

    #[test]
    fn read() {
        for (parts, sent) in frames() {
            assert_eq!(read_frame(&sent, PAYLOAD_MAX), Ok(parts));
        }
    }

    #[test]
    fn checks() {
        assert_eq!(check(0xffff, b""), 0xffff);
        assert_eq!(check(0xffff, b"123456789"), 0x29b1);
        assert_eq!(check(0, b"123456789"), 0x31c3);
    }
}

/// Request C-16. Each frame's faults and their places were counted by hand.
#[cfg(test)]
mod known_places {
    use super::*;

    const PAIR: [u8; 2] = [ESCAPE, 0x5e];

    /// The number and the place by which a frame is refused.
    fn refused(bytes: &[u8]) -> (u8, usize) {
        let refused = read_frame(bytes, PAYLOAD_MAX).expect_err("a refusal");
        (refused.reason.number(), refused.place)
    }

    /// So many plain bytes, so many pairs, and a tail between flags.
    fn long(plain: usize, pairs: usize, tail: &[u8]) -> (u8, usize) {
        let sent = [&vec![0x41; plain][..], &PAIR.repeat(pairs), tail].concat();
        refused(&between_flags(&sent))
    }

    #[test]
    fn of_the_byte_after_the_escape() {
        assert_eq!(refused(&[0x7e, 0x7d, 0x7e]), (1, 2));
        assert_eq!(refused(&[0x7e, 0x7d, 0x41, 0x7e]), (1, 2));
        assert_eq!(refused(&[0x7e, 0x7d, 0x7d, 0x5e, 0x7e]), (1, 2));
        assert_eq!(refused(&[0x7e, 2, 0x7d, 0x5d, 0x7d, 0, 0x7e]), (1, 5));
        assert_eq!(refused(&[0x7e, 2, 1, 0x6b, 0x4c, 0x7d, 0x7e]), (1, 6));
    }

    #[test]
    fn of_the_byte_that_passes_the_limit() {
        assert_eq!(long(388, 0, &[]), (2, 388));
        assert_eq!(long(1_000, 0, &[]), (2, 388));
        assert_eq!(long(387, 0, &PAIR), (2, 389));
        assert_eq!(long(0, 388, &[]), (2, 776));
        assert_eq!(long(0, 387, &[0x41]), (2, 775));
        assert_eq!(long(188, 200, &[]), (2, 588));
    }

    /// The escape does not pass the limit; its pair would.
    #[test]
    fn of_an_escape_that_is_content_byte_388() {
        assert_eq!(long(387, 0, &[ESCAPE, 0x41]), (1, 389));
        assert_eq!(long(387, 0, &[ESCAPE]), (1, 389));
        assert_eq!(long(0, 387, &[ESCAPE, ESCAPE]), (1, 776));
        assert_eq!(long(0, 387, &[ESCAPE]), (1, 776));
        assert_eq!(long(388, 0, &[ESCAPE]), (2, 388));
    }

    /// For refusal 4 the content's length, however many bytes were sent for it.
    #[test]
    fn of_a_wrong_check() {
        assert_eq!(refused(&[0x7e, 2, 1, 0x6b, 0x4d, 0x7e]), (4, 4));
        assert_eq!(long(0, 4, &[]), (4, 4));
        assert_eq!(long(387, 0, &[]), (4, 387));
        assert_eq!(long(0, 387, &[]), (4, 387));
    }

    #[test]
    fn of_wrong_flags() {
        assert_eq!(refused(&[]), (1, 0));
        assert_eq!(refused(&[0x7e]), (1, 0));
        assert_eq!(refused(&[0x7d, 0x41, 0x7e]), (1, 0));
        assert_eq!(refused(&[0x7e, 0x7d, 0x41]), (1, 0));
        assert_eq!(refused(&[0x7e, 0x7d, 0x41, 0x7e, 0x7e]), (1, 0));
        assert_eq!(refused(&[0x7e, 0x7d, 0x7e, 0x7e]), (1, 0));
    }

    #[test]
    fn of_all_other_refusals() {
        assert_eq!(refused(&[0x7e, 0x7e]), (3, 0));
        assert_eq!(refused(&[0x7e, 1, 2, 3, 0x7e]), (3, 0));
        let short = read_frame(&[0x7e, 0x7d, 0x7e], PAYLOAD_MAX - 1);
        assert_eq!(short, Err(Refusal::ShortOutput.at(0)));
    }
}
