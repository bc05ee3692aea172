//! Where the frames of ASHv3 begin and end on the line, from source document 002 (3.1, 3.7 and 3.8)
//! and request C-11: every 7e begins a frame, which ends by its length or just before the next 7e.
//! What is no frame is handed on once, to be refused. The comparison of tests/session/ holds
//! `run_cases` to this.

use crate::ash::{read_header, Refusal, FLAG, PAYLOAD_MAX};

/// The byte that may stand between frames any number of times.
pub const WAKE: u8 = 0xff;

/// Flag, header escape, control and length.
pub const HEADER: usize = 4;

/// The header and the check bytes.
const AROUND_PAYLOAD: usize = HEADER + 3;

/// The longest frame. As many bytes every call asks of its buffer.
pub const FRAME_MAX: usize = AROUND_PAYLOAD + PAYLOAD_MAX;

#[derive(Clone, Debug, PartialEq, Eq)]
pub enum Cutter {
    Between,
    /// In a frame, of which these bytes have come.
    Within(Vec<u8>),
    /// Behind a fault, up to the next flag.
    PassingOver,
}

/// How many bytes of a piece were taken, and the frame that is handed on.
#[derive(Clone, Debug, PartialEq, Eq)]
pub struct Cut {
    pub taken: usize,
    pub frame: Option<Vec<u8>>,
}

impl Cutter {
    pub fn new() -> Cutter {
        Cutter::Between
    }

    /// Takes the piece up to the byte at which a frame is handed on, or all of it.
    pub fn take(&mut self, room: usize, piece: &[u8]) -> Result<Cut, Refusal> {
        if room < FRAME_MAX {
            return Err(Refusal::ShortOutput);
        }
        for (place, byte) in piece.iter().enumerate() {
            if let Some(frame) = self.step(*byte) {
                return Ok(Cut {
                    taken: place + 1,
                    frame: Some(frame),
                });
            }
        }
        Ok(Cut {
            taken: piece.len(),
            frame: None,
        })
    }

    /// Takes a byte, and hands on the frame that ends with it or, if it is a flag, before it.
    pub fn step(&mut self, byte: u8) -> Option<Vec<u8>> {
        if byte == FLAG {
            let before = std::mem::replace(self, Cutter::Within(vec![FLAG]));
            return match before {
                Cutter::Within(frame) => Some(frame),
                Cutter::Between | Cutter::PassingOver => None,
            };
        }
        let (behind, frame) = match self.clone() {
            Cutter::Between if byte == WAKE => (Cutter::Between, None),
            Cutter::Between => (Cutter::PassingOver, Some(vec![byte])),
            Cutter::PassingOver => (Cutter::PassingOver, None),
            Cutter::Within(frame) => joined(frame, byte),
        };
        *self = behind;
        frame
    }
}

/// A frame under way and the byte behind it.
fn joined(mut frame: Vec<u8>, byte: u8) -> (Cutter, Option<Vec<u8>>) {
    frame.push(byte);
    let [_, escape, control, length, ..] = frame[..] else {
        return (Cutter::Within(frame), None);
    };
    match read_header(escape, control, length) {
        Err(_) => (Cutter::PassingOver, Some(frame)),
        Ok((_, length)) if frame.len() == AROUND_PAYLOAD + usize::from(length) => {
            (Cutter::Between, Some(frame))
        }
        Ok(_) => (Cutter::Within(frame), None),
    }
}

#[cfg(test)]
mod readings {
    use super::*;
    use crate::ash::Parts;

    const RESET: [u8; 7] = [0x7e, 0x00, 0x08, 0x00, 0x69, 0x86, 0x00];

    /// The frames of a line, whichever its pieces are.
    fn frames(line: &[u8]) -> Vec<Vec<u8>> {
        let at_once = cut(line, line.len());
        for size in 1..line.len() {
            assert_eq!(cut(line, size), at_once);
        }
        at_once
    }

    fn cut(line: &[u8], size: usize) -> Vec<Vec<u8>> {
        let mut cutter = Cutter::new();
        let mut frames = Vec::new();
        for mut piece in line.chunks(size.max(1)) {
            while !piece.is_empty() {
                let cut = cutter.take(FRAME_MAX, piece).expect("room");
                frames.extend(cut.frame);
                piece = &piece[cut.taken..];
            }
        }
        frames
    }

    #[test]
    fn frames_end_by_their_length() {
        let longest = Parts::new(0x89, &[b'a'; 57]).frame();
        assert_eq!(longest.len(), FRAME_MAX);
        let line = [&RESET[..], &longest, &RESET].concat();
        assert_eq!(frames(&line), [&RESET[..], &longest, &RESET]);
    }

    #[test]
    fn the_lengths_escape_is_undone() {
        let frame = Parts::new(0x11, &[b'a'; 19]).frame();
        assert_eq!(frame[..HEADER], [0x7e, 0xc0, 0x31, 0x33]);
        let line = [&frame[..], &RESET].concat();
        assert_eq!(frames(&line), [&frame[..], &RESET]);
    }

    #[test]
    fn wakes_between_frames_are_passed_over() {
        let line = [&[WAKE, WAKE], &RESET[..], &[WAKE], &RESET].concat();
        assert_eq!(frames(&line), [RESET, RESET]);
        let within = Parts::new(0x89, &[WAKE; 3]).frame();
        assert_eq!(frames(&within), [&within[..]]);
    }

    #[test]
    fn a_flag_ends_the_frame_under_way() {
        assert_eq!(frames(&[FLAG, FLAG]), [[FLAG]]);
        let line = [&RESET[..5], &RESET].concat();
        assert_eq!(frames(&line), [&RESET[..5], &RESET]);
        let line = [&[FLAG, 0x01, 0x08], &RESET[..]].concat();
        assert_eq!(frames(&line), [&[FLAG, 0x01, 0x08], &RESET[..]]);
    }

    #[test]
    fn the_flag_that_ends_a_frame_is_taken() {
        let mut cutter = Cutter::Within(vec![FLAG, 0]);
        let cut = cutter.take(FRAME_MAX, &RESET);
        let frame = Some(vec![FLAG, 0]);
        assert_eq!(cut, Ok(Cut { taken: 1, frame }));
        assert_eq!(cutter, Cutter::Within(vec![FLAG]));
    }

    #[test]
    fn bytes_between_frames_are_refused_once() {
        let line = [b"ab\xffc", &RESET[..], b"\xff\xffd", &RESET].concat();
        assert_eq!(frames(&line), [&b"a"[..], &RESET, b"d", &RESET]);
    }

    #[test]
    fn a_bad_header_is_handed_on_at_once() {
        let bad: [[u8; HEADER]; 7] = [
            [FLAG, 0x01, 0x08, 0x00],
            [FLAG, 0x20, 0x08, 0x00],
            [FLAG, 0x80, 0x08, 0x00],
            [FLAG, 0x40, 0x08, 0x00],
            [FLAG, 0x00, 0x11, 0x00],
            [FLAG, 0x00, 0x08, 0x13],
            [FLAG, 0x00, 0x08, 0x3a],
        ];
        for header in bad {
            let line = [&header[..], b"\xffab", &RESET].concat();
            assert_eq!(frames(&line), [&header[..], &RESET]);
        }
    }

    #[test]
    fn a_length_of_57_is_not_over_57() {
        let mut cutter = Cutter::new();
        let cut = cutter.take(FRAME_MAX, &[FLAG, 0, 0x89, 57, 1, 2]);
        assert_eq!(
            cut,
            Ok(Cut {
                taken: 6,
                frame: None
            })
        );
    }

    #[test]
    fn room_for_the_longest_frame() {
        let mut cutter = Cutter::new();
        assert_eq!(cutter.take(63, &[]), Err(Refusal::ShortOutput));
        assert_eq!(cutter.take(63, &RESET), Err(Refusal::ShortOutput));
        assert_eq!(cutter, Cutter::Between);
        assert_eq!(
            cutter.take(64, &[]),
            Ok(Cut {
                taken: 0,
                frame: None
            })
        );
    }
}
