//! A call of the writer or the reader: the line that `run_cases` is given for it, and the line that
//! it has to print.

use crate::ash::{read_frame, write_frame, Refusal};
use crate::batches::{self, Step};
use crate::classes::{Class, Form};
use crate::tally::Tally;

/// The line before the cases, which is printed too.
pub const SUBJECT: &str = "= ash";

/// The longest output that the program lends.
pub const OUTPUT_MAX: usize = 80;

/// The most bytes of a line. The program reads more.
pub const LINE_BYTES_MAX: usize = 400;

/// What the output holds before the call.
const UNTOUCHED: u8 = 0xee;

/// `room` is the length of the lent output.
#[derive(Clone, Debug)]
pub enum Case {
    Write {
        room: usize,
        control: u8,
        payload: Vec<u8>,
    },
    Read {
        room: usize,
        frame: Vec<u8>,
    },
}

/// What the reference says of a case: the answer as text, and what it puts at the start of the
/// output.
struct Answer {
    text: String,
    put: Vec<u8>,
    class: Class,
}

impl batches::Case for Case {
    type Class = Class;

    fn tally() -> Tally<Class> {
        Tally::new(Class::all())
    }

    fn steps(&self, label: &str) -> Vec<Step<Class>> {
        let (wanted, class) = self.printed(label);
        vec![Step {
            line: self.line(label),
            wanted,
            classes: vec![class],
        }]
    }
}

impl Case {
    fn line(&self, label: &str) -> String {
        let (key, head, bytes) = match self {
            Case::Write {
                room,
                control,
                payload,
            } => ('w', vec![*room as u8, *control], payload),
            Case::Read { room, frame } => ('r', vec![*room as u8], frame),
        };
        batches::line(key, label, &[&head, bytes.as_slice()].concat())
    }

    fn printed(&self, label: &str) -> (String, Class) {
        let (room, answer) = match self {
            Case::Write {
                room,
                control,
                payload,
            } => (*room, written(*control, payload, *room)),
            Case::Read { room, frame } => (*room, read(frame, *room)),
        };
        let mut output = vec![UNTOUCHED; room];
        output[..answer.put.len()].copy_from_slice(&answer.put);
        let output: String = output.iter().map(|byte| format!("{byte:02x}")).collect();
        (format!("{label}: {} {output}\n", answer.text), answer.class)
    }
}

fn written(control: u8, payload: &[u8], room: usize) -> Answer {
    match write_frame(control, payload, room) {
        Ok(frame) => Answer {
            text: format!("length {}", frame.len()),
            class: Class::Written(Form::of(&frame)),
            put: frame,
        },
        Err(refusal) => refused(refusal, Class::WriteRefused(refusal)),
    }
}

fn read(bytes: &[u8], room: usize) -> Answer {
    match read_frame(bytes, room) {
        Ok(frame) => Answer {
            text: format!("control {} length {}", frame.control, frame.payload.len()),
            class: Class::Read(Form::of(bytes)),
            put: frame.payload,
        },
        Err(refusal) => refused(refusal, Class::ReadRefused(refusal)),
    }
}

fn refused(refusal: Refusal, class: Class) -> Answer {
    Answer {
        text: format!("refused {}", refusal.number()),
        class,
        put: Vec::new(),
    }
}

/// The stored cases, held to the reference.
#[cfg(test)]
mod stored_cases {
    use super::*;
    use crate::stored::{self, Line};

    /// The case of a line, unless the program does not run it.
    fn parse(line: &Line) -> Option<Case> {
        let (room, bytes) = line.bytes.split_first()?;
        let room = usize::from(*room);
        let case = match (line.key, bytes) {
            ('w', [control, payload @ ..]) => Case::Write {
                room,
                control: *control,
                payload: payload.to_vec(),
            },
            ('r', frame) => Case::Read {
                room,
                frame: frame.to_vec(),
            },
            _ => return None,
        };
        (room <= OUTPUT_MAX).then_some(case)
    }

    /// What the reference says of each line.
    fn answers() -> Vec<(String, Class)> {
        let lines = stored::lines(SUBJECT);
        let answers = lines.filter_map(|line| Some(parse(&line)?.printed(line.label)));
        answers.collect()
    }

    #[test]
    fn have_the_answers_of_the_reference() {
        let answers = answers();
        let printed: Vec<&str> = stored::printed(SUBJECT).collect();
        for ((answer, _), printed) in answers.iter().zip(&printed) {
            assert_eq!(answer.trim_end_matches('\n'), *printed);
        }
        assert_eq!(answers.len(), printed.len());
    }

    #[test]
    fn meet_every_kind_of_answer() {
        let met: Vec<Class> = answers().into_iter().map(|(_, class)| class).collect();
        let missing: Vec<Class> = Class::all().filter(|class| !met.contains(class)).collect();
        assert_eq!(missing, []);
    }
}
