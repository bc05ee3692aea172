//! A call of the packet reader, the board or the file receiver: the line that `run_cases` is given
//! for it, and what it has to print.

use crate::batches::{self, Step};
use crate::board::{read_value, Board, Reading, Refusal};
use crate::classes::{self, Class};
use crate::list_classes;
use crate::packet::{read_packet, Item, Look, Packet, CASE_6, EOF, NAME};
use crate::receiver::{self, Event};
use crate::tally::Tally;
use crate::watch_list::read_list;

/// The lines before the cases, which are printed too.
pub const PACKET_SUBJECT: &str = "= packet";
pub const BOARD_SUBJECT: &str = "= board";
pub const TRANSFER_SUBJECT: &str = "= transfer";

/// The most bytes of a line, watch lists apart.
pub const LINE_BYTES_MAX: usize = 400;

/// Of a line the program reads so many bytes: a list of 41 names of 27 bytes.
pub const LIST_BYTES_MAX: usize = 1230;

#[derive(Clone, Debug)]
pub enum Case {
    /// A packet with its items, its Names and its EOF items.
    Parts(Vec<u8>),
    /// One look at a packet for the items of one type.
    Look { kind: u8, packet: Vec<u8> },
    /// The type and the bytes of a value item.
    Value { kind: u8, bytes: Vec<u8> },
    /// A packet read by a board of h1 and h2.
    Reading(Vec<u8>),
    /// The bytes of a watch list.
    List(Vec<u8>),
    /// A line of this key with no bytes, of which the first would be a type.
    NoBytes(char),
    /// All that one transfer meets.
    Transfer(Vec<Event>),
}

impl batches::Case for Case {
    type Class = Class;

    fn tally() -> Tally<Class> {
        Tally::new(Class::all())
    }

    fn steps(&self, label: &str) -> Vec<Step<Class>> {
        let step = match self {
            Case::Parts(packet) => Step {
                line: batches::line('p', label, packet),
                wanted: format!("{label}: {}\n", parts(packet)),
                classes: classes::of_parts(packet),
            },
            Case::Look { kind, packet } => Step {
                line: batches::line('k', label, &[&[*kind], packet.as_slice()].concat()),
                wanted: format!("{label}: {}\n", look(*kind, packet)),
                classes: classes::of_look(*kind, packet),
            },
            Case::Value { kind, bytes } => Step {
                line: batches::line('v', label, &[&[*kind], bytes.as_slice()].concat()),
                wanted: format!("{label} {}\n", value(*kind, bytes)),
                classes: classes::of_value(*kind, bytes),
            },
            Case::Reading(packet) => Step {
                line: batches::line('r', label, packet),
                wanted: format!("{label}: {}", reading(packet)),
                classes: classes::of_reading(packet),
            },
            Case::List(fields) => Step {
                line: batches::line('w', label, fields),
                wanted: format!("{label}: {}", list(fields)),
                classes: list_classes::of_list(fields),
            },
            Case::NoBytes(key) => Step {
                line: batches::line(*key, label, &[]),
                wanted: format!("not run, too few bytes: {label}\n"),
                classes: Vec::new(),
            },
            Case::Transfer(events) => return receiver::steps(events, label),
        };
        vec![step]
    }
}

fn parts(bytes: &[u8]) -> String {
    let packet = read_packet(bytes).ok();
    let look = |kind| looked(&packet, kind);
    let (names, ends) = (look(NAME), look(EOF));
    format!(
        "{}, names {}, name {}, behind {}, end {}",
        head(bytes),
        names.count,
        place(names.first),
        place(names.behind),
        place(ends.first)
    )
}

fn look(kind: u8, bytes: &[u8]) -> String {
    let packet = read_packet(bytes).ok();
    let look = looked(&packet, kind);
    format!(
        "{}, of the kind {}, first {}, behind {}",
        head(bytes),
        look.count,
        place(look.first),
        place(look.behind)
    )
}

/// A refused packet has no items.
fn looked<'a>(packet: &Option<Packet<'a>>, kind: u8) -> Look<'a> {
    let look = packet.as_ref().map(|packet| packet.look(kind));
    look.unwrap_or_default()
}

fn head(bytes: &[u8]) -> String {
    match read_packet(bytes) {
        Ok(packet) => {
            let count = packet.items.len();
            format!("opcode {} id {}, items {count}", packet.opcode, packet.id)
        }
        Err(refusal) => format!("refused {}, items 0", refusal.number()),
    }
}

fn place(item: Option<Item>) -> String {
    match item {
        Some(Item { kind, start, value }) => {
            format!("kind {kind} at {start} length {}", value.len())
        }
        None => "nothing".to_string(),
    }
}

fn value(kind: u8, value: &[u8]) -> String {
    let start = 0;
    match read_value(&Item { kind, start, value }) {
        Ok(number) => number.to_string(),
        Err(_) => "bad".to_string(),
    }
}

/// The board that the program lends: it watches h1 and h2, of which h1 was updated by case 6, one
/// tick ago.
pub fn lent_board() -> Board {
    let mut board = Board::default();
    board.watch(b"h1");
    board.watch(b"h2");
    let case_6 = board.take(CASE_6);
    case_6.expect("case 6 is an update");
    board.tick();
    board
}

/// The answer and the rows after it.
fn reading(packet: &[u8]) -> String {
    let mut board = lent_board();
    let answer = match board.take(packet).map_err(Refusal::number) {
        Ok(Reading::Update { row, id, .. }) => format!("row {row} id {id}"),
        Ok(Reading::EndMark { id }) => format!("end mark, id {id}"),
        Err(number) => format!("refused {number}"),
    };
    format!("{answer}\n{}", board.shown())
}

/// The answer to a watch list, and the rows of one that is accepted.
fn list(fields: &[u8]) -> String {
    match read_list(fields) {
        Ok(board) => format!("accepted\n{}", board.shown()),
        Err(refusal) => format!("refused {}\n", refusal.number()),
    }
}

/// The stored cases, held to the reference.
#[cfg(test)]
mod stored_cases {
    use super::*;
    use crate::batches::Case as _;
    use crate::board::UPDATE;
    use crate::packet::{DATA, HEAD};
    use crate::stored::{self, Line};

    /// The cases of a line; none of one of a transfer, or of a function that is not compared.
    fn parse(line: &Line) -> Vec<Case> {
        let Some((&kind, rest)) = line.bytes.split_first() else {
            return match line.key {
                'p' => vec![Case::Parts(Vec::new())],
                'r' => vec![Case::Reading(Vec::new())],
                'w' => vec![Case::List(Vec::new())],
                _ => Vec::new(),
            };
        };
        let (bytes, rest) = (line.bytes.clone(), rest.to_vec());
        match line.key {
            'p' => vec![Case::Parts(bytes)],
            'r' => vec![Case::Reading(bytes)],
            'w' => vec![Case::List(bytes)],
            'k' => vec![Case::Look { kind, packet: rest }],
            'v' => vec![Case::Value { kind, bytes: rest }],
            'e' => long_packet(&rest).map_or(Vec::new(), |packet| {
                let looked_at = packet.clone();
                let look = Case::Look {
                    kind,
                    packet: looked_at,
                };
                vec![look, Case::Parts(packet)]
            }),
            _ => Vec::new(),
        }
    }

    /// Empty items of type 00 up to the length in the first four bytes, and the others behind them.
    /// Shorter than a packet's first four bytes or longer than a mebibyte it is not run.
    fn long_packet(bytes: &[u8]) -> Option<Vec<u8>> {
        let (size, tail) = bytes.split_first_chunk::<4>()?;
        let empty_items = (u32::from_be_bytes(*size) as usize).checked_sub(HEAD)?;
        let packet = [&[DATA, UPDATE, 0, 0], vec![0; empty_items].as_slice(), tail].concat();
        (packet.len() <= 1 << 20).then_some(packet)
    }

    /// The lines of a transfer as one case, and their labels.
    fn transfer() -> (Case, Vec<&'static str>) {
        let lines = stored::lines(TRANSFER_SUBJECT);
        let events = lines.filter_map(|line| {
            let number = line
                .bytes
                .iter()
                .fold(0, |n, byte| n << 8 | u64::from(*byte));
            let event = match line.key {
                'b' => Event::Room(number as usize),
                'n' => Event::Next(number),
                's' => Event::Start(line.bytes),
                'g' => Event::Give(line.bytes),
                'a' => Event::Alone(line.bytes),
                _ => return None,
            };
            Some((event, line.label))
        });
        let (events, labels) = events.unzip();
        (Case::Transfer(events), labels)
    }

    /// The answers stand among the stored ones, in this order; those of other keys stand between.
    fn stand_in(subject: &str, answers: impl Iterator<Item = String>) -> usize {
        let printed: Vec<String> = stored::printed(subject)
            .map(|line| format!("{line}\n"))
            .collect();
        let printed = printed.concat();
        let mut rest = printed.as_str();
        let mut count = 0;
        for answer in answers {
            let (_, behind) = rest.split_once(&answer).expect(&answer);
            rest = behind;
            count += 1;
        }
        count
    }

    fn have_the_answers_of_the_reference(subject: &str) -> usize {
        let answers = stored::lines(subject).flat_map(|line| {
            let cases = parse(&line).into_iter();
            let steps = cases.flat_map(move |case| case.steps(line.label));
            steps.map(|step| step.wanted)
        });
        stand_in(subject, answers)
    }

    #[test]
    fn of_packets() {
        assert!(have_the_answers_of_the_reference(PACKET_SUBJECT) > 70);
    }

    #[test]
    fn of_boards() {
        assert!(have_the_answers_of_the_reference(BOARD_SUBJECT) > 100);
    }

    #[test]
    fn of_transfers() {
        let (case, labels) = transfer();
        let steps = case.steps("");
        assert_eq!(steps.len(), labels.len());
        let answers = steps.into_iter().zip(labels).filter_map(|(step, label)| {
            let (_, answer) = step.wanted.split_once(':')?;
            Some(format!("{label}:{answer}"))
        });
        assert!(stand_in(TRANSFER_SUBJECT, answers) > 200);
    }
}
