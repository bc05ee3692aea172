//! The conversations of source document 002, sections 5.1 to 5.6, with `run_cases` as the host: what
//! it sends is set beside the document's tables.

use crate::ash::{read_frame, PAYLOAD_MAX};
use crate::batches;
use crate::cases::SESSION_SUBJECT;
use crate::child;
use crate::cutter::Cutter;
use crate::events::{receive, reset, send, Event};
use crate::session::{Control, Kind};
use crate::states;
use std::fmt;
use Node::{Host, Ncp};

#[derive(Clone, Copy, PartialEq, Eq)]
enum Node {
    Host,
    Ncp,
}

/// A line of a table: node, type, OFC, AFC and, where the table has it, the payload's length.
struct Line(Node, Kind, u8, u8, Option<usize>);

struct Section {
    number: &'static str,
    /// Our counter and the last good OFC where it starts, with nothing held; none for a fresh
    /// session.
    start: Option<(u8, u8)>,
    lines: &'static [Line],
}

/// How much data RESET ACK has in 5.2, which 002 leaves open.
const DATA_OF_5_2: usize = 20;

/// Section, step and AFC where C-21 departs from the document, and why.
const DEPARTURE: (&str, usize, u8) = ("5.6", 3, 6);
const REASON: &str = "C-21: each frame sent, also again, has as AFC the last good OFC as its event \
                      leaves it, and the data of step 2 is good; an old AFC can name a frame of the \
                      next round of seven";

const SECTIONS: [Section; 6] = [
    Section {
        number: "5.1",
        start: None,
        lines: &[
            Line(Host, Kind::Reset, 1, 0, None),
            Line(Ncp, Kind::Reset, 1, 0, None),
            Line(Host, Kind::ResetAck, 1, 1, None),
            Line(Ncp, Kind::ResetAck, 1, 1, None),
        ],
    },
    Section {
        number: "5.2",
        start: None,
        lines: &[
            Line(Host, Kind::Reset, 1, 0, None),
            Line(Ncp, Kind::Reset, 1, 0, None),
            Line(Host, Kind::ResetAck, 1, 1, None),
            Line(Ncp, Kind::ResetAck, 2, 1, None),
            Line(Host, Kind::Ack, 1, 2, None),
        ],
    },
    Section {
        number: "5.3",
        start: Some((4, 3)),
        lines: &[
            Line(Host, Kind::Ack, 5, 3, Some(40)),
            Line(Ncp, Kind::Ack, 3, 5, Some(0)),
        ],
    },
    Section {
        number: "5.4",
        start: Some((4, 3)),
        lines: &[
            Line(Host, Kind::Ack, 5, 3, Some(40)),
            Line(Ncp, Kind::Ack, 4, 5, Some(30)),
            Line(Host, Kind::Ack, 5, 4, Some(0)),
        ],
    },
    Section {
        number: "5.5",
        start: Some((2, 5)),
        lines: &[
            Line(Host, Kind::Ack, 3, 5, Some(40)),
            Line(Ncp, Kind::Nack, 5, 2, Some(0)),
            Line(Host, Kind::Ack, 3, 5, Some(40)),
            Line(Ncp, Kind::Ack, 5, 3, Some(0)),
        ],
    },
    Section {
        number: "5.6",
        start: Some((2, 5)),
        lines: &[
            Line(Host, Kind::Ack, 3, 5, Some(40)),
            Line(Ncp, Kind::Nack, 6, 2, Some(30)),
            Line(Host, Kind::Ack, 3, 5, Some(40)),
            Line(Host, Kind::Ack, 3, 6, Some(0)),
            Line(Ncp, Kind::Ack, 6, 3, Some(0)),
        ],
    },
];

/// Prints each step beside the document's, and fails at the first difference.
pub fn run(program: &str) -> Result<(), String> {
    let lines: String = SECTIONS.iter().map(Section::text).collect();
    let text = format!("{SESSION_SUBJECT}\n{lines}");
    let printed = child::printed(program, text.as_bytes()).map_err(|error| error.to_string())?;
    let printed = String::from_utf8_lossy(&printed);
    SECTIONS
        .iter()
        .try_for_each(|section| section.compare(&printed))
}

impl Line {
    fn data(&self) -> Vec<u8> {
        let Line(_, kind, ofc, _, length) = self;
        let with_data = *kind == Kind::ResetAck && *ofc == 2;
        let open = if with_data { DATA_OF_5_2 } else { 0 };
        vec![b'd'; length.unwrap_or(open)]
    }

    /// What the first line of a section, or one of the NCP, is for the host. The other lines of the
    /// host are its answers.
    fn event(&self) -> Event {
        let Line(node, kind, ofc, afc, _) = self;
        match (node, kind) {
            (Ncp, _) => receive(states::frame(*kind, *ofc, *afc, &self.data())),
            (Host, Kind::Reset) => reset(),
            (Host, _) => send(self.data()),
        }
    }
}

/// As the document's tables have it, without the node.
impl fmt::Display for Line {
    fn fmt(&self, to: &mut fmt::Formatter) -> fmt::Result {
        let Line(_, kind, ofc, afc, length) = self;
        let name = match kind {
            Kind::Reset => "RESET",
            Kind::ResetAck => "RESET_ACK",
            Kind::Ack => "ACK",
            Kind::Nack => "NACK",
        };
        write!(to, "{name} {ofc} {afc}")?;
        length.map_or(Ok(()), |length| write!(to, " {length}"))
    }
}

impl Section {
    fn label(&self, place: usize) -> String {
        format!("{} step {}", self.number, place + 1)
    }

    /// What the program is given.
    fn text(&self) -> String {
        let mut text = batches::line('n', self.number, &[]);
        if let Some((counter, good)) = self.start {
            let start = states::open(counter, good, 0);
            for event in start.events([b"before", b""]) {
                text.push_str(&event.line(&format!("{} start", self.number)));
            }
        }
        for (place, line) in self.lines.iter().enumerate() {
            if place == 0 || line.0 == Ncp {
                text.push_str(&line.event().line(&self.label(place)));
            }
        }
        text + &batches::line('q', &format!("{} end", self.number), &[])
    }

    fn compare(&self, printed: &str) -> Result<(), String> {
        let mut sent = Vec::new();
        for (place, line) in self.lines.iter().enumerate() {
            let label = self.label(place);
            if place == 0 || line.0 == Ncp {
                none_left(&sent, &label)?;
                let answer = Answer::of(line_of(printed, &label)?, line.0)?;
                handed_up(&answer, line, &label)?;
                sent = answer.frames;
            }
            let shown = match line.0 {
                Ncp => taken(&line.data()),
                Host => self.beside(place, &mut sent)?,
            };
            let node = match line.0 {
                Host => "Host",
                Ncp => "NCP",
            };
            println!("{label}  document: {node} {line}  session: {shown}");
        }
        none_left(&sent, self.number)?;
        self.compare_end(printed)
    }

    /// The frame that the session sent at this step of the host's.
    fn beside(&self, place: usize, sent: &mut Vec<Line>) -> Result<String, String> {
        let Line(_, kind, ofc, afc, length) = self.lines[place];
        let label = self.label(place);
        let departs = (self.number, place + 1) == (DEPARTURE.0, DEPARTURE.1);
        let afc = if departs { DEPARTURE.2 } else { afc };
        if sent.is_empty() {
            return Err(format!("{label}: the session sends nothing"));
        }
        let frame = sent.remove(0);
        let wanted = Line(Host, kind, ofc, afc, length.or(Some(0)));
        if frame.to_string() != wanted.to_string() {
            return Err(format!("{label}: wanted {wanted}, sent {frame}"));
        }
        let frame = Line(Host, kind, ofc, afc, length);
        Ok(match departs {
            true => format!("{frame} ({REASON})"),
            false => frame.to_string(),
        })
    }

    /// Behind the last step nothing is held or awaited, and the counters are the last of each side.
    fn compare_end(&self, printed: &str) -> Result<(), String> {
        let label = format!("{} end", self.number);
        let state = line_of(printed, &label)?;
        let last = |node| self.lines.iter().rfind(|line| line.0 == node);
        let ofc = |node| last(node).map_or(0, |line| line.2);
        let wanted = format!("counter {} good {}", ofc(Host), ofc(Ncp));
        if state != wanted {
            return Err(format!("{label}: wanted {wanted}, printed {state}"));
        }
        Ok(())
    }
}

fn taken(data: &[u8]) -> String {
    match data.len() {
        0 => "takes it".to_string(),
        length => format!("takes it, hands up {length}"),
    }
}

fn none_left(sent: &[Line], label: &str) -> Result<(), String> {
    match sent.first() {
        Some(frame) => Err(format!("before {label} the session also sends {frame}")),
        None => Ok(()),
    }
}

/// The NCP's data is handed up, and nothing else.
fn handed_up(answer: &Answer, line: &Line, label: &str) -> Result<(), String> {
    let wanted = match line.0 {
        Ncp => line.data(),
        Host => Vec::new(),
    };
    if answer.payload != wanted {
        return Err(format!("{label}: handed up {:?}", answer.payload));
    }
    Ok(())
}

/// What is printed behind a label.
fn line_of<'a>(printed: &'a str, label: &str) -> Result<&'a str, String> {
    let head = format!("{label}: ");
    let mut lines = printed.lines();
    let line = lines.find_map(|line| line.strip_prefix(&head));
    line.ok_or_else(|| format!("nothing printed for {label}"))
}

/// What the program printed of an event, read.
struct Answer {
    frames: Vec<Line>,
    payload: Vec<u8>,
}

impl Answer {
    /// An event that the NCP's frame is has two buffers, another has one.
    fn of(printed: &str, node: Node) -> Result<Answer, String> {
        let words: Vec<&str> = printed.split(' ').collect();
        let answer = match (node, &words[..]) {
            (Ncp, ["sent", sent, "payload", payload, "dropped", output, lent]) => {
                buffer(output, sent).zip(buffer(lent, payload))
            }
            (Host, ["sent", sent, "payload", "0", "dropped", output]) => {
                buffer(output, sent).map(|sent| (sent, Vec::new()))
            }
            _ => None,
        };
        let answer = answer.and_then(|(sent, payload)| {
            let frames = frames(&sent)?;
            Some(Answer { frames, payload })
        });
        answer.ok_or_else(|| format!("no answer of this conversation: {printed}"))
    }
}

/// So many bytes of a buffer, which is printed as its first bytes and how many are untouched. What
/// the conversations here send and hand up does not end with an untouched byte.
fn buffer(printed: &str, length: &str) -> Option<Vec<u8>> {
    let (digits, _) = printed.split_once('+')?;
    let places = (0..digits.len()).step_by(2);
    let bytes: Option<Vec<u8>> = places
        .map(|place| u8::from_str_radix(digits.get(place..place + 2)?, 16).ok())
        .collect();
    bytes.filter(|bytes| length.parse() == Ok(bytes.len()))
}

/// The frames one behind the other, unless there is a bad one or part of one.
fn frames(sent: &[u8]) -> Option<Vec<Line>> {
    let mut cutter = Cutter::new();
    let frames: Vec<Vec<u8>> = sent.iter().filter_map(|byte| cutter.step(*byte)).collect();
    if cutter != Cutter::Between {
        return None;
    }
    let lines = frames.iter().map(|frame| {
        let frame = read_frame(frame, PAYLOAD_MAX).ok()?;
        let Control { kind, ofc, afc } = Control::of(frame.control);
        Some(Line(Host, kind, ofc, afc, Some(frame.payload.len())))
    });
    lines.collect()
}
