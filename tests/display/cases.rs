//! A list of calls of a fresh display: the lines that `run_cases` is given for it, and what they
//! have to print.

use crate::batches::{self, Step};
use crate::classes::{self, Class};
use crate::display::Display;
use crate::past::{Moment, Past};
use crate::printed;
use crate::receiver::{PACKET_MIN, REPLY_MIN};
use crate::sender::Sender;
use crate::tally::Tally;

/// The line before the cases, which is printed too.
pub const SUBJECT: &str = "= display";

/// The most bytes of a line, and the most zero bytes that a line stands for.
pub const LINE_BYTES_MAX: usize = 1230;
pub const ZEROS_MAX: usize = 388;

/// The longest output that the program lends, and how many bytes of a line tell its length.
pub const OUTPUT_MAX: usize = 800;
pub const ROOM_BYTES: usize = 2;

#[derive(Clone, Debug)]
pub enum Event {
    /// Given by calls with all that is left of it, until nothing is.
    Piece(Vec<u8>),
    /// A piece of so many zero bytes.
    Zeros(usize),
    /// A piece given with a reply buffer that is too short, and with such a packet buffer.
    ShortBuffers(Vec<u8>),
    Tick,
    /// A payload to be sent, with an output of this length.
    Send {
        room: usize,
        payload: Vec<u8>,
    },
    /// A timeout, with such an output.
    Timeout {
        room: usize,
    },
}

impl Event {
    /// Whether the program reads its line.
    #[cfg(test)]
    pub fn fits_a_line(&self) -> bool {
        match self {
            Event::Piece(bytes) | Event::ShortBuffers(bytes) => bytes.len() <= LINE_BYTES_MAX,
            Event::Zeros(count) => *count <= ZEROS_MAX,
            Event::Tick => true,
            Event::Send { room, payload } => {
                *room <= OUTPUT_MAX && ROOM_BYTES + payload.len() <= LINE_BYTES_MAX
            }
            Event::Timeout { room } => *room <= OUTPUT_MAX,
        }
    }

    fn is_for_the_sender(&self) -> bool {
        matches!(self, Event::Send { .. } | Event::Timeout { .. })
    }

    fn line(&self, label: &str) -> String {
        match self {
            Event::Piece(bytes) => batches::line('f', label, bytes),
            Event::Zeros(count) => batches::line('z', label, &two_bytes(*count)),
            Event::ShortBuffers(bytes) => batches::line('b', label, bytes),
            Event::Tick => "t:\n".to_string(),
            Event::Send { room, payload } => {
                batches::line('d', label, &[&two_bytes(*room), &payload[..]].concat())
            }
            Event::Timeout { room } => batches::line('o', label, &two_bytes(*room)),
        }
    }
}

/// A number as the lines have it, high byte first.
fn two_bytes(number: usize) -> [u8; ROOM_BYTES] {
    (number as u16).to_be_bytes()
}

/// All that one display meets.
#[derive(Clone, Debug)]
pub struct Case {
    pub events: Vec<Event>,
}

impl Case {
    /// Whether it has sends or timeouts.
    pub fn is_for_the_sender(&self) -> bool {
        self.events.iter().any(Event::is_for_the_sender)
    }
}

impl batches::Case for Case {
    type Class = Class;

    fn tally() -> Tally<Class> {
        Tally::new(Class::all())
    }

    /// In a list for the sender that one is shown behind each event.
    fn steps(&self, label: &str) -> Vec<Step<Class>> {
        let mut observed = Observed::new();
        let start = prepares(batches::line('s', label, &[]), format!("{label}\n"));
        let mut steps = vec![start];
        let is_for_the_sender = self.is_for_the_sender();
        for event in &self.events {
            let label = format!("{label}.{}", steps.len());
            steps.push(observed.meet(event, &label));
            if is_for_the_sender {
                steps.push(prepares("h:\n".to_string(), observed.sender_shown()));
            }
        }
        steps.push(prepares("c:\n".to_string(), observed.shown()));
        steps
    }
}

/// A line that makes no call.
fn prepares(line: String, wanted: String) -> Step<Class> {
    Step {
        line,
        wanted,
        classes: Vec::new(),
    }
}

/// A display with a board of h1 and h2, and what came before as far as it tells kinds of answers
/// apart.
pub struct Observed {
    display: Display,
    cut: classes::Cut,
    past: Past,
}

impl Observed {
    pub fn new() -> Observed {
        let mut display = Display::default();
        display.receiver.board.watch(b"h1");
        display.receiver.board.watch(b"h2");
        Observed {
            display,
            cut: classes::Cut::default(),
            past: Past::default(),
        }
    }

    pub fn sender(&self) -> &Sender {
        &self.display.sender
    }

    /// The line of an event, and what it has to print.
    pub fn meet(&mut self, event: &Event, label: &str) -> Step<Class> {
        let mut step = prepares(event.line(label), String::new());
        match event {
            Event::Piece(bytes) => self.feed(bytes, &mut step),
            Event::Zeros(count) => self.feed(&vec![0; *count], &mut step),
            Event::ShortBuffers(bytes) => {
                self.call(bytes, REPLY_MIN - 1, PACKET_MIN, &mut step);
                self.call(bytes, REPLY_MIN, PACKET_MIN - 1, &mut step);
            }
            Event::Tick => {
                self.display.tick();
                self.cut.ticked = true;
                self.past.tick();
            }
            Event::Send { room, payload } => self.send(*room, payload, &mut step),
            Event::Timeout { room } => self.timeout(*room, &mut step),
        }
        step
    }

    fn feed(&mut self, bytes: &[u8], step: &mut Step<Class>) {
        let mut rest = bytes;
        while !rest.is_empty() {
            let taken = self.call(rest, REPLY_MIN, PACKET_MIN, step);
            rest = &rest[taken..];
        }
    }

    /// How many bytes a call takes.
    fn call(&mut self, piece: &[u8], reply: usize, packet: usize, step: &mut Step<Class>) -> usize {
        let run = self.display.receiver.run.clone();
        let before = self.moment();
        let call = self.display.take(piece, reply, packet);
        step.wanted.push_str(&printed::of_call(&call));
        let classes = self.cut.classes(run.as_deref(), piece, &call);
        step.classes.extend(classes);
        let frame = classes::closed(run.as_deref(), piece, &call);
        let kinds = self.past.of_call(&before, piece, &call, frame.as_deref());
        step.classes.extend(kinds.into_iter().map(Class::Sender));
        call.taken
    }

    fn send(&mut self, room: usize, payload: &[u8], step: &mut Step<Class>) {
        let before = self.moment();
        let answer = self.display.send(room, payload);
        step.wanted.push_str(&printed::of_send(&answer, room));
        let kinds = self.past.of_send(&before, room, payload, &answer);
        step.classes.extend(kinds.into_iter().map(Class::Sender));
    }

    fn timeout(&mut self, room: usize, step: &mut Step<Class>) {
        let before = self.moment();
        let answer = self.display.timeout(room);
        step.wanted.push_str(&printed::of_timeout(&answer, room));
        let kinds = self.past.of_timeout(&before, room, &answer);
        step.classes.extend(kinds.into_iter().map(Class::Sender));
    }

    fn moment(&self) -> Moment {
        let run = self.display.receiver.run.as_ref();
        Moment {
            sender: self.display.sender.clone(),
            inside: run.is_some_and(|run| !run.is_empty()),
        }
    }

    /// The counts, and the rows as the program `replay` prints them.
    pub fn shown(&self) -> String {
        self.display.receiver.counts.shown() + &self.display.receiver.board.shown()
    }

    pub fn sender_shown(&self) -> String {
        printed::of_sender(&self.display.sender)
    }
}
