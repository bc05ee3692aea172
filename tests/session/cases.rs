//! A conversation, or a line to be cut: what `run_cases` is given for it, and what it has to print.

use crate::batches::{self, Step};
use crate::classes::{self, Class};
use crate::cut_classes::of_cut;
use crate::cutter::Cutter;
use crate::events::Event;
use crate::printed;
use crate::session::Session;
use crate::tally::Tally;

/// The lines before the cases, which are printed too.
pub const SESSION_SUBJECT: &str = "= session";
pub const CUTTER_SUBJECT: &str = "= cutter";

/// The most bytes of a line. The program reads more.
pub const LINE_BYTES_MAX: usize = 400;

#[derive(Clone, Debug)]
pub enum Case {
    /// Events one behind the other, from a fresh session on.
    Conversation(Vec<Event>),
    /// Events that each meet the session to which the first ones lead.
    Tries {
        start: Vec<Event>,
        tried: Vec<Event>,
    },
    /// Pieces of one line, each with the room of the buffer lent for it.
    Pieces(Vec<(usize, Vec<u8>)>),
}

impl batches::Case for Case {
    type Class = Class;

    fn tally() -> Tally<Class> {
        Tally::new(Class::all())
    }

    fn steps(&self, label: &str) -> Vec<Step<Class>> {
        let mut steps = Steps::new(label);
        match self {
            Case::Conversation(events) => conversation(&mut steps, events),
            Case::Tries { start, tried } => tries(&mut steps, start, tried),
            Case::Pieces(pieces) => cuts(&mut steps, pieces),
        }
        steps.done
    }
}

/// The steps of a case, which are numbered behind its label.
struct Steps {
    label: String,
    done: Vec<Step<Class>>,
}

impl Steps {
    /// The first line starts afresh.
    fn new(label: &str) -> Steps {
        let mut steps = Steps {
            label: label.to_string(),
            done: Vec::new(),
        };
        steps.quiet('n');
        steps
    }

    fn next_label(&self) -> String {
        format!("{}.{}", self.label, self.done.len())
    }

    /// A line that prints nothing.
    fn quiet(&mut self, key: char) {
        let line = batches::line(key, &self.next_label(), &[]);
        self.add(line, String::new(), Vec::new());
    }

    /// A line that prints this behind its label.
    fn told(&mut self, line: String, printed: &str, classes: Vec<Class>) {
        let wanted = format!("{}: {printed}\n", self.next_label());
        self.add(line, wanted, classes);
    }

    fn add(&mut self, line: String, wanted: String, classes: Vec<Class>) {
        self.done.push(Step {
            line,
            wanted,
            classes,
        });
    }

    /// An event, and the session behind it.
    fn event(&mut self, session: &mut Session, event: &Event) {
        let before = session.clone();
        let answer = event.meet(session);
        let line = event.line(&self.next_label());
        let classes = classes::of_event(&before, event, &answer);
        self.told(line, &printed::of_event(event, &answer), classes);
        let line = batches::line('q', &self.next_label(), &[]);
        self.told(line, &printed::of_session(session), Vec::new());
    }
}

fn conversation(steps: &mut Steps, events: &[Event]) {
    let mut session = Session::new();
    for event in events {
        steps.event(&mut session, event);
    }
}

fn tries(steps: &mut Steps, start: &[Event], tried: &[Event]) {
    let mut session = Session::new();
    for event in start {
        steps.event(&mut session, event);
    }
    steps.quiet('m');
    for event in tried {
        steps.event(&mut session.clone(), event);
        steps.quiet('b');
    }
}

/// Each piece is given until all of it is taken.
fn cuts(steps: &mut Steps, pieces: &[(usize, Vec<u8>)]) {
    let mut cutter = Cutter::new();
    for (room, piece) in pieces {
        let mut rest = piece.as_slice();
        loop {
            let taken = call(steps, &mut cutter, *room, rest);
            rest = &rest[taken.unwrap_or(rest.len())..];
            if rest.is_empty() {
                break;
            }
        }
    }
}

/// How many bytes were taken, unless the call was refused.
fn call(steps: &mut Steps, cutter: &mut Cutter, room: usize, piece: &[u8]) -> Option<usize> {
    let before = cutter.clone();
    let cut = cutter.take(room, piece);
    let line = [&[room as u8], piece].concat();
    let line = batches::line('p', &steps.next_label(), &line);
    let classes = of_cut(&before, piece, &cut, cutter).into_iter();
    let classes = classes.map(Class::Cut).collect();
    steps.told(line, &printed::of_cut(&cut, room), classes);
    cut.ok().map(|cut| cut.taken)
}
