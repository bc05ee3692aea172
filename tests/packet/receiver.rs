//! What a transfer and its lent buffer meet, line for line.

use crate::batches::{self, Step};
use crate::classes::{self, Class};
use crate::transfer::{self, read_fragment, Refusal, Transfer};

/// The longest lent buffer.
pub const FILE_MAX: usize = 514;

/// How many bytes of a long buffer are shown, its last ones.
pub const SHOWN: usize = 10;

/// What the buffer holds where a transfer starts.
const UNTOUCHED: u8 = 0xee;

/// The location of a transfer that meets one packet alone.
pub const LOC: &[u8] = b"loc";

#[derive(Clone, Debug)]
pub enum Event {
    /// How many bytes the lent buffer has from here on.
    Room(usize),
    /// A transfer of this location starts.
    Start(Vec<u8>),
    /// The next offset, as a transfer that came so far would have it.
    Next(u64),
    Give(Vec<u8>),
    /// A packet for a fresh transfer of `loc`.
    Alone(Vec<u8>),
}

/// A transfer, and the buffer that is lent to it.
pub struct Receiver {
    /// None after a start that was refused.
    pub transfer: Option<Transfer>,
    pub room: usize,
    file: Vec<u8>,
}

impl Receiver {
    pub fn new() -> Receiver {
        Receiver {
            transfer: None,
            room: 0,
            file: vec![UNTOUCHED; FILE_MAX],
        }
    }

    fn start(&mut self, location: &[u8]) -> Result<(), Refusal> {
        self.file.fill(UNTOUCHED);
        let started = transfer::start(location);
        self.transfer = started.clone().ok();
        started.map(drop)
    }

    pub fn give(&mut self, packet: &[u8]) -> Result<(), Refusal> {
        match &mut self.transfer {
            Some(transfer) => transfer.take(packet, &mut self.file[..self.room]),
            // After a refused start no fragment is of the transfer's location.
            None => Err(read_fragment(packet)
                .err()
                .unwrap_or(Refusal::OtherLocation)),
        }
    }

    /// The answer to an event that has one.
    pub fn meet(&mut self, event: &Event) -> Option<Result<(), Refusal>> {
        match event {
            Event::Room(room) => self.room = *room,
            Event::Next(next) => self.put_next(*next),
            Event::Start(location) => return Some(self.start(location)),
            Event::Give(packet) => return Some(self.give(packet)),
            Event::Alone(packet) => {
                self.start(LOC).expect("a location");
                return Some(self.give(packet));
            }
        }
        None
    }

    fn put_next(&mut self, next: u64) {
        let transfer = self.transfer.as_mut().expect("a transfer");
        transfer.next = next;
    }

    /// What is printed behind the label.
    fn printed(&self, event: &Event, answer: Result<(), Refusal>) -> String {
        let answer = match answer {
            Ok(()) => "accepted".to_string(),
            Err(refusal) => format!("refused {}", refusal.number()),
        };
        let transfer = self.shown_transfer();
        match event {
            Event::Start(_) => format!("{answer}, {transfer}"),
            _ => format!("{answer}, {transfer}, file {}", self.shown_file()),
        }
    }

    fn shown_transfer(&self) -> String {
        let fresh = (0, None, false);
        let state = self.transfer.as_ref();
        let (next, declared, complete) = state.map_or(fresh, |transfer| {
            (transfer.next, transfer.declared, transfer.complete)
        });
        let length = declared.map_or("unknown".to_string(), |length| length.to_string());
        let end = if complete { "complete" } else { "going on" };
        format!("next {next}, length {length}, {end}")
    }

    fn shown_file(&self) -> String {
        let shown = &self.file[self.room.saturating_sub(SHOWN)..self.room];
        shown.iter().map(|byte| format!("{byte:02x}")).collect()
    }
}

/// The lines of the events, and what they have to print.
pub fn steps(events: &[Event], label: &str) -> Vec<Step<Class>> {
    let mut receiver = Receiver::new();
    let numbered = events.iter().enumerate();
    let steps = numbered.map(|(number, event)| {
        let label = format!("{label}.{number}");
        step(&mut receiver, event, &label)
    });
    steps.collect()
}

/// What only prepares the next events prints nothing.
fn step(receiver: &mut Receiver, event: &Event, label: &str) -> Step<Class> {
    let (key, bytes) = written(event);
    let line = batches::line(key, label, &bytes);
    let before = match event {
        Event::Alone(_) => transfer::start(LOC).ok(),
        _ => receiver.transfer.clone(),
    };
    let Some(answer) = receiver.meet(event) else {
        return Step {
            line,
            wanted: String::new(),
            classes: Vec::new(),
        };
    };
    Step {
        line,
        wanted: format!("{label}: {}\n", receiver.printed(event, answer)),
        classes: match event {
            Event::Start(_) => vec![Class::Start(answer.is_ok())],
            _ => classes::of_fragment(before.as_ref(), &bytes, receiver.room, answer),
        },
    }
}

/// The key and the bytes of an event's line.
fn written(event: &Event) -> (char, Vec<u8>) {
    match event {
        Event::Room(room) => ('b', (*room as u16).to_be_bytes().to_vec()),
        Event::Next(next) => ('n', next.to_be_bytes().to_vec()),
        Event::Start(location) => ('s', location.clone()),
        Event::Give(packet) => ('g', packet.clone()),
        Event::Alone(packet) => ('a', packet.clone()),
    }
}
