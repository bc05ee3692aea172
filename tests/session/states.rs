//! Each state that a session can be in, and events that lead to it from a fresh one.

use crate::events::{receive, send, Event};
use crate::session::{next, Control, Kind, COUNTER_MAX};

/// A session: its counter, its last good OFC, whether RESET ACK is awaited, and how many frames it
/// holds.
#[derive(Clone, Copy, Debug, PartialEq, Eq)]
pub struct State {
    pub counter: u8,
    pub good: u8,
    pub awaiting: bool,
    pub held: usize,
}

/// In the wait the last good OFC is 0, or 1 behind the peer's RESET. Behind it each counter is any
/// of 1 to 7, and none, one or two frames are held.
pub fn all() -> Vec<State> {
    let mut states = vec![waiting(0), waiting(1)];
    for counter in 1..=COUNTER_MAX {
        for good in 1..=COUNTER_MAX {
            states.extend((0..=2).map(|held| open(counter, good, held)));
        }
    }
    states
}

pub fn waiting(good: u8) -> State {
    State {
        counter: 1,
        good,
        awaiting: true,
        held: 0,
    }
}

pub fn open(counter: u8, good: u8, held: usize) -> State {
    State {
        counter,
        good,
        awaiting: false,
        held,
    }
}

/// The bytes of a frame.
pub fn frame(kind: Kind, ofc: u8, afc: u8, data: &[u8]) -> Vec<u8> {
    Control { kind, ofc, afc }.frame(data)
}

impl State {
    /// Events that lead to this state. The held frames have this data, oldest first.
    pub fn events(self, data: [&[u8]; 2]) -> Vec<Event> {
        if self.awaiting {
            let reset = receive(frame(Kind::Reset, 1, 0, &[]));
            return vec![reset; usize::from(self.good)];
        }
        let mut events = vec![receive(frame(Kind::ResetAck, 1, 1, &[]))];
        events.extend((2..=self.good).map(|ofc| receive(frame(Kind::Ack, ofc, 0, b"taken"))));
        let mut counter = 1;
        for behind in (0..self.sends()).rev() {
            counter = next(counter);
            let place = self.held.saturating_sub(behind + 1);
            events.push(send(data[place].to_vec()));
            if behind >= self.held {
                events.push(receive(frame(Kind::Ack, 1, counter, &[])));
            }
        }
        events
    }

    /// How many sends lead to the counter, at least as many as are held.
    fn sends(self) -> usize {
        let sends = usize::from(self.counter) - 1;
        if sends < self.held {
            return sends + usize::from(COUNTER_MAX);
        }
        sends
    }
}

#[cfg(test)]
mod reached {
    use super::*;
    use crate::events::{reset, timeout};
    use crate::session::Session;
    use crate::systematic::every_control;

    fn session(state: State) -> Session {
        let mut session = Session::new();
        for event in state.events([b"older", b"newer"]) {
            event.meet(&mut session).expect("no refusal");
        }
        session
    }

    fn state(session: &Session) -> State {
        State {
            counter: session.counter,
            good: session.good,
            awaiting: session.awaiting,
            held: session.held.len(),
        }
    }

    #[test]
    fn by_their_events() {
        for wanted in all() {
            let session = session(wanted);
            assert_eq!(state(&session), wanted);
            let data: Vec<&[u8]> = session.held.iter().map(|held| &held.data[..]).collect();
            assert_eq!(data, [&b"older"[..], b"newer"][..wanted.held]);
        }
    }

    #[test]
    fn and_no_event_leads_out_of_them() {
        let states = all();
        let mut events = vec![reset(), timeout(), send(b"more".to_vec())];
        events.extend(every_control(b""));
        events.extend(every_control(b"up"));
        for start in &states {
            let start = session(*start);
            for event in &events {
                let mut session = start.clone();
                let _ = event.meet(&mut session);
                assert!(states.contains(&state(&session)));
            }
        }
    }
}
