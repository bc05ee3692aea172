//! Random conversations with a module behind a bad line.

use crate::ash::{Parts, CONTROL_ESCAPED, ESCAPE, LENGTH_ESCAPED, PAYLOAD_MAX, RESERVED};
use crate::ash_inputs::{byte, payload};
use crate::cases::Case;
use crate::events::{receive, reset, send, timeout, Event, OUTPUT_MAX, PAYLOAD_ROOM_MAX};
use crate::peer::{some_data, Peer};
use crate::random::Random;
use crate::session::{Control, Kind, Session, OUTPUT_MIN};
use crate::states::frame;

pub fn cases(seed: u64, count: usize) -> impl Iterator<Item = Case> {
    let mut random = Random::new(seed);
    (0..count).map(move |_| Case::Conversation(conversation(&mut random)))
}

/// Most begin with our RESET.
fn conversation(random: &mut Random) -> Vec<Event> {
    let length = random.one_of(&[4, 10, 40, 80, 120]);
    let longest_data = random.below(4) == 0;
    let mut peer = Peer::new();
    let mut session = Session::new();
    let mut events = Vec::new();
    while events.len() < length {
        let event = match events.is_empty() && random.below(8) != 0 {
            true => Some(reset()),
            false => event(random, &mut peer, longest_data),
        };
        let Some(event) = event.map(|event| with_room(random, event)) else {
            continue;
        };
        if let Ok(answer) = event.meet(&mut session) {
            peer.hear(random, &answer.sent);
        }
        events.push(event);
    }
    events
}

/// What the session meets next; nothing if a frame was lost, or none is on its way.
fn event(random: &mut Random, peer: &mut Peer, longest_data: bool) -> Option<Event> {
    match random.below(60) {
        0 => Some(reset()),
        1..=4 => Some(timeout()),
        5..=14 if longest_data => Some(send(payload(random, PAYLOAD_MAX))),
        5..=14 => Some(send(some_data(random))),
        15 | 16 => Some(odd_send(random)),
        17..=22 => Some(receive(any_frame(random))),
        23 => Some(receive(noise(random))),
        _ => {
            speak(random, peer);
            peer.next_frame(random).map(receive)
        }
    }
}

/// What the peer says of itself, now and then.
fn speak(random: &mut Random, peer: &mut Peer) {
    match random.below(36) {
        0 => peer.reset(),
        1..=4 => peer.say(random, Kind::Ack),
        5 | 6 => peer.say(random, Kind::Nack),
        7 => peer.say_again(),
        _ => {}
    }
}

/// Data that is mostly too long, or empty, often with too little room besides.
fn odd_send(random: &mut Random) -> Event {
    let length = random.one_of(&[0, 0, 0, 28, 29, 57, 58, 100, 390]);
    Event::Send {
        room: random.one_of(&[OUTPUT_MIN - 1, OUTPUT_MIN]),
        data: (0..length).map(|_| byte(random)).collect(),
    }
}

/// A frame of any type and counters, empty or not; some have a fault and a check that goes with it.
fn any_frame(random: &mut Random) -> Vec<u8> {
    let control = match random.below(6) {
        0 => control(Kind::Reset, 1, 0),
        1 => control(Kind::ResetAck, 1, 1),
        2 => control(Kind::ResetAck, 2, 1),
        _ => random.byte(),
    };
    let data = match random.below(2) {
        0 => Vec::new(),
        _ => some_data(random),
    };
    let mut parts = Parts::new(control, &data);
    if random.below(3) == 0 {
        spoil(random, &mut parts);
    }
    parts.frame()
}

fn control(kind: Kind, ofc: u8, afc: u8) -> u8 {
    Control { kind, ofc, afc }.byte()
}

fn spoil(random: &mut Random, parts: &mut Parts) {
    match random.below(6) {
        0 | 1 => spoil_header_escape(random, parts),
        2 => parts.set_length(random.byte()),
        3 => spoil_payload(parts, &[random.one_of(&RESERVED)]),
        4 => spoil_payload(parts, &[ESCAPE, random.byte()]),
        _ => spoil_payload(parts, &[ESCAPE]),
    }
}

/// A reserved bit set, an escape that is needless most often, or one that is missing.
pub fn spoil_header_escape(random: &mut Random, parts: &mut Parts) {
    match random.below(3) {
        0 => parts.escape |= 1 << random.below(6),
        1 => parts.escape ^= random.one_of(&[CONTROL_ESCAPED, LENGTH_ESCAPED]),
        _ => {
            parts.control = random.one_of(&RESERVED);
            parts.escape = 0;
        }
    }
}

/// Puts these bytes behind the payload as sent, with a length that goes with them.
fn spoil_payload(parts: &mut Parts, behind: &[u8]) {
    parts.sent.extend(behind);
    parts.set_length(parts.sent.len() as u8);
}

/// Any bytes, most often behind the first bytes of a frame.
fn noise(random: &mut Random) -> Vec<u8> {
    let length = random.one_of(&[0, 1, 3, 7, 20, 64, 65, 390]);
    let head = frame(Kind::Ack, 2, 1, b"a");
    let behind = random.below(head.len());
    let noise = (0..length).map(|_| byte(random));
    let bytes = head.iter().copied().take(behind).chain(noise);
    bytes.collect()
}

/// The event, seldom with too little room or with more than enough.
fn with_room(random: &mut Random, mut event: Event) -> Event {
    if random.below(12) != 0 {
        return event;
    }
    let any = random.below(OUTPUT_MAX + 1);
    let new = random.one_of(&[0, OUTPUT_MIN - 1, OUTPUT_MIN, OUTPUT_MAX, any]);
    let any = random.below(PAYLOAD_ROOM_MAX + 1);
    let for_payload = [
        PAYLOAD_MAX - 1,
        PAYLOAD_MAX,
        PAYLOAD_MAX,
        PAYLOAD_ROOM_MAX,
        any,
    ];
    match &mut event {
        Event::Reset { room } | Event::Timeout { room } | Event::Send { room, .. } => *room = new,
        Event::Receive {
            room, payload_room, ..
        } => {
            *room = random.one_of(&[new, OUTPUT_MIN]);
            *payload_room = random.one_of(&for_payload);
        }
    }
    event
}

#[cfg(test)]
mod invariants {
    use super::*;
    use crate::session::next;

    /// The held OFCs are consecutive and end at the counter, and nothing is held in the wait.
    #[test]
    fn of_the_held_frames() {
        let mut random = Random::new(1);
        for _ in 0..200 {
            let mut session = Session::new();
            for event in conversation(&mut random) {
                let _ = event.meet(&mut session);
                let held: Vec<u8> = session.held.iter().map(|held| held.ofc).collect();
                assert!(!session.awaiting || held.is_empty());
                assert!(held.is_empty() || held.last() == Some(&session.counter));
                assert!(held.len() < 2 || held[1] == next(held[0]));
            }
        }
    }
}
