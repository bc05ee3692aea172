//! The readings of request C-21, one test for each hard sentence. A frame is named as `ACK 2/1`, with
//! its data behind it.

use crate::ash::{read_frame, Parts, PAYLOAD_MAX};
use crate::cutter::Cutter;
use crate::session::{Answer, Control, Kind, Refusal, Session, OUTPUT_MIN};

const RESET: [u8; 7] = [0x7e, 0x00, 0x08, 0x00, 0x69, 0x86, 0x00];
const RESET_ACK: [u8; 7] = [0x7e, 0x00, 0x49, 0x00, 0x47, 0x6b, 0xc0];
const NAMES: [(Kind, &str); 4] = [
    (Kind::Reset, "RESET"),
    (Kind::ResetAck, "RESET ACK"),
    (Kind::Ack, "ACK"),
    (Kind::Nack, "NACK"),
];

/// What an event of a session gives, in words: the frames sent, `up` with what is handed up,
/// `dropped` with the OFCs.
fn said(answer: Result<Answer, Refusal>) -> String {
    let answer = match answer {
        Ok(answer) => answer,
        Err(refusal) => return format!("refused {}", refusal.number()),
    };
    let mut words: Vec<String> = frames(&answer.sent)
        .iter()
        .map(|frame| name(frame))
        .collect();
    words.extend(answer.payload.map(|up| format!("up {}", text(&up))));
    if !answer.dropped.is_empty() {
        words.push(format!("dropped {:?}", answer.dropped));
    }
    words.join(", ")
}

fn frames(sent: &[u8]) -> Vec<Vec<u8>> {
    let mut cutter = Cutter::new();
    let frames = sent.iter().filter_map(|byte| cutter.step(*byte));
    frames.collect()
}

fn name(frame: &[u8]) -> String {
    let frame = read_frame(frame, PAYLOAD_MAX).expect("a good frame");
    let Control { kind, ofc, afc } = Control::of(frame.control);
    let (_, name) = NAMES[kind as usize];
    format!("{name} {ofc}/{afc} {}", text(&frame.payload))
        .trim_end()
        .to_string()
}

fn text(bytes: &[u8]) -> String {
    String::from_utf8_lossy(bytes).into_owned()
}

/// The bytes of a frame by its name.
fn frame(name: &str) -> Vec<u8> {
    let by_length = |named: &&(Kind, &str)| name.starts_with(&format!("{} ", named.1));
    let longest = NAMES
        .iter()
        .filter(by_length)
        .max_by_key(|named| named.1.len());
    let (kind, word) = longest.expect("a type");
    let (counters, data) = name[word.len() + 1..].split_at(3);
    let digit = |place: usize| counters.as_bytes()[place] - b'0';
    let control = Control {
        kind: *kind,
        ofc: digit(0),
        afc: digit(2),
    };
    control.frame(data.trim_start().as_bytes())
}

impl Session {
    fn hears(&mut self, name: &str) -> String {
        said(self.receive(OUTPUT_MIN, PAYLOAD_MAX, &frame(name)))
    }

    fn hears_bytes(&mut self, bytes: &[u8]) -> String {
        said(self.receive(OUTPUT_MIN, PAYLOAD_MAX, bytes))
    }

    fn sends(&mut self, data: &str) -> String {
        said(self.send(OUTPUT_MIN, data.as_bytes()))
    }

    fn waits(&mut self) -> String {
        said(self.timeout(OUTPUT_MIN))
    }

    fn state(&self) -> (u8, u8, bool, Vec<u8>) {
        let held = self.held.iter().map(|held| held.ofc).collect();
        (self.counter, self.good, self.awaiting, held)
    }
}

/// A session whose wait RESET ACK 1/1 has ended: counter 1, good 1.
fn open() -> Session {
    let mut session = Session::new();
    assert_eq!(session.hears("RESET ACK 1/1"), "");
    session
}

/// An open session that holds ab (2) and cd (3).
fn holding_two() -> Session {
    let mut session = open();
    assert_eq!(session.sends("ab"), "ACK 2/1 ab");
    assert_eq!(session.sends("cd"), "ACK 3/1 cd");
    session
}

#[test]
fn a_fresh_session_stands_after_our_reset() {
    assert_eq!(Session::new().state(), (1, 0, true, vec![]));
    assert_eq!(open().state(), (1, 1, false, vec![]));
}

#[test]
fn our_reset_at_any_time() {
    let mut session = Session::new();
    assert_eq!(
        session.reset(OUTPUT_MIN).map(|answer| answer.sent),
        Ok(RESET.to_vec())
    );
    assert_eq!(session, Session::new());
    let mut session = holding_two();
    assert_eq!(said(session.reset(OUTPUT_MIN)), "RESET 1/0, dropped [2, 3]");
    assert_eq!(session, Session::new());
    assert_eq!(said(session.reset(OUTPUT_MIN)), "RESET 1/0");
}

#[test]
fn the_peers_reset_does_not_end_the_wait() {
    let mut session = Session::new();
    let answer = session.receive(OUTPUT_MIN, PAYLOAD_MAX, &RESET);
    assert_eq!(answer.map(|answer| answer.sent), Ok(RESET_ACK.to_vec()));
    assert_eq!(session.state(), (1, 1, true, vec![]));
    assert_eq!(session.hears("ACK 2/1 ab"), "");
    assert_eq!(session.sends("ab"), "refused 28");
    assert_eq!(session.hears("RESET ACK 2/1 ab"), "ACK 1/2, up ab");
    assert_eq!(session.hears("RESET 1/0"), "RESET ACK 1/1");
    assert_eq!(session.state(), (1, 1, false, vec![]));
}

#[test]
fn the_peers_reset_drops() {
    let mut session = holding_two();
    assert_eq!(session.hears("RESET 1/0"), "RESET ACK 1/1, dropped [2, 3]");
    assert_eq!(session.state(), (1, 1, false, vec![]));
    assert_eq!(session.sends("ef"), "ACK 2/1 ef");
}

#[test]
fn what_was_covered_is_not_dropped() {
    let mut session = holding_two();
    assert_eq!(session.hears("ACK 1/2"), "");
    assert_eq!(session.hears("RESET 1/0"), "RESET ACK 1/1, dropped [3]");
}

#[test]
fn in_the_wait_ack_and_nack_are_ignored() {
    for name in [
        "ACK 1/0",
        "ACK 1/0 ab",
        "ACK 7/1 ab",
        "NACK 1/0",
        "NACK 1/0 ab",
    ] {
        let mut session = Session::new();
        assert_eq!(session.hears(name), "", "{name}");
        assert_eq!(session, Session::new());
    }
}

#[test]
fn in_the_wait_bad_frames_get_a_nack() {
    let mut session = Session::new();
    let bad = ["RESET 1/0 ab", "RESET 1/1", "RESET 2/0", "RESET 0/0"];
    let bad_acks = [
        "RESET ACK 1/1 ab",
        "RESET ACK 2/1",
        "RESET ACK 1/0",
        "RESET ACK 2/2 ab",
    ];
    for name in bad.iter().chain(&bad_acks) {
        assert_eq!(session.hears(name), "NACK 1/0", "{name}");
    }
    assert_eq!(session.hears_bytes(b"noise"), "NACK 1/0");
    assert_eq!(session, Session::new());
    session.hears("RESET 1/0");
    for name in bad.iter().chain(&bad_acks) {
        assert_eq!(session.hears(name), "NACK 1/1", "{name}");
    }
    assert_eq!(session.hears_bytes(&[]), "NACK 1/1");
    assert_eq!(session.state(), (1, 1, true, vec![]));
}

#[test]
fn reset_ack_with_data_ends_the_wait() {
    let mut session = Session::new();
    assert_eq!(session.hears("RESET ACK 2/1 ab"), "ACK 1/2, up ab");
    assert_eq!(session.state(), (1, 2, false, vec![]));
    assert_eq!(session.hears("ACK 3/0 cd"), "ACK 1/3, up cd");
}

#[test]
fn reset_ack_not_awaited_is_ignored() {
    let mut session = holding_two();
    for name in [
        "RESET ACK 1/1",
        "RESET ACK 2/1 ab",
        "RESET ACK 2/3 ab",
        "RESET ACK 0/0",
    ] {
        assert_eq!(session.hears(name), "", "{name}");
    }
    assert_eq!(session, holding_two());
    let mut damaged = RESET_ACK;
    damaged[6] ^= 1;
    assert_eq!(session.hears_bytes(&damaged), "NACK 3/1");
    assert_eq!(session, holding_two());
}

#[test]
fn timeouts_repeat_what_is_held_any_number_of_times() {
    let mut session = Session::new();
    assert_eq!(session.waits(), "");
    assert_eq!(session, Session::new());
    let mut session = holding_two();
    for _ in 0..10 {
        assert_eq!(session.waits(), "ACK 2/1 ab, ACK 3/1 cd");
    }
    assert_eq!(session, holding_two());
}

#[test]
fn our_counter_goes_from_7_to_1() {
    let mut session = open();
    for ofc in [2, 3, 4, 5, 6, 7, 1, 2] {
        assert_eq!(session.sends("a"), format!("ACK {ofc}/1 a"));
        assert_eq!(session.hears(&format!("ACK 1/{ofc}")), "");
        assert_eq!(session.held, []);
    }
}

#[test]
fn the_peers_counter_goes_from_7_to_1() {
    let mut session = open();
    for ofc in [2, 3, 4, 5, 6, 7] {
        let heard = session.hears(&format!("ACK {ofc}/0 a"));
        assert_eq!(heard, format!("ACK 1/{ofc}, up a"));
    }
    assert_eq!(session.hears("ACK 0/0 a"), "NACK 1/7");
    assert_eq!(session.hears("NACK 1/0 a"), "ACK 1/1, up a");
}

#[test]
fn an_afc_of_0_names_nothing() {
    let mut session = holding_two();
    assert_eq!(session.hears("ACK 0/0"), "");
    assert_eq!(session.hears("NACK 0/0"), "ACK 2/1 ab, ACK 3/1 cd");
    assert_eq!(session, holding_two());
}

#[test]
fn cover_is_cumulative() {
    for (afc, left) in [(2, vec![3]), (3, vec![]), (1, vec![2, 3]), (4, vec![2, 3])] {
        let mut session = holding_two();
        assert_eq!(session.hears(&format!("ACK 5/{afc}")), "");
        assert_eq!(session.state(), (3, 1, false, left));
    }
    let mut session = holding_two();
    assert_eq!(session.hears("NACK 5/2"), "ACK 3/1 cd");
    assert_eq!(session.hears("NACK 5/2"), "ACK 3/1 cd");
    assert_eq!(session.hears("NACK 5/3"), "");
    assert_eq!(session.hears("NACK 5/3"), "");
}

#[test]
fn data_that_is_not_next_only_gets_a_nack() {
    for name in [
        "ACK 1/3 ef",
        "ACK 3/3 ef",
        "ACK 0/2 ef",
        "NACK 1/2 ef",
        "NACK 3/0 ef",
    ] {
        let mut session = holding_two();
        assert_eq!(session.hears(name), "NACK 3/1", "{name}");
        assert_eq!(session, holding_two());
    }
}

#[test]
fn the_ofc_of_an_empty_ack_is_not_looked_at() {
    for ofc in 0..=7 {
        let mut session = holding_two();
        assert_eq!(session.hears(&format!("ACK {ofc}/2")), "");
        assert_eq!(session.hears(&format!("NACK {ofc}/1")), "ACK 3/1 cd");
        assert_eq!(session.state(), (3, 1, false, vec![3]));
    }
}

#[test]
fn a_nack_with_good_data() {
    let mut session = holding_two();
    let heard = session.hears("NACK 2/1 ef");
    assert_eq!(heard, "ACK 2/2 ab, ACK 3/2 cd, ACK 3/2, up ef");
    assert_eq!(session.hears("NACK 3/2 gh"), "ACK 3/3 cd, ACK 3/3, up gh");
    assert_eq!(session.hears("NACK 4/3 ij"), "ACK 3/4, up ij");
    assert_eq!(session.state(), (3, 4, false, vec![]));
}

#[test]
fn an_ack_with_good_data_repeats_nothing() {
    let mut session = holding_two();
    assert_eq!(session.hears("ACK 2/2 ef"), "ACK 3/2, up ef");
    assert_eq!(session.waits(), "ACK 3/2 cd");
}

#[test]
fn stuffed_data_is_held_as_it_was_given() {
    let data = [0x7e, 0x7d, 0x11, 0x13, 0xf8];
    let mut session = open();
    let first = session.send(OUTPUT_MIN, &data).expect("a frame");
    assert_eq!(first.sent, Parts::new(0x91, &data).frame());
    assert_eq!(session.held[0].data, data);
    session.hears("ACK 2/0 ab");
    let again = session.timeout(OUTPUT_MIN).expect("a frame");
    assert_eq!(again.sent, Parts::new(0x92, &data).frame());
}

#[test]
fn the_longest_answer() {
    let longest = "a".repeat(57);
    let mut session = open();
    session.sends(&longest);
    session.sends(&longest);
    let frame = frame(&format!("NACK 2/0 {longest}"));
    let answer = session.receive(OUTPUT_MIN, PAYLOAD_MAX, &frame);
    let lengths = answer.map(|answer| (answer.sent.len(), answer.payload.map(|up| up.len())));
    assert_eq!(lengths, Ok((OUTPUT_MIN, Some(57))));
}

#[test]
fn every_event_asks_its_room_first() {
    let mut session = holding_two();
    assert_eq!(said(session.reset(134)), "refused 7");
    assert_eq!(said(session.timeout(134)), "refused 7");
    assert_eq!(said(session.send(134, b"")), "refused 7");
    assert_eq!(said(session.receive(134, 57, b"noise")), "refused 7");
    assert_eq!(said(session.receive(135, 56, b"noise")), "refused 7");
    assert_eq!(
        said(session.receive(135, 56, &frame("ACK 1/3"))),
        "refused 7"
    );
    assert_eq!(session, holding_two());
    assert_eq!(said(Session::new().send(134, b"ab")), "refused 7");
    assert_eq!(said(Session::new().timeout(134)), "refused 7");
}

#[test]
fn refusals_of_a_send_in_their_order() {
    let long = "a".repeat(58);
    for data in ["", "ab", &long] {
        assert_eq!(Session::new().sends(data), "refused 28");
        assert_eq!(holding_two().sends(data), "refused 29");
    }
    let mut session = open();
    assert_eq!(session.sends(""), "refused 22");
    assert_eq!(session.sends(&long), "refused 22");
    assert_eq!(said(session.send(OUTPUT_MIN, &[0x7e; 29])), "refused 22");
    assert_eq!(session, open());
    assert_eq!(
        session.sends(&long[..57]),
        format!("ACK 2/1 {}", &long[..57])
    );
    assert!(session.send(OUTPUT_MIN, &[0x7e; 28]).is_ok());
}
