//! The stored cases of `run_cases`, held to the reference.

use crate::cases::{Event, Observed, ROOM_BYTES, SUBJECT};
use crate::frame::enclose;
use crate::stored::{self, Line};

/// What is printed behind the calls of a line cut at every place. It tells how the program's own
/// answers compare with each other, which is not the reference's to say.
const OF_ALL_CUTS: [&str; 3] = ["check ", "cuts ", "byte by byte "];

fn number(bytes: &[u8]) -> usize {
    bytes.iter().fold(0, |n, byte| n << 8 | usize::from(*byte))
}

/// The room, and the payload behind it.
fn send(bytes: &[u8]) -> Event {
    let (room, payload) = bytes.split_at(ROOM_BYTES);
    Event::Send {
        room: number(room),
        payload: payload.to_vec(),
    }
}

/// All that is printed for a line.
fn answer(observed: &mut Observed, line: Line) -> String {
    let mut meet = |event: Event| observed.meet(&event, line.label).wanted;
    match line.key {
        's' => {
            *observed = Observed::new();
            format!("{}\n", line.label)
        }
        'f' => meet(Event::Piece(line.bytes)),
        'z' => meet(Event::Zeros(number(&line.bytes))),
        'b' => meet(Event::ShortBuffers(line.bytes)),
        't' => meet(Event::Tick),
        'c' => observed.shown(),
        'd' => meet(send(&line.bytes)),
        'o' => {
            let room = number(&line.bytes);
            meet(Event::Timeout { room })
        }
        'h' => observed.sender_shown(),
        // So many acknowledgements, whose calls are not printed.
        'a' => {
            (0..number(&line.bytes)).for_each(|_| drop(meet(Event::Piece(enclose(2, 1, &[])))));
            String::new()
        }
        'k' => meet(Event::Piece(line.bytes)) + &observed.shown(),
        key => panic!("no such key: {key}"),
    }
}

#[test]
fn of_displays() {
    let mut observed = Observed::new();
    let answers: String = stored::lines(SUBJECT)
        .map(|line| answer(&mut observed, line))
        .collect();
    let printed = stored::printed(SUBJECT)
        .filter(|line| !OF_ALL_CUTS.iter().any(|start| line.starts_with(start)));
    let printed: Vec<&str> = printed.collect();
    for (answer, printed) in answers.lines().zip(&printed) {
        assert_eq!(answer, *printed);
    }
    assert_eq!(answers.lines().count(), printed.len());
    assert!(printed.len() > 1000);
}
