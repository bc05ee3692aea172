//! The stored cases of `run_cases`, held to the reference.

use crate::cases::{CUTTER_SUBJECT, SESSION_SUBJECT};
use crate::cutter::Cutter;
use crate::events::{Event, OUTPUT_MAX, PAYLOAD_ROOM_MAX};
use crate::pieces::ROOM_MAX;
use crate::printed;
use crate::session::Session;
use crate::stored::{self, Line};

/// The event of a line, unless the program does not run it.
fn event(line: &Line) -> Option<Event> {
    let (&room, bytes) = line.bytes.split_first()?;
    let room = usize::from(room);
    let event = match (line.key, bytes) {
        ('r', []) => Event::Reset { room },
        ('t', []) => Event::Timeout { room },
        ('s', data) => Event::Send {
            room,
            data: data.to_vec(),
        },
        ('f', [payload_room, frame @ ..]) => Event::Receive {
            room,
            payload_room: usize::from(*payload_room),
            frame: frame.to_vec(),
        },
        _ => return None,
    };
    let lent = match &event {
        Event::Receive { payload_room, .. } => *payload_room <= PAYLOAD_ROOM_MAX,
        _ => true,
    };
    (lent && room <= OUTPUT_MAX).then_some(event)
}

/// What the reference says of each line of a session that is printed.
fn session_answers() -> Vec<String> {
    let mut session = Session::new();
    let mut marked = Session::new();
    let mut answers = Vec::new();
    for line in stored::lines(SESSION_SUBJECT) {
        match line.key {
            'n' => session = Session::new(),
            'm' => marked = session.clone(),
            'b' => session = marked.clone(),
            'q' => answers.push(format!("{}: {}", line.label, printed::of_session(&session))),
            _ => answers.extend(event(&line).map(|event| {
                let answer = event.meet(&mut session);
                format!("{}: {}", line.label, printed::of_event(&event, &answer))
            })),
        }
    }
    answers
}

fn cutter_answers() -> Vec<String> {
    let mut cutter = Cutter::new();
    let mut answers = Vec::new();
    for line in stored::lines(CUTTER_SUBJECT) {
        match (line.key, &line.bytes[..]) {
            ('n', _) => cutter = Cutter::new(),
            ('p', [room, piece @ ..]) if usize::from(*room) <= ROOM_MAX => {
                let room = usize::from(*room);
                let cut = cutter.take(room, piece);
                answers.push(format!("{}: {}", line.label, printed::of_cut(&cut, room)));
            }
            _ => {}
        }
    }
    answers
}

fn compare(subject: &str, answers: Vec<String>) {
    let printed: Vec<&str> = stored::printed(subject).collect();
    for (answer, printed) in answers.iter().zip(&printed) {
        assert_eq!(answer, printed);
    }
    assert_eq!(answers.len(), printed.len());
    assert!(!answers.is_empty());
}

#[test]
fn of_sessions() {
    compare(SESSION_SUBJECT, session_answers());
}

#[test]
fn of_the_cutter() {
    compare(CUTTER_SUBJECT, cutter_answers());
}
