//! What `run_cases` has to print behind the label of a line: the answer, then each lent buffer.

use crate::ash;
use crate::cutter::Cut;
use crate::events::Event;
use crate::lent::lent;
use crate::line_bytes::hex;
use crate::session::{Answer, Refusal, Session};

pub fn of_event(event: &Event, answer: &Result<Answer, Refusal>) -> String {
    let nothing = Answer::default();
    let (text, answer) = match answer {
        Ok(answer) => (told(answer), answer),
        Err(refusal) => (format!("refused {}", refusal.number()), &nothing),
    };
    let output = lent(&answer.sent, event.room());
    match event {
        Event::Receive { payload_room, .. } => {
            let payload = answer.payload.as_deref().unwrap_or_default();
            format!("{text} {output} {}", lent(payload, *payload_room))
        }
        _ => format!("{text} {output}"),
    }
}

fn told(answer: &Answer) -> String {
    let payload = answer.payload.as_ref().map_or(0, Vec::len);
    let dropped = answer.dropped.iter().map(|ofc| format!(" {ofc}"));
    let dropped: String = dropped.collect();
    format!(
        "sent {} payload {payload} dropped{dropped}",
        answer.sent.len()
    )
}

pub fn of_session(session: &Session) -> String {
    let mut text = format!("counter {} good {}", session.counter, session.good);
    if session.awaiting {
        text.push_str(" awaiting");
    }
    for held in &session.held {
        text.push_str(&format!(" held {} {}", held.ofc, hex(&held.data)));
    }
    text
}

pub fn of_cut(cut: &Result<Cut, ash::Refusal>, room: usize) -> String {
    let (text, frame) = match cut {
        Ok(Cut { taken, frame }) => match frame {
            Some(frame) => (format!("taken {taken} frame {}", frame.len()), &frame[..]),
            None => (format!("taken {taken}"), &[][..]),
        },
        Err(refusal) => (format!("refused {} taken 0", refusal.number()), &[][..]),
    };
    format!("{text} {}", lent(frame, room))
}
