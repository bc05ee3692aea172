//! What `run_cases` has to print for the calls of a display, and for its sender.

use crate::board::Reading;
use crate::lent::lent;
use crate::line_bytes::hex;
use crate::receiver::{Answer, Call};
use crate::sender::{Refusal, Sender, Sent, Timeout};

/// The line of a call with a piece.
pub fn of_call(call: &Call) -> String {
    let answer = match &call.answer {
        Answer::Nothing => "nothing".to_string(),
        Answer::Refused(refusal) => {
            format!("refused {} place {}", refusal.number(), refusal.place())
        }
        Answer::Heard(sequence) => format!("heard {sequence}"),
        Answer::Again { reply } => format!("again reply {}", hex(reply)),
        Answer::New {
            reply,
            packet,
            reading,
        } => {
            let reading = match reading {
                Ok(Reading::Update { row, id, .. }) => format!("row {row} id {id}"),
                Ok(Reading::EndMark { id }) => format!("end mark, id {id}"),
                Err(refusal) => format!("unread {}", refusal.number()),
            };
            format!("new reply {} packet {} {reading}", hex(reply), hex(packet))
        }
    };
    format!("taken {} {answer}\n", call.taken)
}

/// The line of a send with an output of this length.
pub fn of_send(answer: &Result<Sent, Refusal>, room: usize) -> String {
    match answer {
        Ok(sent) => of_frame("sent", sent, room),
        Err(refusal) => of_refused(*refusal, room),
    }
}

/// The line of a timeout with such an output.
pub fn of_timeout(answer: &Result<Timeout, Refusal>, room: usize) -> String {
    match answer {
        Ok(Timeout::Repeated(sent)) => of_frame("repeated", sent, room),
        Ok(Timeout::Dropped(sequence)) => {
            format!("dropped {sequence} {}\n", lent(&[], room))
        }
        Ok(Timeout::Nothing) => format!("nothing {}\n", lent(&[], room)),
        Err(refusal) => of_refused(*refusal, room),
    }
}

fn of_frame(how: &str, sent: &Sent, room: usize) -> String {
    let output = lent(&sent.frame, room);
    format!(
        "{how} {} length {} {output}\n",
        sent.sequence,
        sent.frame.len()
    )
}

fn of_refused(refusal: Refusal, room: usize) -> String {
    format!("refused {} {}\n", refusal.number(), lent(&[], room))
}

pub fn of_sender(sender: &Sender) -> String {
    let held = match &sender.held {
        None => "nothing".to_string(),
        Some(held) => format!(
            "{} repeats {} payload {}",
            held.sequence,
            held.repeats,
            hex(&held.payload)
        ),
    };
    format!("next {} held {held}\n", sender.next)
}
