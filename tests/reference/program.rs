//! The program of document 01, sections "Program and C host" and "The ledger", with the watch list of
//! request C-20, written for reading and not for speed. The replay test holds the program `replay` to this.

use crate::receiver::{Answer, Receiver, PACKET_MIN, REPLY_MIN};
use crate::watch_list::{self, split_field};

const FIELD_MAX: usize = 4096;

#[derive(Default)]
struct Program {
    receiver: Receiver,
    printed: String,
}

/// All that the program prints for a history.
pub fn output(history: &[u8]) -> String {
    let mut program = Program::default();
    let mut listing = true;
    let mut rest = history;
    while !rest.is_empty() {
        let Ok((tag, value, behind)) = split_field(rest) else {
            return program.broken();
        };
        let good = match tag {
            1 => listing && watch_list::join(&mut program.receiver.board, value).is_ok(),
            2 => program.receive(value),
            3 => program.tick(value),
            _ => false,
        };
        if !good {
            return program.broken();
        }
        listing &= tag == 1;
        rest = behind;
    }
    program.report()
}

impl Program {
    fn broken(mut self) -> String {
        self.printed.push_str("refused 15\n");
        self.printed
    }

    fn tick(&mut self, value: &[u8]) -> bool {
        self.receiver.board.tick();
        value.is_empty()
    }

    /// A field that is too long is broken as a whole.
    fn receive(&mut self, bytes: &[u8]) -> bool {
        if bytes.len() > FIELD_MAX {
            return false;
        }
        let mut rest = bytes;
        while !rest.is_empty() {
            let call = self.receiver.take(rest, REPLY_MIN, PACKET_MIN);
            if let Answer::Again { reply } | Answer::New { reply, .. } = call.answer {
                let hex: String = reply.iter().map(|byte| format!("{byte:02x}")).collect();
                self.printed.push_str(&format!("reply {hex}\n"));
            }
            rest = &rest[call.taken..];
        }
        true
    }

    fn report(self) -> String {
        let Receiver { board, counts, .. } = self.receiver;
        self.printed + &board.shown() + &counts.shown()
    }
}

#[cfg(test)]
mod known_answer {
    use super::output;

    #[test]
    fn whole_output_of_document_01() {
        let names = b"\x01\x00\x02h1\x01\x00\x02h2";
        let frame = b"\x02\x00\x14\x7e\x01\x00\x01\x03\x00\x00\x01\x02h1\x16\x04\x00\x00\x0d\x7a\x1a\xa4\x7e";
        let history = [&names[..], frame, b"\x03\x00\x00"].concat();
        let expected = "reply 7e02007b6d7e\nh1 current 3450 1\nh2 never\n\
            new 1 again 0 heard 0 unread 0\nrefused 0 0 0 0 0 0\n";
        assert_eq!(output(&history), expected);
    }
}
