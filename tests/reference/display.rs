//! The calls of the whole display, from document 01 and request C-13: the receiver with its board,
//! and the sender, which hears the acknowledgements that the receiver hears.

use crate::receiver::{self, Call, Receiver};
use crate::sender::{Refusal, Sender, Sent, Timeout};

#[derive(Clone, Debug, Default)]
pub struct Display {
    pub receiver: Receiver,
    pub sender: Sender,
}

impl Display {
    /// The receiver's call. Only a heard acknowledgement reaches the sender.
    pub fn take(&mut self, piece: &[u8], reply_room: usize, packet_room: usize) -> Call {
        let call = self.receiver.take(piece, reply_room, packet_room);
        if let receiver::Answer::Heard(sequence) = call.answer {
            self.sender.hear(sequence);
        }
        call
    }

    pub fn send(&mut self, room: usize, payload: &[u8]) -> Result<Sent, Refusal> {
        self.sender.send(room, payload)
    }

    pub fn timeout(&mut self, room: usize) -> Result<Timeout, Refusal> {
        self.sender.timeout(room)
    }

    pub fn tick(&mut self) {
        self.receiver.board.tick();
    }
}

#[cfg(test)]
mod known_lists {
    use super::*;
    use crate::frame::enclose;
    use crate::receiver::{ACKNOWLEDGEMENT, DATA, PACKET_MIN, REPLY_MIN};

    /// A display that holds the empty frame of sequence 0.
    fn holding() -> Display {
        let mut display = Display::default();
        assert!(display.send(6, &[]).is_ok());
        display
    }

    fn take(display: &mut Display, piece: &[u8]) -> receiver::Answer {
        display.take(piece, REPLY_MIN, PACKET_MIN).answer
    }

    /// Freed at the closing flag, also if its bytes began before the send.
    #[test]
    fn freed_by_its_acknowledgement() {
        let mut display = Display::default();
        take(&mut display, &[0x7e, 0x02, 0x00]);
        display.send(6, &[]).expect("room enough");
        take(&mut display, &[0x7b, 0x6d]);
        assert!(display.sender.held.is_some());
        let heard = receiver::Answer::Heard(0);
        assert_eq!(take(&mut display, &[0x7e]), heard);
        assert_eq!(display.sender.held, None);
        assert_eq!(take(&mut display, &[0x02, 0x00, 0x7b, 0x6d, 0x7e]), heard);
        assert_eq!(display.sender.next, 1);
    }

    #[test]
    fn not_freed_by_anything_else() {
        let acknowledgement = enclose(ACKNOWLEDGEMENT, 0, &[]);
        let mut damaged = acknowledgement.clone();
        damaged[3] ^= 1;
        let frames = [
            enclose(ACKNOWLEDGEMENT, 1, &[]),
            enclose(ACKNOWLEDGEMENT, 0, &[0]),
            enclose(DATA, 0, &[]),
            damaged,
        ];
        let mut display = holding();
        let before = display.sender.clone();
        for frame in frames {
            take(&mut display, &frame);
            assert_eq!(display.sender, before);
        }
        display.take(&acknowledgement, REPLY_MIN - 1, PACKET_MIN);
        display.tick();
        assert_eq!(display.sender, before);
    }
}
