//! The board, from document 01 ("Items and packets", "The board" and refusals 11 to 14), written for
//! reading and not for speed.

use crate::packet::{self, is_name, read_packet, Item, Packet, BOOLEAN, CENTS, EOF, INTEGER, NAME};

/// The opcode that the board reads.
pub const UPDATE: u8 = 0x03;

/// The age at which a row is silent.
const SILENT_FROM: u64 = 30;

/// Why a packet is no update and no end mark. Two of the numbers have several reasons.
#[derive(Clone, Copy, Debug, PartialEq, Eq)]
pub enum Refusal {
    Packet(packet::Refusal),
    OtherOpcode,
    NoName,
    SeveralNames,
    BadName,
    /// "A Name item with nothing behind it has no value."
    NothingBehind,
    EofBehind,
    OtherType,
    BadInteger,
    BadCents,
    BadBoolean,
    NotWatched,
}

impl Refusal {
    pub fn number(self) -> u8 {
        match self {
            Refusal::Packet(refusal) => refusal.number(),
            Refusal::OtherOpcode => 11,
            Refusal::NoName | Refusal::SeveralNames | Refusal::BadName => 12,
            Refusal::NothingBehind
            | Refusal::EofBehind
            | Refusal::OtherType
            | Refusal::BadInteger
            | Refusal::BadCents
            | Refusal::BadBoolean => 13,
            Refusal::NotWatched => 14,
        }
    }
}

/// What a packet is to the board.
#[derive(Clone, Copy, Debug, PartialEq, Eq)]
pub enum Reading {
    Update { row: usize, id: u16, value: i64 },
    EndMark { id: u16 },
}

/// A watched name, with the value of its last update and the ticks since.
#[derive(Clone, Debug)]
pub struct Row {
    pub name: Vec<u8>,
    update: Option<(i64, u64)>,
}

#[derive(Clone, Debug, Default)]
pub struct Board {
    pub rows: Vec<Row>,
}

impl Board {
    /// Puts a name behind the others.
    pub fn watch(&mut self, name: &[u8]) {
        self.rows.push(Row {
            name: name.to_vec(),
            update: None,
        });
    }

    /// What a packet is, with 9, 10, 11, 12, 13 and 14 in this order.
    pub fn read(&self, bytes: &[u8]) -> Result<Reading, Refusal> {
        let packet = read_packet(bytes).map_err(Refusal::Packet)?;
        if packet.opcode != UPDATE {
            return Err(Refusal::OtherOpcode);
        }
        let id = packet.id;
        if packet.look(NAME).count == 0 && packet.look(EOF).count > 0 {
            return Ok(Reading::EndMark { id });
        }
        let name = name_of(&packet)?;
        let behind = packet.look(NAME).behind.ok_or(Refusal::NothingBehind)?;
        let value = read_value(&behind)?;
        let row = self.rows.iter().position(|row| row.name == name);
        let row = row.ok_or(Refusal::NotWatched)?;
        Ok(Reading::Update { row, id, value })
    }

    /// An accepted update makes its row current; an end mark or a refused packet changes nothing.
    pub fn take(&mut self, bytes: &[u8]) -> Result<Reading, Refusal> {
        let reading = self.read(bytes)?;
        if let Reading::Update { row, value, .. } = reading {
            self.rows[row].update = Some((value, 0));
        }
        Ok(reading)
    }

    pub fn tick(&mut self) {
        for (_, ticks) in self.rows.iter_mut().flat_map(|row| &mut row.update) {
            *ticks += 1;
        }
    }

    /// The rows as they are printed ("Program and C host").
    pub fn shown(&self) -> String {
        self.rows.iter().map(Row::shown).collect()
    }
}

impl Row {
    fn shown(&self) -> String {
        let name = String::from_utf8_lossy(&self.name);
        match self.update {
            None => format!("{name} never\n"),
            Some((_, ticks)) if ticks >= SILENT_FROM => format!("{name} silent\n"),
            Some((value, ticks)) => format!("{name} current {value} {ticks}\n"),
        }
    }
}

/// The value of the only Name.
fn name_of<'a>(packet: &Packet<'a>) -> Result<&'a [u8], Refusal> {
    let look = packet.look(NAME);
    let name = look.first.ok_or(Refusal::NoName)?.value;
    if look.count > 1 {
        return Err(Refusal::SeveralNames);
    }
    if !is_name(name) {
        return Err(Refusal::BadName);
    }
    Ok(name)
}

/// "Value types: Integer (02) and Cents (16) of 1, 2, 4 or 8 bytes, signed, high byte first; Boolean
/// (0f) of one byte, 0 or 1."
pub fn read_value(item: &Item) -> Result<i64, Refusal> {
    match item.kind {
        INTEGER => signed(item.value).ok_or(Refusal::BadInteger),
        CENTS => signed(item.value).ok_or(Refusal::BadCents),
        BOOLEAN => match *item.value {
            [byte @ (0 | 1)] => Ok(i64::from(byte)),
            _ => Err(Refusal::BadBoolean),
        },
        EOF => Err(Refusal::EofBehind),
        _ => Err(Refusal::OtherType),
    }
}

fn signed(bytes: &[u8]) -> Option<i64> {
    match *bytes {
        [a] => Some(i64::from(i8::from_be_bytes([a]))),
        [a, b] => Some(i64::from(i16::from_be_bytes([a, b]))),
        [a, b, c, d] => Some(i64::from(i32::from_be_bytes([a, b, c, d]))),
        [a, b, c, d, e, f, g, h] => Some(i64::from_be_bytes([a, b, c, d, e, f, g, h])),
        _ => None,
    }
}

#[cfg(test)]
mod known_answers {
    use super::*;
    use crate::packet::CASE_6;

    fn board() -> Board {
        let mut board = Board::default();
        board.watch(b"h1");
        board.watch(b"h2");
        board
    }

    /// What the board says of a packet with these items.
    fn read(items: &[u8]) -> Result<Reading, u8> {
        let packet = [b"\x01\x03\x00\x00", items].concat();
        board().read(&packet).map_err(Refusal::number)
    }

    fn value(kind: u8, value: &[u8]) -> Result<i64, u8> {
        let start = 2;
        let item = Item { kind, start, value };
        read_value(&item).map_err(Refusal::number)
    }

    #[test]
    fn case_6_and_one_tick() {
        let mut board = board();
        let update = Reading::Update {
            row: 0,
            id: 0,
            value: 3450,
        };
        assert_eq!(board.take(CASE_6), Ok(update));
        board.tick();
        assert_eq!(board.shown(), "h1 current 3450 1\nh2 never\n");
    }

    #[test]
    fn cases_7_to_9() {
        assert_eq!(value(INTEGER, &[0xff, 0x38]), Ok(-200));
        assert_eq!(value(INTEGER, &[0x80]), Ok(-128));
        assert_eq!(value(CENTS, &[0x00, 0x00, 0x26, 0x90]), Ok(9872));
        assert_eq!(value(INTEGER, &[0x00, 0x00, 0x01]), Err(13));
    }

    #[test]
    fn case_10() {
        let mut board = board();
        board.take(CASE_6).expect("an update");
        (0..29).for_each(|_| board.tick());
        assert_eq!(board.shown(), "h1 current 3450 29\nh2 never\n");
        board.tick();
        assert_eq!(board.shown(), "h1 silent\nh2 never\n");
    }

    #[test]
    fn values_that_are_bad() {
        assert_eq!(value(BOOLEAN, &[1]), Ok(1));
        assert_eq!(value(BOOLEAN, &[2]), Err(13));
        assert_eq!(value(BOOLEAN, &[0, 1]), Err(13));
        assert_eq!(value(0x03, &[1]), Err(13));
        assert_eq!(value(INTEGER, &[]), Err(13));
    }

    #[test]
    fn end_marks_and_refusals() {
        assert_eq!(read(b"\x14\x00"), Ok(Reading::EndMark { id: 0 }));
        assert_eq!(
            read(b"\x02\x01\x05\x14\x00\x14\x00"),
            Ok(Reading::EndMark { id: 0 })
        );
        assert_eq!(read(b""), Err(12));
        assert_eq!(read(b"\x01\x02h1\x01\x02h2"), Err(12));
        assert_eq!(read(b"\x01\x021h\x14\x00"), Err(12));
        assert_eq!(read(b"\x01\x02h3"), Err(13));
        assert_eq!(read(b"\x01\x02h1\x14\x00\x02\x01\x05"), Err(13));
        assert_eq!(read(b"\x02\x01\x05\x01\x02h1"), Err(13));
        assert_eq!(read(b"\x01\x02h3\x02\x01\x05"), Err(14));
        assert_eq!(read(b"\x01\x021h\x02\x01"), Err(10));
        assert_eq!(
            board().read(b"\x01\x0b\x00\x00\x14\x00"),
            Err(Refusal::OtherOpcode)
        );
    }
}
