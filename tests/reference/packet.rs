//! Items and packets, from document 01 ("Items and packets" and refusals 9 and 10), written for
//! reading and not for speed. The board's rules and those of file fragments rest on this.

// Types of items.
pub const NAME: u8 = 0x01;
pub const INTEGER: u8 = 0x02;
pub const BINARY: u8 = 0x04;
pub const BOOLEAN: u8 = 0x0f;
pub const OFFSET: u8 = 0x11;
pub const LENGTH: u8 = 0x12;
pub const LOCATION: u8 = 0x13;
pub const EOF: u8 = 0x14;
pub const CENTS: u8 = 0x16;

/// The first byte of a packet.
pub const DATA: u8 = 0x01;

/// What stands before the items: 01, the opcode and the request id.
pub const HEAD: usize = 4;

/// The payload of case 6, which sets h1 to 3450.
pub const CASE_6: &[u8] = b"\x01\x03\x00\x00\x01\x02h1\x16\x04\x00\x00\x0d\x7a";

/// Why bytes are no packet.
#[derive(Clone, Copy, Debug, PartialEq, Eq)]
pub enum Refusal {
    ShortPacket,
    WrongFirstByte,
    /// A last byte that is a type, with no length behind it.
    TypeAlone,
    /// Fewer value bytes than the length says.
    CutValue,
    EofWithLength,
}

impl Refusal {
    pub fn number(self) -> u8 {
        match self {
            Refusal::ShortPacket | Refusal::WrongFirstByte => 9,
            Refusal::TypeAlone | Refusal::CutValue | Refusal::EofWithLength => 10,
        }
    }
}

/// An item, and the place where its value starts.
#[derive(Clone, Copy, Debug, PartialEq, Eq)]
pub struct Item<'a> {
    pub kind: u8,
    pub start: usize,
    pub value: &'a [u8],
}

impl Item<'_> {
    /// The place behind the item.
    pub fn end(&self) -> usize {
        self.start + self.value.len()
    }
}

/// "An item is a type byte, a length byte N and N value bytes."
fn item_at(bytes: &[u8], at: usize) -> Result<Item<'_>, Refusal> {
    let kind = bytes[at];
    let length = usize::from(*bytes.get(at + 1).ok_or(Refusal::TypeAlone)?);
    let start = at + 2;
    let value = bytes.get(start..start + length);
    let value = value.ok_or(Refusal::CutValue)?;
    if kind == EOF && length != 0 {
        return Err(Refusal::EofWithLength);
    }
    Ok(Item { kind, start, value })
}

/// The items of any bytes from a place on: those before the first fault, and the fault.
pub fn items_before_fault(bytes: &[u8], from: usize) -> (Vec<Item<'_>>, Option<Refusal>) {
    let mut items = Vec::new();
    let mut at = from;
    while at < bytes.len() {
        match item_at(bytes, at) {
            Ok(item) => {
                at = item.end();
                items.push(item);
            }
            Err(refusal) => return (items, Some(refusal)),
        }
    }
    (items, None)
}

/// The items of any bytes from a place on, which they fill exactly.
pub fn items(bytes: &[u8], from: usize) -> Result<Vec<Item<'_>>, Refusal> {
    match items_before_fault(bytes, from) {
        (items, None) => Ok(items),
        (_, Some(refusal)) => Err(refusal),
    }
}

/// "A data packet is 01, opcode, request id (two bytes, high first), items."
#[derive(Clone, Debug, PartialEq, Eq)]
pub struct Packet<'a> {
    pub opcode: u8,
    pub id: u16,
    pub items: Vec<Item<'a>>,
}

/// The packet of its bytes; 9 comes before 10.
pub fn read_packet(bytes: &[u8]) -> Result<Packet<'_>, Refusal> {
    let [first, opcode, high, low, ..] = *bytes else {
        return Err(Refusal::ShortPacket);
    };
    if first != DATA {
        return Err(Refusal::WrongFirstByte);
    }
    Ok(Packet {
        opcode,
        id: u16::from_be_bytes([high, low]),
        items: items(bytes, HEAD)?,
    })
}

/// What a packet has of one type: how many items, the first of them, and the item right behind that
/// one, of whatever type it is.
#[derive(Clone, Copy, Debug, Default, PartialEq, Eq)]
pub struct Look<'a> {
    pub count: usize,
    pub first: Option<Item<'a>>,
    pub behind: Option<Item<'a>>,
}

impl<'a> Packet<'a> {
    pub fn look(&self, kind: u8) -> Look<'a> {
        let is_of_kind = |item: &&Item| item.kind == kind;
        let mut from_first = self.items.iter().skip_while(|item| item.kind != kind);
        Look {
            count: self.items.iter().filter(is_of_kind).count(),
            first: from_first.next().copied(),
            behind: from_first.next().copied(),
        }
    }
}

/// "Names have 1 to 27 bytes: ASCII letters, digits, hyphen, underscore; the first is a letter."
pub fn is_name(bytes: &[u8]) -> bool {
    let in_name = |byte: &u8| byte.is_ascii_alphanumeric() || b"-_".contains(byte);
    bytes.len() <= 27
        && bytes.first().is_some_and(u8::is_ascii_alphabetic)
        && bytes.iter().all(in_name)
}

/// "Locations have 1 to 64 bytes."
pub fn is_location(bytes: &[u8]) -> bool {
    (1..=64).contains(&bytes.len())
}

#[cfg(test)]
mod known_answers {
    use super::*;

    fn refused(bytes: &[u8]) -> u8 {
        read_packet(bytes).expect_err("a refusal").number()
    }

    #[test]
    fn case_6() {
        let packet = read_packet(CASE_6).expect("a packet");
        assert_eq!((packet.opcode, packet.id, packet.items.len()), (3, 0, 2));
        let value = Item {
            kind: CENTS,
            start: 10,
            value: &[0, 0, 0x0d, 0x7a],
        };
        let look = packet.look(NAME);
        assert_eq!((look.count, look.behind), (1, Some(value)));
        let first = look.first.expect("a Name");
        assert_eq!((first.start, first.value), (6, &b"h1"[..]));
        let look = packet.look(CENTS);
        assert_eq!(
            (look.count, look.first, look.behind),
            (1, Some(value), None)
        );
        assert_eq!(packet.look(EOF), Look::default());
    }

    #[test]
    fn case_6_cut_at_each_byte() {
        let numbers: Vec<u8> = (0..CASE_6.len())
            .filter(|length| ![4, 8].contains(length))
            .map(|length| refused(&CASE_6[..length]))
            .collect();
        assert_eq!(numbers, [9, 9, 9, 9, 10, 10, 10, 10, 10, 10, 10, 10]);
        assert!(read_packet(&CASE_6[..4]).is_ok() && read_packet(&CASE_6[..8]).is_ok());
    }

    #[test]
    fn refusals_in_their_order() {
        assert_eq!(refused(b"\x02\x03\x00\x00\x14"), 9);
        assert_eq!(refused(b"\x01\x03\x00\x00\x14\x01\x00"), 10);
        assert_eq!(refused(b"\x01\x0b\x00\x00\x01\x02h"), 10);
        let id = read_packet(b"\x01\x03\x12\x34").map(|packet| packet.id);
        assert_eq!(id, Ok(0x1234));
    }

    #[test]
    fn items_of_bytes_that_are_no_packet() {
        assert_eq!(items(&[], 0), Ok(Vec::new()));
        assert_eq!(items(&[0; 20], 0).map(|items| items.len()), Ok(10));
        assert_eq!(items(&[0; 21], 0), Err(Refusal::TypeAlone));
        let (before, fault) = items_before_fault(&[5, 0, 5, 1], 0);
        assert_eq!((before.len(), fault), (1, Some(Refusal::CutValue)));
    }

    #[test]
    fn names_and_locations() {
        assert!(is_name(b"h1") && is_name(&[b'a'; 27]) && is_name(b"Z-_9"));
        assert!(!is_name(b"") && !is_name(&[b'a'; 28]) && !is_name(b"1h") && !is_name(b"h 1"));
        assert!(is_location(&[0]) && is_location(&[0; 64]));
        assert!(!is_location(&[]) && !is_location(&[0; 65]));
    }
}
