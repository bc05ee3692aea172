//! The file datapoint receiver, from document 01 ("File fragments" and refusals 11 and 16 to 20),
//! written for reading and not for speed.

use crate::packet::{
    self, is_location, read_packet, Item, Packet, BINARY, EOF, LENGTH, LOCATION, OFFSET,
};

/// The opcode of fragments.
pub const FRAGMENT: u8 = 0x0b;

/// Why a fragment, or the location that a transfer is to start with, is refused.
#[derive(Clone, Copy, Debug, PartialEq, Eq)]
pub enum Refusal {
    Packet(packet::Refusal),
    OtherOpcode,
    BadForm(BadForm),
    OtherLocation,
    OtherOffset,
    Complete,
    FragmentPastLength,
    FragmentPastBuffer,
    LengthPastBuffer,
    EarlyEof,
}

/// The reasons of refusal 20.
#[derive(Clone, Copy, Debug, PartialEq, Eq)]
pub enum BadForm {
    OtherItem,
    NoLocation,
    SeveralLocations,
    BadLocation,
    NoOffset,
    SeveralOffsets,
    BadOffset,
    NoBinary,
    SeveralBinaries,
    SeveralLengths,
    BadLength,
    LateLength,
    SeveralEofs,
    EmptyBinary,
}

impl Refusal {
    pub fn number(self) -> u8 {
        match self {
            Refusal::Packet(refusal) => refusal.number(),
            Refusal::OtherOpcode => 11,
            Refusal::BadForm(_) => 20,
            Refusal::OtherLocation => 16,
            Refusal::OtherOffset | Refusal::Complete => 17,
            Refusal::FragmentPastLength
            | Refusal::FragmentPastBuffer
            | Refusal::LengthPastBuffer => 18,
            Refusal::EarlyEof => 19,
        }
    }
}

#[derive(Clone, Copy, Debug, PartialEq, Eq)]
pub struct Fragment<'a> {
    pub location: &'a [u8],
    pub offset: u64,
    pub length: Option<u64>,
    pub binary: &'a [u8],
    pub eof: bool,
}

impl Fragment<'_> {
    /// The offset behind its bytes.
    pub fn end(&self) -> u64 {
        self.offset.saturating_add(self.binary.len() as u64)
    }
}

/// The fragment of a packet's bytes, with 9, 10, 11 and 20 in this order.
pub fn read_fragment(bytes: &[u8]) -> Result<Fragment<'_>, Refusal> {
    let packet = read_packet(bytes).map_err(Refusal::Packet)?;
    if packet.opcode != FRAGMENT {
        return Err(Refusal::OtherOpcode);
    }
    fragment_of(&packet).map_err(Refusal::BadForm)
}

/// "Exactly one Location, one Offset, one Binary (04), at most one Length (12) and at most one EOF,
/// in any order. Offset and Length are unsigned, 1, 2 or 4 bytes. Length may stand only at offset 0.
/// Empty Binary needs EOF. All else is 20."
pub fn fragment_of<'a>(packet: &Packet<'a>) -> Result<Fragment<'a>, BadForm> {
    let kinds = [LOCATION, OFFSET, BINARY, LENGTH, EOF];
    if packet.items.iter().any(|item| !kinds.contains(&item.kind)) {
        return Err(BadForm::OtherItem);
    }
    let location = at_most_one(packet, LOCATION, BadForm::SeveralLocations)?;
    let offset = at_most_one(packet, OFFSET, BadForm::SeveralOffsets)?;
    let binary = at_most_one(packet, BINARY, BadForm::SeveralBinaries)?;
    let length = at_most_one(packet, LENGTH, BadForm::SeveralLengths)?;
    let eof = at_most_one(packet, EOF, BadForm::SeveralEofs)?;

    let location = location.ok_or(BadForm::NoLocation)?.value;
    let offset = offset.ok_or(BadForm::NoOffset)?.value;
    let fragment = Fragment {
        location,
        offset: unsigned(offset).ok_or(BadForm::BadOffset)?,
        length: match length {
            Some(item) => Some(unsigned(item.value).ok_or(BadForm::BadLength)?),
            None => None,
        },
        binary: binary.ok_or(BadForm::NoBinary)?.value,
        eof: eof.is_some(),
    };
    if !is_location(location) {
        return Err(BadForm::BadLocation);
    }
    if fragment.length.is_some() && fragment.offset != 0 {
        return Err(BadForm::LateLength);
    }
    if fragment.binary.is_empty() && !fragment.eof {
        return Err(BadForm::EmptyBinary);
    }
    Ok(fragment)
}

fn at_most_one<'a>(
    packet: &Packet<'a>,
    kind: u8,
    several: BadForm,
) -> Result<Option<Item<'a>>, BadForm> {
    let look = packet.look(kind);
    if look.count > 1 {
        return Err(several);
    }
    Ok(look.first)
}

pub fn unsigned(bytes: &[u8]) -> Option<u64> {
    match *bytes {
        [a] => Some(u64::from(a)),
        [a, b] => Some(u64::from(u16::from_be_bytes([a, b]))),
        [a, b, c, d] => Some(u64::from(u32::from_be_bytes([a, b, c, d]))),
        _ => None,
    }
}

/// What has come of a file.
#[derive(Clone, Debug, PartialEq, Eq)]
pub struct Transfer {
    pub location: Vec<u8>,
    pub next: u64,
    pub declared: Option<u64>,
    pub complete: bool,
}

/// "A transfer is started with a location; next offset is 0, length unknown."
pub fn start(location: &[u8]) -> Result<Transfer, Refusal> {
    if !is_location(location) {
        return Err(Refusal::BadForm(BadForm::BadLocation));
    }
    Ok(Transfer {
        location: location.to_vec(),
        next: 0,
        declared: None,
        complete: false,
    })
}

impl Transfer {
    /// All that is wrong with a fragment of good form, in the order 16, 17, 18, 19: the first is the
    /// refusal.
    pub fn faults(&self, fragment: &Fragment, room: u64) -> Vec<Refusal> {
        let end = fragment.end();
        let declared = fragment.length.or(self.declared);
        let passes = |limit: u64| end > limit;
        let faults = [
            (Refusal::OtherLocation, fragment.location != self.location),
            (Refusal::Complete, self.complete),
            (Refusal::OtherOffset, fragment.offset != self.next),
            (Refusal::FragmentPastLength, declared.is_some_and(passes)),
            (Refusal::FragmentPastBuffer, passes(room)),
            (
                Refusal::LengthPastBuffer,
                declared.is_some_and(|length| length > room),
            ),
            (
                Refusal::EarlyEof,
                fragment.eof && declared.is_some_and(|length| end < length),
            ),
        ];
        let applying = faults.into_iter().filter(|(_, applies)| *applies);
        applying.map(|(refusal, _)| refusal).collect()
    }

    /// "An accepted fragment writes its bytes at its offset and no others; next grows by their
    /// number; EOF completes it." A refused one changes nothing.
    pub fn take(&mut self, bytes: &[u8], file: &mut [u8]) -> Result<(), Refusal> {
        let fragment = read_fragment(bytes)?;
        if let Some(refusal) = self.faults(&fragment, file.len() as u64).first() {
            return Err(*refusal);
        }
        let end = fragment.end();
        file[fragment.offset as usize..end as usize].copy_from_slice(fragment.binary);
        self.next = end;
        self.declared = fragment.length.or(self.declared);
        self.complete = fragment.eof;
        Ok(())
    }
}

#[cfg(test)]
mod known_answers {
    use super::*;

    const ROOM: usize = 4;

    /// A fragment of the location `loc`, with these other items.
    fn fragment(items: &[u8]) -> Vec<u8> {
        [b"\x01\x0b\x00\x07\x13\x03loc", items].concat()
    }

    /// What a fresh transfer says of a fragment with these items.
    fn alone(items: &[u8]) -> Result<(), u8> {
        let mut transfer = start(b"loc").expect("a location");
        let taken = transfer.take(&fragment(items), &mut [0xee; ROOM]);
        taken.map_err(Refusal::number)
    }

    #[test]
    fn a_file_in_two_fragments() {
        let mut transfer = start(b"loc").expect("a location");
        let mut file = [0xee; ROOM];
        let first = fragment(b"\x11\x01\x00\x12\x01\x03\x04\x02ab");
        assert_eq!(transfer.take(&first, &mut file), Ok(()));
        assert_eq!((transfer.next, transfer.declared), (2, Some(3)));
        assert_eq!(transfer.take(&first, &mut file), Err(Refusal::OtherOffset));
        let last = fragment(b"\x14\x00\x04\x01c\x11\x04\x00\x00\x00\x02");
        assert_eq!(transfer.take(&last, &mut file), Ok(()));
        assert!(transfer.complete && transfer.next == 3);
        assert_eq!(file, *b"abc\xee");
        assert_eq!(transfer.take(&last, &mut file), Err(Refusal::Complete));
    }

    #[test]
    fn bad_forms() {
        assert_eq!(alone(b"\x11\x01\x00\x04\x01a\x05\x01a"), Err(20));
        assert_eq!(alone(b"\x11\x01\x00"), Err(20));
        assert_eq!(alone(b"\x04\x01a"), Err(20));
        assert_eq!(alone(b"\x11\x03\x00\x00\x00\x04\x01a"), Err(20));
        assert_eq!(alone(b"\x11\x01\x00\x12\x03\x00\x00\x01\x04\x01a"), Err(20));
        assert_eq!(alone(b"\x11\x01\x01\x12\x01\x04\x04\x01a"), Err(20));
        assert_eq!(alone(b"\x11\x01\x00\x04\x00"), Err(20));
        assert_eq!(alone(b"\x11\x01\x00\x04\x00\x14\x00"), Ok(()));
        assert_eq!(start(&[0; 65]).map_err(Refusal::number), Err(20));
    }

    #[test]
    fn refusals_in_their_order() {
        let other = b"\x01\x0b\x00\x07\x13\x01x\x11\x01\x09\x04\x01a";
        let mut transfer = start(b"loc").expect("a location");
        let refused = transfer.take(other, &mut [0; ROOM]);
        assert_eq!(refused, Err(Refusal::OtherLocation));
        assert_eq!(alone(b"\x11\x01\x09\x04\x01a"), Err(17));
        assert_eq!(alone(b"\x11\x01\x00\x12\x01\x09\x04\x01a\x14\x00"), Err(18));
        assert_eq!(alone(b"\x11\x01\x00\x04\x05abcde"), Err(18));
        assert_eq!(alone(b"\x11\x01\x00\x12\x01\x01\x04\x02ab"), Err(18));
        assert_eq!(
            alone(b"\x11\x01\x00\x12\x01\x04\x04\x03abc\x14\x00"),
            Err(19)
        );
        assert_eq!(
            alone(b"\x11\x01\x00\x12\x04\xff\xff\xff\xff\x04\x01a"),
            Err(18)
        );
    }
}
