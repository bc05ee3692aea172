//! The watch list as bytes, from document 01 ("The board", names in "Items and packets", refusal 15)
//! and request C-20, written for reading and not for speed.

use crate::board::Board;
use crate::packet::is_name;

/// The tag of a name.
pub const NAME_TAG: u8 = 0x01;

/// Request C-20; document 01 has 16.
pub const NAMES_MAX: usize = 40;

/// Why bytes are no watch list.
#[derive(Clone, Copy, Debug, PartialEq, Eq)]
pub enum Refusal {
    OtherTag,
    BadName,
    NameTwice,
    OneNameTooMany,
    /// Fewer than the three bytes of tag and length.
    CutHead,
    /// Fewer value bytes than the length says.
    CutValue,
}

impl Refusal {
    /// A bad watch list is refused by one number, whatever is bad in it.
    pub fn number(self) -> u8 {
        15
    }
}

/// "One-byte tag, two-byte length (high byte first), value": the tag and the value of the first
/// field, and the bytes behind it.
pub fn split_field(bytes: &[u8]) -> Result<(u8, &[u8], &[u8]), Refusal> {
    let [tag, high, low, rest @ ..] = bytes else {
        return Err(Refusal::CutHead);
    };
    let length = usize::from(u16::from_be_bytes([*high, *low]));
    let (value, behind) = rest.split_at_checked(length).ok_or(Refusal::CutValue)?;
    Ok((*tag, value, behind))
}

/// One more name joins a board.
pub fn join(board: &mut Board, name: &[u8]) -> Result<(), Refusal> {
    if !is_name(name) {
        return Err(Refusal::BadName);
    }
    if board.rows.iter().any(|row| row.name == name) {
        return Err(Refusal::NameTwice);
    }
    if board.rows.len() == NAMES_MAX {
        return Err(Refusal::OneNameTooMany);
    }
    board.watch(name);
    Ok(())
}

/// The board of a list: its names, in its order.
pub fn read_list(fields: &[u8]) -> Result<Board, Refusal> {
    let mut board = Board::default();
    let mut rest = fields;
    while !rest.is_empty() {
        let (tag, value, behind) = split_field(rest)?;
        if tag != NAME_TAG {
            return Err(Refusal::OtherTag);
        }
        join(&mut board, value)?;
        rest = behind;
    }
    Ok(board)
}

#[cfg(test)]
mod known_answers {
    use super::*;

    /// The rows of a list of these bytes.
    fn read(fields: &[u8]) -> Result<String, Refusal> {
        read_list(fields).map(|board| board.shown())
    }

    /// A list of these names, which have under 256 bytes.
    fn list(names: &[&[u8]]) -> Vec<u8> {
        let field = |name: &&[u8]| [&[1, 0, name.len() as u8], *name].concat();
        names.iter().flat_map(field).collect()
    }

    /// How many rows a list of so many names has.
    fn rows(count: usize) -> Result<usize, Refusal> {
        let names: Vec<String> = (1..=count).map(|number| format!("h{number}")).collect();
        let names: Vec<&[u8]> = names.iter().map(|name| name.as_bytes()).collect();
        read_list(&list(&names)).map(|board| board.rows.len())
    }

    #[test]
    fn at_most_40_names_and_0_allowed() {
        for count in [0, 1, 2, 16, 17, 39, 40] {
            assert_eq!(rows(count), Ok(count));
        }
        assert_eq!(rows(41), Err(Refusal::OneNameTooMany));
        assert_eq!(Refusal::OneNameTooMany.number(), 15);
    }

    #[test]
    fn names_in_the_order_of_the_list() {
        assert_eq!(read(b""), Ok(String::new()));
        let rows = read(b"\x01\x00\x02h2\x01\x00\x02h1");
        assert_eq!(rows.as_deref(), Ok("h2 never\nh1 never\n"));
    }

    #[test]
    fn names_of_27_and_28_bytes() {
        let longest = format!("{} never\n", "a".repeat(27));
        assert_eq!(read(&list(&[&[b'a'; 27]])), Ok(longest));
        assert_eq!(read(&list(&[&[b'a'; 28]])), Err(Refusal::BadName));
        assert_eq!(read(&list(&[b""])), Err(Refusal::BadName));
    }

    #[test]
    fn a_name_twice_and_in_another_case() {
        let twice = list(&[b"h1", b"h2", b"h1"]);
        assert_eq!(read(&twice), Err(Refusal::NameTwice));
        let rows = read(&list(&[b"h1", b"H1", b"h"]));
        assert_eq!(rows.as_deref(), Ok("h1 never\nH1 never\nh never\n"));
    }

    #[test]
    fn bad_names() {
        for name in [&b"1h"[..], b"-h", b"_h", b"h 1", b"h.1", b"h\0", b"h\xe4"] {
            assert_eq!(read(&list(&[b"h1", name])), Err(Refusal::BadName));
        }
    }

    #[test]
    fn another_tag() {
        for tag in [0, 2, 3, 0x81] {
            let fields = [b"\x01\x00\x02h1", &[tag, 0, 2][..], b"h2"].concat();
            assert_eq!(read(&fields), Err(Refusal::OtherTag));
        }
    }

    #[test]
    fn cut_fields() {
        let whole = b"\x01\x00\x02h1\x01\x00\x02h2";
        let read: Vec<_> = (5..10).map(|length| read(&whole[..length])).collect();
        let (head, value) = (Err(Refusal::CutHead), Err(Refusal::CutValue));
        let first = Ok("h1 never\n".to_string());
        assert_eq!(read, [first, head.clone(), head, value.clone(), value]);
    }

    #[test]
    fn lengths_with_a_high_byte() {
        assert_eq!(read(b"\x01\x01\x02h1"), Err(Refusal::CutValue));
        assert_eq!(read(b"\x01\x02\x00h1"), Err(Refusal::CutValue));
        let whole = [b"\x01\x01\x02", &[b'h'; 258][..]].concat();
        assert_eq!(read(&whole), Err(Refusal::BadName));
    }
}
