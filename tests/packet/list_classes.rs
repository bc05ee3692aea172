//! Each kind of answer to a watch list that a run must meet.

use crate::classes::{pairs, Class};
use crate::packet::is_name;
use crate::watch_list::{read_list, split_field, Refusal, NAMES_MAX, NAME_TAG};

#[derive(Clone, Copy, Debug, PartialEq, Eq)]
pub enum List {
    /// The fewest and the most names of lists of this kind.
    Accepted(usize, usize),
    /// The only reason. All have one number, so that these lists alone tell whether it is seen.
    Refused(Refusal),
    /// The first two reasons, where several apply.
    Both(Refusal, Refusal),
}

/// About the limit of document 01, and about that of request C-20.
const COUNTS: [(usize, usize); 7] = [
    (0, 0),
    (1, 1),
    (2, 15),
    (16, 16),
    (17, 17),
    (18, 39),
    (40, 40),
];

const REASONS: [Refusal; 6] = [
    Refusal::OtherTag,
    Refusal::BadName,
    Refusal::NameTwice,
    Refusal::OneNameTooMany,
    Refusal::CutHead,
    Refusal::CutValue,
];

/// Only the last field can be cut, in one way.
const BOTH_CUTS: (Refusal, Refusal) = (Refusal::CutHead, Refusal::CutValue);

impl List {
    pub fn all() -> impl Iterator<Item = List> {
        let accepted = COUNTS.map(|(fewest, most)| List::Accepted(fewest, most));
        let both = pairs(&REASONS).filter(|both| *both != BOTH_CUTS);
        let both = both.map(|(first, second)| List::Both(first, second));
        let refused = REASONS.map(List::Refused);
        accepted.into_iter().chain(refused).chain(both)
    }
}

pub fn of_list(bytes: &[u8]) -> Vec<Class> {
    let class = match read_list(bytes) {
        Ok(board) => of_accepted(board.rows.len()),
        Err(refusal) => Some(of_refused(&reasons(bytes), refusal)),
    };
    class.map(Class::List).into_iter().collect()
}

fn of_accepted(names: usize) -> Option<List> {
    let counts = COUNTS.iter();
    let count = counts.copied().find(|(_, most)| names <= *most);
    count.map(|(fewest, most)| List::Accepted(fewest, most))
}

fn of_refused(reasons: &[Refusal], refusal: Refusal) -> List {
    match *reasons {
        [first, second, ..] => List::Both(first, second),
        _ => List::Refused(refusal),
    }
}

/// The reasons to refuse a list, each looked for in all its fields.
fn reasons(bytes: &[u8]) -> Vec<Refusal> {
    let (fields, cut) = whole_fields(bytes);
    let mut tags = fields
        .iter()
        .map(|field| field.0)
        .chain(cut.first().copied());
    let names = fields.iter().filter(|field| field.0 == NAME_TAG);
    let names: Vec<&[u8]> = names.map(|field| field.1).collect();
    let twice = |place: usize| names[..place].contains(&names[place]);
    let applying = [
        (Refusal::OtherTag, tags.any(|tag| tag != NAME_TAG)),
        (Refusal::BadName, !names.iter().all(|name| is_name(name))),
        (Refusal::NameTwice, (0..names.len()).any(twice)),
        (Refusal::OneNameTooMany, names.len() > NAMES_MAX),
        (Refusal::CutHead, matches!(cut.len(), 1 | 2)),
        (Refusal::CutValue, cut.len() > 2),
    ];
    let applying = applying.iter().filter(|entry| entry.1);
    applying.map(|entry| entry.0).collect()
}

/// The tags and the values of the fields that are not cut, and the bytes of one that is.
fn whole_fields(bytes: &[u8]) -> (Vec<(u8, &[u8])>, &[u8]) {
    let mut fields = Vec::new();
    let mut rest = bytes;
    while let Ok((tag, value, behind)) = split_field(rest) {
        fields.push((tag, value));
        rest = behind;
    }
    (fields, rest)
}

#[cfg(test)]
mod known_reasons {
    use super::*;
    use crate::lists::every_list;

    #[test]
    fn of_just_the_lists_that_are_refused() {
        for list in every_list() {
            let reasons = reasons(&list);
            match read_list(&list) {
                Ok(_) => assert_eq!(reasons, [], "{list:02x?}"),
                Err(refusal) => assert!(reasons.contains(&refusal), "{list:02x?}"),
            }
        }
    }

    #[test]
    fn several_at_once() {
        let list = b"\x01\x00\x02h1\x02\x00\x00\x01\x00\x02h1\x01\x00\x00\x01\x00";
        let (first, second) = (Refusal::OtherTag, Refusal::BadName);
        let others = [Refusal::NameTwice, Refusal::CutHead];
        assert_eq!(reasons(list), [[first, second], others].concat());
        assert_eq!(of_list(list), [Class::List(List::Both(first, second))]);
    }
}
