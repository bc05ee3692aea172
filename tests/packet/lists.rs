//! Watch lists that go through every value of something.

use crate::cases::{Case, LIST_BYTES_MAX};
use crate::strings::strings;
use crate::systematic::names;
use crate::watch_list::{NAMES_MAX, NAME_TAG};

pub fn cases() -> impl Iterator<Item = Case> {
    every_list().map(Case::List)
}

pub fn every_list() -> impl Iterator<Item = Vec<u8>> {
    every_count()
        .chain(every_cut())
        .chain(every_change())
        .chain(every_place())
        .chain(every_two_places())
        .chain(every_name())
        .chain(every_two_names())
        .chain(every_short_list())
        .chain(every_few_fields())
        .chain(every_high_byte())
        .chain(every_long_value())
}

/// A field with its right length.
pub fn field(tag: u8, value: &[u8]) -> Vec<u8> {
    let [high, low] = (value.len() as u16).to_be_bytes();
    [&[tag, high, low], value].concat()
}

/// The field of a name for each number, in at least so many bytes.
pub fn numbered(number: usize, bytes: usize) -> Vec<u8> {
    let digits = bytes - 1;
    field(NAME_TAG, format!("h{number:0digits$}").as_bytes())
}

/// The fields of so many short names.
fn short(count: usize) -> Vec<Vec<u8>> {
    (0..count).map(|number| numbered(number, 2)).collect()
}

/// Each number of names up to 45: short ones, long ones, and the longest if a line takes them.
fn every_count() -> impl Iterator<Item = Vec<u8>> {
    let lists = [2, 24, 27].into_iter().flat_map(|bytes| {
        (0..=45).map(move |count| {
            let fields = (0..count).map(|number| numbered(number, bytes));
            fields.collect::<Vec<_>>().concat()
        })
    });
    lists.filter(|list| list.len() <= LIST_BYTES_MAX)
}

/// Lists of three names and of as many as there may be, cut at each byte.
fn every_cut() -> impl Iterator<Item = Vec<u8>> {
    [3, NAMES_MAX].into_iter().flat_map(|count| {
        let whole = short(count).concat();
        (0..whole.len()).map(move |length| whole[..length].to_vec())
    })
}

/// A list of three names with each byte changed to each value.
fn every_change() -> impl Iterator<Item = Vec<u8>> {
    let whole = short(3).concat();
    (0..whole.len()).flat_map(move |place| {
        let whole = whole.clone();
        (0..=255).map(move |byte| {
            let mut changed = whole.clone();
            changed[place] = byte;
            changed
        })
    })
}

/// A full list with a wrong field at each place.
fn every_place() -> impl Iterator<Item = Vec<u8>> {
    (0..NAMES_MAX).flat_map(|place| {
        let wrong = [
            field(NAME_TAG, b""),
            field(NAME_TAG, b"1h"),
            field(NAME_TAG, b"h 1"),
            field(NAME_TAG, &[b'a'; 28]),
            field(0x00, b"h"),
            field(0x02, b"h"),
            field(0x03, b""),
            field(0xff, b"h"),
        ];
        wrong.map(|wrong| {
            let mut fields = short(NAMES_MAX);
            fields[place] = wrong;
            fields.concat()
        })
    })
}

/// A full list with one name at each two places.
fn every_two_places() -> impl Iterator<Item = Vec<u8>> {
    let places = (0..NAMES_MAX).flat_map(|second| (0..second).map(move |first| (first, second)));
    places.map(|(first, second)| {
        let mut fields = short(NAMES_MAX);
        fields[second] = fields[first].clone();
        fields.concat()
    })
}

/// Each name, good or bad, alone and between two others.
fn every_name() -> impl Iterator<Item = Vec<u8>> {
    names().flat_map(|name| {
        let middle = field(NAME_TAG, &name);
        let between = [numbered(8, 2), middle.clone(), numbered(9, 2)];
        [middle, between.concat()]
    })
}

/// Two names of each length: the same, in another case at one place, and one with a byte more.
fn every_two_names() -> impl Iterator<Item = Vec<u8>> {
    (1..=27).flat_map(|length| {
        let name = vec![b'a'; length];
        let mut others = vec![name.clone(), vec![b'a'; length + 1]];
        others.extend((0..length).map(|place| {
            let mut other = name.clone();
            other[place] = b'A';
            other
        }));
        let others = others.into_iter();
        others.map(move |other| [field(NAME_TAG, &name), field(NAME_TAG, &other)].concat())
    })
}

/// Each string of up to six bytes out of five: tags, lengths and bytes of names.
fn every_short_list() -> impl Iterator<Item = Vec<u8>> {
    strings(&[0x00, 0x01, 0x02, b'h', b'1'], 6).into_iter()
}

/// Each string of up to four fields, with good ones, bad ones and cut ones.
fn every_few_fields() -> impl Iterator<Item = Vec<u8>> {
    let fields = [
        field(NAME_TAG, b"h1"),
        field(NAME_TAG, b"h2"),
        field(NAME_TAG, b"H1"),
        field(NAME_TAG, b"1h"),
        field(NAME_TAG, b""),
        field(0x02, b"h2"),
        field(0x03, b""),
        vec![NAME_TAG, 0x00],
        vec![NAME_TAG, 0x00, 0x03, b'h'],
    ];
    strings(&fields, 4)
        .into_iter()
        .map(|fields| fields.concat())
}

/// Each high byte of a length, before as many bytes as the low one says.
fn every_high_byte() -> impl Iterator<Item = Vec<u8>> {
    (0..=255).flat_map(|high| {
        [0, 1, 2, 27, 28, 255].map(|low| {
            let value = vec![b'a'; usize::from(low)];
            [&[NAME_TAG, high, low], value.as_slice()].concat()
        })
    })
}

/// Whole values of over 255 bytes, of which the low byte of their length alone would make a good list.
fn every_long_value() -> impl Iterator<Item = Vec<u8>> {
    (1..=4).flat_map(|high| {
        (1..=27).map(move |low| {
            let name = vec![b'a'; usize::from(low)];
            let behind = filling(usize::from(high) << 8);
            [&[NAME_TAG, high, low], name.as_slice(), &behind].concat()
        })
    })
}

/// Fields of names that have so many bytes together.
fn filling(bytes: usize) -> Vec<u8> {
    let mut fields = Vec::new();
    while fields.len() < bytes {
        // What is left behind a field has room for another one.
        let left = bytes - fields.len();
        let taken = match left {
            ..=30 => left,
            31..=59 => left / 2,
            _ => 30,
        };
        fields.extend(numbered(left, taken - 3));
    }
    fields
}
