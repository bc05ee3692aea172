//! Random watch lists: right ones, ones with a fault or two, ones cut or damaged, and noise.

use crate::cases::{Case, LIST_BYTES_MAX};
use crate::generated::{bytes, damage};
use crate::lists::{field, numbered};
use crate::random::Random;
use crate::watch_list::{NAMES_MAX, NAME_TAG};

pub fn cases(seed: u64, count: usize) -> impl Iterator<Item = Case> {
    let mut random = Random::new(seed);
    (0..count).map(move |_| {
        let mut list = match random.below(12) {
            0 => noise(&mut random),
            _ => sent(&mut random),
        };
        list.truncate(LIST_BYTES_MAX);
        Case::List(list)
    })
}

/// Any bytes, or bytes that matter in a list, most often behind some names.
fn noise(random: &mut Random) -> Vec<u8> {
    let limit = random.one_of(&[4, 8, 20, 60, 300, LIST_BYTES_MAX]);
    let length = random.below(limit + 1);
    let noise = match random.below(2) {
        0 => bytes(random, length),
        _ => (0..length)
            .map(|_| random.one_of(&[0x00, 0x01, 0x02, b'h', b'1']))
            .collect(),
    };
    let count = random.one_of(&[0, 1, 2, 5]);
    [names(random, count).concat(), noise].concat()
}

/// A list with none, one or two faults, that is sometimes damaged.
fn sent(random: &mut Random) -> Vec<u8> {
    let mut draft = ListDraft {
        fields: right(random),
        tail: Vec::new(),
    };
    for _ in 0..random.one_of(&[0, 0, 1, 1, 2, 2]) {
        draft.spoil(random);
    }
    let mut list = draft.fields.concat();
    list.extend(draft.tail);
    if random.below(8) == 0 {
        damage(random, &mut list);
    }
    list
}

/// The fields of a list that is accepted.
fn right(random: &mut Random) -> Vec<Vec<u8>> {
    let few = 2 + random.below(14);
    let many = 18 + random.below(22);
    let counts = [0, 1, 2, few, few, few, 16, 17, many, NAMES_MAX];
    let count = random.one_of(&counts);
    names(random, count)
}

/// The fields of so many names; where names are alike, of fewer.
fn names(random: &mut Random, count: usize) -> Vec<Vec<u8>> {
    let first = random.below(50);
    let numbers = first..first + count;
    match random.below(8) {
        0 => numbers.map(|number| numbered(number, 27)).collect(),
        1..=3 => numbers.map(|number| numbered(number, 2)).collect(),
        _ => others(random, count),
    }
}

/// Names of any bytes, or nearly alike.
fn others(random: &mut Random, count: usize) -> Vec<Vec<u8>> {
    let alphabets: [&[u8]; 3] = [b"abcXYZ0189-_", b"aA", b"h1-_"];
    let alphabet = random.one_of(&alphabets);
    let longest = random.one_of(&[6, 9, 27]);
    let mut fields = Vec::new();
    for _ in 0..count {
        let length = 1 + random.below(longest);
        let mut name: Vec<u8> = (0..length).map(|_| random.one_of(alphabet)).collect();
        name[0] = random.one_of(b"aAhZ");
        let field = field(NAME_TAG, &name);
        if !fields.contains(&field) {
            fields.push(field);
        }
    }
    fields
}

/// A list before it is bytes.
struct ListDraft {
    fields: Vec<Vec<u8>>,
    /// A cut field behind the others.
    tail: Vec<u8>,
}

impl ListDraft {
    fn spoil(&mut self, random: &mut Random) {
        let place = random.below(self.fields.len() + 1);
        match random.below(6) {
            0 => self.fields.insert(place, other_tag(random)),
            1 => self.fields.insert(place, bad_name(random)),
            2 => self.repeat(random, place),
            3 => self.add_names(random),
            4 => self.tail = random.one_of(&[&[NAME_TAG, 0][..], &[NAME_TAG]]).to_vec(),
            _ => self.tail = cut_value(random),
        }
    }

    /// A name of the list at another place too.
    fn repeat(&mut self, random: &mut Random, place: usize) {
        if self.fields.is_empty() {
            self.fields.push(numbered(1, 2));
        }
        let name = random.below(self.fields.len());
        self.fields.insert(place, self.fields[name].clone());
    }

    /// Names until there are too many, or just as many as there may be.
    fn add_names(&mut self, random: &mut Random) {
        let count = NAMES_MAX + random.one_of(&[0, 1, 1, 2]);
        let missing = count.saturating_sub(self.fields.len());
        let names = (0..missing).map(|number| numbered(100 + number, 2));
        self.fields.extend(names);
    }
}

/// A field of another tag, with hardly an exception.
fn other_tag(random: &mut Random) -> Vec<u8> {
    let any = random.byte();
    let tag = random.one_of(&[0, 2, 3, 0x81, any]);
    let values: [&[u8]; 3] = [b"", b"h1", b"h77"];
    field(tag, random.one_of(&values))
}

/// A name that is bad, most often.
fn bad_name(random: &mut Random) -> Vec<u8> {
    let any = random.byte();
    let names: [&[u8]; 8] = [
        b"",
        b"1h",
        b"-h",
        b"h.1",
        b"h1\0",
        &[b'h', any],
        &[b'a'; 28],
        &[b'a'; 300],
    ];
    field(NAME_TAG, random.one_of(&names))
}

/// A good name that lacks a byte, or one whose length has a high byte.
fn cut_value(random: &mut Random) -> Vec<u8> {
    let number = 200 + random.below(50);
    let mut field = numbered(number, 4);
    match random.below(2) {
        0 => drop(field.pop()),
        _ => field[1] = 1 + random.below(255) as u8,
    }
    field
}
