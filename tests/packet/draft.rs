//! A packet before it is bytes: its head and its items, which may be wrong.

use crate::packet::{BINARY, DATA, EOF, HEAD, LENGTH, LOCATION, OFFSET};
use crate::transfer::FRAGMENT;

/// The type and the value of an item.
pub type Part = (u8, Vec<u8>);

pub fn part(kind: u8, value: &[u8]) -> Part {
    (kind, value.to_vec())
}

#[derive(Clone, Debug)]
pub struct Draft {
    pub first: u8,
    pub opcode: u8,
    pub id: u16,
    pub items: Vec<Part>,
    /// What stands behind the items.
    pub tail: Vec<u8>,
}

impl Draft {
    pub fn new(opcode: u8, id: u16, items: Vec<Part>) -> Draft {
        Draft {
            first: DATA,
            opcode,
            id,
            items,
            tail: Vec::new(),
        }
    }

    pub fn bytes(&self) -> Vec<u8> {
        let [high, low] = self.id.to_be_bytes();
        let mut bytes = vec![self.first, self.opcode, high, low];
        for (kind, value) in &self.items {
            bytes.extend([*kind, value.len() as u8]);
            bytes.extend(value);
        }
        bytes.extend(&self.tail);
        bytes
    }

    /// How many bytes the head and the items have.
    pub fn len(&self) -> usize {
        let items = self.items.iter().map(|(_, value)| 2 + value.len());
        HEAD + items.sum::<usize>()
    }

    /// Gives the first item of a type another value, or puts one behind the others.
    pub fn put(&mut self, kind: u8, value: Vec<u8>) {
        match self.items.iter_mut().find(|item| item.0 == kind) {
            Some(item) => item.1 = value,
            None => self.items.push((kind, value)),
        }
    }
}

/// A number in the fewest bytes, of 1, 2 and 4, that hold it.
pub fn number(value: u64) -> Vec<u8> {
    match value {
        0..=0xff => vec![value as u8],
        0x100..=0xffff => (value as u16).to_be_bytes().to_vec(),
        _ => (value as u32).to_be_bytes().to_vec(),
    }
}

/// A fragment with its items in the order that document 01 names them.
pub fn fragment(
    location: &[u8],
    offset: u64,
    binary: &[u8],
    length: Option<u64>,
    eof: bool,
) -> Draft {
    let mut items = vec![
        part(LOCATION, location),
        (OFFSET, number(offset)),
        part(BINARY, binary),
    ];
    items.extend(length.map(|length| (LENGTH, number(length))));
    items.extend(eof.then(|| part(EOF, &[])));
    Draft::new(FRAGMENT, 7, items)
}
