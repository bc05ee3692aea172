//! Random packets and readings: right ones, ones with a fault or two, ones damaged on the line, and
//! noise.

use crate::board::UPDATE;
use crate::cases::{Case, LINE_BYTES_MAX};
use crate::draft::{part, Draft, Part};
use crate::packet::{BINARY, BOOLEAN, CENTS, EOF, INTEGER, NAME};
use crate::random::Random;
use crate::transfer::FRAGMENT;

/// Types that the reader knows, one that it does not, and one of values that it does not read.
const KINDS: [u8; 9] = [NAME, NAME, INTEGER, BOOLEAN, CENTS, EOF, BINARY, 0x03, 0x05];

pub fn packet_cases(seed: u64, count: usize) -> impl Iterator<Item = Case> {
    let mut random = Random::new(seed);
    (0..count).map(move |_| {
        let kind = kind(&mut random);
        let packet = sent(&mut random, LINE_BYTES_MAX - 1);
        match random.below(3) {
            0 => Case::Parts(packet),
            _ => Case::Look { kind, packet },
        }
    })
}

pub fn board_cases(seed: u64, count: usize) -> impl Iterator<Item = Case> {
    let mut random = Random::new(seed);
    (0..count).map(move |_| match random.below(10) {
        0 => {
            let (kind, bytes) = value(&mut random);
            Case::Value { kind, bytes }
        }
        1 => Case::Reading(sent(&mut random, LINE_BYTES_MAX)),
        _ => Case::Reading(reading(&mut random)),
    })
}

fn kind(random: &mut Random) -> u8 {
    match random.below(10) {
        0 => random.byte(),
        _ => random.one_of(&KINDS),
    }
}

pub fn id(random: &mut Random) -> u16 {
    let any = random.next() as u16;
    random.one_of(&[0, 1, 255, 256, 65_535, any, any, any])
}

fn opcode(random: &mut Random) -> u8 {
    let any = random.byte();
    random.one_of(&[UPDATE, UPDATE, UPDATE, FRAGMENT, any])
}

/// So many random bytes.
pub fn bytes(random: &mut Random, length: usize) -> Vec<u8> {
    (0..length).map(|_| random.byte()).collect()
}

/// A packet of any items, or noise, that is sometimes damaged.
fn sent(random: &mut Random, most: usize) -> Vec<u8> {
    let mut packet = match random.below(12) {
        0 => noise(random, most),
        1 => crowd(random, most).bytes(),
        2 => filled(random, most).bytes(),
        _ => any_items(random, most).bytes(),
    };
    for _ in 0..random.one_of(&[0, 0, 0, 1, 1, 2]) {
        damage(random, &mut packet);
    }
    packet.truncate(most);
    packet
}

/// Any bytes, most often behind the head of a packet.
fn noise(random: &mut Random, most: usize) -> Vec<u8> {
    let limit = random.one_of(&[5, 12, 40, most]);
    let length = random.below(limit + 1);
    let mut noise = bytes(random, length);
    if random.below(4) != 0 {
        let head = Draft::new(opcode(random), id(random), Vec::new());
        noise.splice(..0, head.bytes());
    }
    noise
}

/// Few items or many, long ones or short ones.
fn any_items(random: &mut Random, most: usize) -> Draft {
    let mut draft = Draft::new(opcode(random), id(random), Vec::new());
    let count = random.one_of(&[0, 1, 2, 3, 4, 6, 12, 60]);
    let longest = random.one_of(&[0, 1, 4, 4, 9, 255]);
    for _ in 0..count {
        let item = any_item(random, longest);
        if draft.len() + 2 + item.1.len() <= most {
            draft.items.push(item);
        }
    }
    draft
}

/// An EOF item has no bytes here.
fn any_item(random: &mut Random, longest: usize) -> Part {
    let kind = kind(random);
    let length = random.below(longest + 1);
    if kind == EOF {
        return part(EOF, &[]);
    }
    (kind, bytes(random, length))
}

/// About as many empty items as fill a payload, or the line.
fn crowd(random: &mut Random, most: usize) -> Draft {
    let count = random.one_of(&[188, 189, 189, 190, 195, (most - 4) / 2]);
    let usual = kind(random);
    let items = (0..count).map(|_| match random.below(20) {
        0 => part(kind(random), &[]),
        _ => part(usual, &[]),
    });
    let items = items.collect();
    Draft::new(opcode(random), id(random), items)
}

/// A packet that is just as long as a payload can be, or as the line.
fn filled(random: &mut Random, most: usize) -> Draft {
    let length = random.one_of(&[382, 383, 384, most - 1, most]);
    let mut draft = any_items(random, length - 2);
    while draft.len() < length {
        // What is left behind an item has room for another one.
        let left = length - draft.len() - 2;
        let taken = if left > 255 { 250 } else { left };
        let kind = random.one_of(&[BINARY, NAME, 0x05]);
        draft.items.push((kind, bytes(random, taken)));
    }
    draft
}

/// A fault on the line, or a head or an item that is wrong.
pub fn damage(random: &mut Random, packet: &mut Vec<u8>) {
    let other = random.byte();
    if packet.is_empty() {
        packet.push(other);
        return;
    }
    let place = random.below(packet.len());
    match random.below(9) {
        0 => packet[place] ^= 1 << random.below(8),
        1 => packet[place] = other,
        2 => packet.insert(place, other),
        3 => drop(packet.remove(place)),
        4 => packet.truncate(place),
        5 => cut_a_little(random, packet),
        6 => packet.extend([EOF, 1, other]),
        7 => packet.push(kind(random)),
        _ => packet[0] = random.one_of(&[0, 2, other]),
    }
}

/// One to four bytes fewer at the end.
fn cut_a_little(random: &mut Random, packet: &mut Vec<u8>) {
    let left = packet.len().saturating_sub(1 + random.below(4));
    packet.truncate(left);
}

/// A packet that is nearly an update, or nearly an end mark.
fn reading(random: &mut Random) -> Vec<u8> {
    let mut draft = Draft::new(UPDATE, id(random), Vec::new());
    if random.below(6) != 0 {
        draft.items.push(part(NAME, &name(random)));
        draft.items.push(value(random));
    } else {
        draft.items.push(part(EOF, &[]));
    }
    for _ in 0..random.one_of(&[0, 0, 1, 2, 4]) {
        pass_over(random, &mut draft);
    }
    for _ in 0..random.one_of(&[0, 0, 0, 1, 1, 2]) {
        spoil(random, &mut draft);
    }
    let mut packet = draft.bytes();
    if random.below(5) == 0 {
        damage(random, &mut packet);
    }
    packet.truncate(LINE_BYTES_MAX);
    packet
}

/// A watched name most often.
fn name(random: &mut Random) -> Vec<u8> {
    let any = bytes(random, 3);
    let names: [&[u8]; 12] = [
        b"h3",
        b"h",
        b"h11",
        b"H1",
        b"h1\0",
        b"",
        b"1h",
        b"-h",
        b"h.1",
        &[b'a'; 27],
        &[b'a'; 28],
        &any,
    ];
    match random.below(10) {
        0..=3 => b"h1".to_vec(),
        4..=7 => b"h2".to_vec(),
        _ => random.one_of(&names).to_vec(),
    }
}

/// A good value most often; a Boolean is 0 or 1 most often.
fn value(random: &mut Random) -> Part {
    let kind = random.one_of(&[INTEGER, INTEGER, CENTS, CENTS, BOOLEAN]);
    let any = random.below(10);
    let length = random.one_of(&[1, 2, 4, 8, 1, 2, 4, 8, 1, 2, 4, 8, any]);
    let mut value = bytes(random, if kind == BOOLEAN { 1 } else { length });
    if kind == BOOLEAN {
        value[0] = random.one_of(&[0, 1, 0, 1, value[0]]);
    }
    match random.below(16) {
        0 => (random.byte(), value),
        1 if kind == BOOLEAN => (kind, bytes(random, length)),
        _ => (kind, value),
    }
}

/// An item before the Name or behind the value.
fn pass_over(random: &mut Random, draft: &mut Draft) {
    let kind = random.one_of(&[EOF, EOF, INTEGER, BINARY, 0x05, 0x34]);
    let length = random.one_of(&[0, 1, 2, 3, 8]);
    let value = bytes(random, if kind == EOF { 0 } else { length });
    let place = random.one_of(&[0, draft.items.len()]);
    draft.items.insert(place, (kind, value));
}

fn spoil(random: &mut Random, draft: &mut Draft) {
    let place = random.below(draft.items.len() + 1);
    let there = draft.items.get(place).is_some();
    match random.below(9) {
        0 => draft.opcode = random.one_of(&[FRAGMENT, 0x02, 0x04, 0x09, 0x19]),
        1 => draft.first = random.one_of(&[0, 2, 0x11, 0x81]),
        2 => draft.items.insert(place, part(NAME, &name(random))),
        3 => draft.items.insert(place, part(EOF, &[])),
        4 => draft.items.insert(place, value(random)),
        5 if there => drop(draft.items.remove(place)),
        6 if there => draft.items[place].1 = bytes(random, 3),
        7 if there => draft.items[place].0 = kind(random),
        8 => drop(draft.items.pop()),
        _ => draft.items.reverse(),
    }
}
