//! Cases of packets and of the board that go through every value of something.

use crate::board::UPDATE;
use crate::cases::{Case, LINE_BYTES_MAX};
use crate::draft::{fragment, part, Draft, Part};
use crate::packet::{BOOLEAN, CENTS, EOF, HEAD, INTEGER, NAME};
use crate::receiver::LOC;
use crate::strings::strings;
use crate::transfer::FRAGMENT;

pub fn packet_cases() -> impl Iterator<Item = Case> {
    let packets = every_short_packet()
        .chain(every_cut())
        .chain(every_item_length())
        .chain(many_items())
        .chain(every_head());
    let cases = packets.flat_map(|packet| {
        let looks = [NAME, EOF, 0x00].map(|kind| Case::Look {
            kind,
            packet: packet.clone(),
        });
        let parts = Case::Parts(packet);
        looks.into_iter().chain([parts])
    });
    cases.chain([Case::NoBytes('k')])
}

pub fn board_cases() -> impl Iterator<Item = Case> {
    let packets = every_few_items()
        .chain(every_cut())
        .chain(every_value_item())
        .chain(every_name())
        .chain(every_head());
    let readings = packets.map(Case::Reading);
    readings.chain(every_value()).chain([Case::NoBytes('v')])
}

fn update(items: Vec<Part>) -> Draft {
    Draft::new(UPDATE, 0, items)
}

/// Each string of up to six bytes out of four, as the items: item types, the type of EOF, and
/// lengths of 0 to 2.
fn every_short_packet() -> impl Iterator<Item = Vec<u8>> {
    let items = strings(&[0x00, 0x01, 0x02, EOF], 6).into_iter();
    items.map(|items| [update(Vec::new()).bytes(), items].concat())
}

/// Each string of up to four items, with good ones and bad ones; the shorter ones with each fault of
/// the head or of the end too.
fn every_few_items() -> impl Iterator<Item = Vec<u8>> {
    let items = [
        part(NAME, b"h1"),
        part(NAME, b"h2"),
        part(NAME, b"h3"),
        part(NAME, b"1h"),
        part(INTEGER, &[0xff, 0x38]),
        part(INTEGER, &[0, 0, 1]),
        part(BOOLEAN, &[2]),
        part(EOF, &[]),
        part(0x05, b"m"),
    ];
    let strings = strings(&items, 4).into_iter();
    strings.flat_map(|items| {
        let draft = update(items);
        let mut packets = vec![draft.bytes()];
        if draft.items.len() < 4 {
            packets.extend(faulty(&draft));
        }
        packets
    })
}

/// Each fault of the head and of the end, and each two of them.
fn faulty(draft: &Draft) -> Vec<Vec<u8>> {
    let ends: [&[u8]; 4] = [b"", &[EOF], &[NAME, 2, b'h'], &[EOF, 1, 0]];
    let heads = [(1, FRAGMENT), (2, UPDATE), (2, FRAGMENT), (1, UPDATE)];
    let mut packets = Vec::new();
    for (first, opcode) in heads {
        packets.extend(ends.map(|end| {
            let mut draft = draft.clone();
            (draft.first, draft.opcode, draft.tail) = (first, opcode, end.to_vec());
            draft.bytes()
        }));
    }
    packets
}

/// Packets of each form.
fn models() -> Vec<Vec<u8>> {
    let case_6 = [part(NAME, b"h1"), part(CENTS, &[0, 0, 0x0d, 0x7a])];
    let longer = [
        part(0x05, b"m"),
        part(NAME, b"h2"),
        part(INTEGER, &[1; 8]),
        part(EOF, &[]),
    ];
    let long_text = [
        part(NAME, b"h1"),
        part(BOOLEAN, &[1]),
        part(0x05, &[b'a'; 255]),
    ];
    let drafts = [
        update(case_6.to_vec()),
        update(longer.to_vec()),
        update(long_text.to_vec()),
        update(vec![part(0x00, &[]); 189]),
        fragment(LOC, 0, b"abc", Some(3), true),
        update(vec![part(0x04, &[0; 190]); 2]),
    ];
    drafts.iter().map(Draft::bytes).collect()
}

/// Each model cut at each byte, and with each byte put behind it.
fn every_cut() -> impl Iterator<Item = Vec<u8>> {
    models().into_iter().flat_map(|model| {
        let cut = (0..=model.len()).map(|length| model[..length].to_vec());
        let longer = (0..=255).map(|byte| [model.as_slice(), &[byte]].concat());
        cut.chain(longer).collect::<Vec<_>>()
    })
}

/// Each length of an item, with as many bytes, one fewer and one more; alone and behind a Name.
fn every_item_length() -> impl Iterator<Item = Vec<u8>> {
    (0..=255u8).flat_map(|length| {
        let counts = [length.saturating_sub(1), length, length.saturating_add(1)];
        counts.into_iter().flat_map(move |count| {
            let value = vec![0x01; usize::from(count)];
            [vec![], vec![part(NAME, b"h1")]].map(|before| {
                let mut packet = update(before).bytes();
                packet.extend([NAME, length]);
                packet.extend(&value);
                packet
            })
        })
    })
}

/// About as many empty items as fit a payload or a line, with a Name at each place.
fn many_items() -> impl Iterator<Item = Vec<u8>> {
    let fitting = (LINE_BYTES_MAX - 1 - HEAD) / 2;
    let counts = [187, 188, 189, 190, fitting];
    let places = counts
        .into_iter()
        .flat_map(|count| (0..count).map(move |place| (count, place)));
    places.map(|(count, place)| {
        let mut items = vec![part(0x00, &[]); count];
        items[place] = part(NAME, &[]);
        update(items).bytes()
    })
}

/// Each first byte, each opcode and ids at their limits before an update, an end mark and a value of no
/// bytes; and each of these packets cut by a byte.
fn every_head() -> impl Iterator<Item = Vec<u8>> {
    let bodies = [
        vec![part(NAME, b"h2"), part(INTEGER, &[5])],
        vec![part(EOF, &[])],
        vec![part(NAME, b"h1"), part(INTEGER, &[])],
    ];
    bodies.into_iter().flat_map(|items| {
        let draft = update(items);
        let firsts = (0..=255).map(|first| Draft {
            first,
            ..draft.clone()
        });
        let opcodes = (0..=255).map(|opcode| Draft {
            opcode,
            ..draft.clone()
        });
        let ids = [
            0, 1, 127, 128, 255, 256, 257, 0x0102, 0x7fff, 0x8000, 0xff00, 65_535,
        ];
        let ids = ids.into_iter().map(|id| Draft {
            id,
            ..draft.clone()
        });
        let drafts: Vec<Draft> = firsts.chain(opcodes).chain(ids).collect();
        drafts.into_iter().flat_map(|draft| {
            let packet = draft.bytes();
            let cut = packet[..packet.len() - 1].to_vec();
            [packet, cut]
        })
    })
}

/// Values of each length from 0 to 9, with a high bit and without.
fn values() -> impl Iterator<Item = Vec<u8>> {
    let lengths = 0..=9;
    lengths.flat_map(|length| {
        [[0x80, 0x00], [0x01, 0x02], [0x00, 0x01], [0xff, 0xff]].map(|[first, other]| {
            let mut value = vec![other; length];
            value.iter_mut().take(1).for_each(|byte| *byte = first);
            value
        })
    })
}

/// Each type with values of each length, and each byte as a Boolean.
fn every_value() -> impl Iterator<Item = Case> {
    let kinds = (0..=255).flat_map(|kind| values().map(move |bytes| Case::Value { kind, bytes }));
    let booleans = (0..=255).map(|byte| Case::Value {
        kind: BOOLEAN,
        bytes: vec![byte],
    });
    kinds.chain(booleans)
}

/// Each type of item right behind a Name that is watched, and right behind one that is not.
fn every_value_item() -> impl Iterator<Item = Vec<u8>> {
    (0..=255).flat_map(|kind| {
        let names: [&[u8]; 2] = [b"h2", b"h3"];
        names.into_iter().flat_map(move |name| {
            values().map(move |value| update(vec![part(NAME, name), (kind, value)]).bytes())
        })
    })
}

/// Names of each length up to 40, with each byte first, and with each byte behind a letter.
pub fn names() -> impl Iterator<Item = Vec<u8>> {
    let lengths = (0..=40).map(|length| vec![b'a'; length]);
    let bytes = (0..=255).flat_map(|byte| [vec![byte], vec![b'h', byte], vec![byte, b'1']]);
    lengths.chain(bytes)
}

fn every_name() -> impl Iterator<Item = Vec<u8>> {
    names().map(|name| {
        let items = vec![part(NAME, &name), part(INTEGER, &[5])];
        update(items).bytes()
    })
}
