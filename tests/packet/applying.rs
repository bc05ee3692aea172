//! All the refusals that apply to a packet, each looked for as if those before it did not apply. The
//! first is the answer ("Refusal numbers" of document 01); the second says what the order hides.

use crate::board::{read_value, UPDATE};
use crate::cases::lent_board;
use crate::packet::{
    is_name, items_before_fault, read_packet, Item, Packet, BINARY, DATA, EOF, HEAD, LENGTH,
    LOCATION, NAME, OFFSET,
};
use crate::transfer::{fragment_of, unsigned, Fragment, Transfer, FRAGMENT};

/// Those of 9 and 10 that apply, and the packet without what they refuse.
fn mended(bytes: &[u8]) -> (Vec<u8>, Vec<u8>) {
    let mut numbers = Vec::new();
    let mut mended = bytes.to_vec();
    if bytes.len() < HEAD || bytes[0] != DATA {
        numbers.push(9);
        mended.resize(bytes.len().max(HEAD), 0);
        mended[0] = DATA;
    }
    let (items, fault) = items_before_fault(&mended, HEAD);
    if fault.is_some() {
        numbers.push(10);
        let end = items.last().map_or(HEAD, Item::end);
        mended.truncate(end);
    }
    (numbers, mended)
}

/// The refusals of the board.
pub fn board_numbers(bytes: &[u8]) -> Vec<u8> {
    let (mut numbers, bytes) = mended(bytes);
    let packet = read_packet(&bytes).expect("a packet");
    let names = packet.look(NAME);
    let end_mark = names.count == 0 && packet.look(EOF).count > 0;
    let bad_name = |name: Item| !is_name(name.value);
    let bad_value = !names.behind.is_some_and(|item| read_value(&item).is_ok());
    let rows = lent_board().rows;
    let unknown = |name: Item| rows.iter().all(|row| row.name != name.value);
    let applying = [
        (11, packet.opcode != UPDATE),
        (
            12,
            !end_mark && (names.count != 1 || names.first.is_some_and(bad_name)),
        ),
        (13, names.count > 0 && bad_value),
        (14, names.first.is_some_and(unknown)),
    ];
    numbers.extend(applying.iter().filter(|entry| entry.1).map(|entry| entry.0));
    numbers
}

/// The refusals of a transfer that has a buffer of so many bytes.
pub fn fragment_numbers(transfer: &Transfer, bytes: &[u8], room: usize) -> Vec<u8> {
    let (mut numbers, bytes) = mended(bytes);
    let packet = read_packet(&bytes).expect("a packet");
    if packet.opcode != FRAGMENT {
        numbers.push(11);
    }
    if fragment_of(&packet).is_err() {
        numbers.push(20);
    }
    let faults = transfer.faults(&first_of_each(&packet, transfer), room as u64);
    numbers.extend(faults.into_iter().map(|refusal| refusal.number()));
    numbers.dedup();
    numbers
}

/// The fragment that the first item of each type makes. What is missing or bad is as it should be.
fn first_of_each<'a>(packet: &Packet<'a>, transfer: &'a Transfer) -> Fragment<'a> {
    let first = |kind| packet.look(kind).first.map(|item| item.value);
    Fragment {
        location: first(LOCATION).unwrap_or(&transfer.location),
        offset: first(OFFSET).and_then(unsigned).unwrap_or(transfer.next),
        length: first(LENGTH).and_then(unsigned),
        binary: first(BINARY).unwrap_or(&[]),
        eof: first(EOF).is_some(),
    }
}
