//! Random transfers: files in fragments, with fragments between that have a fault or several.

use crate::cases::{Case, LINE_BYTES_MAX};
use crate::draft::{fragment, number, part, Draft};
use crate::generated::{bytes, damage, id};
use crate::packet::{BINARY, EOF, LENGTH, LOCATION, NAME, OFFSET};
use crate::random::Random;
use crate::receiver::{Event, Receiver, FILE_MAX, LOC, SHOWN};
use crate::transfer::Transfer;

/// Cases until so many packets have been given.
pub fn cases(seed: u64, packets: usize) -> impl Iterator<Item = Case> {
    let mut random = Random::new(seed);
    let mut given = 0;
    std::iter::from_fn(move || {
        let events = Sender::events(&mut random);
        let more = given < packets;
        given += events.iter().filter(|event| is_packet(event)).count();
        more.then_some(Case::Transfer(events))
    })
}

fn is_packet(event: &Event) -> bool {
    matches!(event, Event::Give(packet) | Event::Alone(packet) if !packet.is_empty())
}

/// Sends files to one receiver, a transfer after the other.
struct Sender<'a> {
    random: &'a mut Random,
    receiver: Receiver,
    file: Vec<u8>,
    declared: Option<u64>,
    events: Vec<Event>,
}

impl Sender<'_> {
    /// All that a receiver meets.
    fn events(random: &mut Random) -> Vec<Event> {
        let mut sender = Sender {
            random,
            receiver: Receiver::new(),
            file: Vec::new(),
            declared: None,
            events: Vec::new(),
        };
        sender.begin();
        for _ in 0..sender.random.one_of(&[3, 6, 10, 16]) {
            sender.send();
            if sender.transfer().complete && sender.random.below(3) != 0 {
                sender.begin();
            }
        }
        if sender.random.below(4) == 0 {
            sender.look_at_all();
        }
        sender.events
    }

    /// A buffer, a file that fits it most often, and the start of its transfer.
    fn begin(&mut self) {
        let any = self.random.below(FILE_MAX + 1);
        let rooms = [0, 1, 3, 4, 8, 10, 11, 64, 300, FILE_MAX, any];
        let room = self.random.one_of(&rooms);
        let longer = room + 1 + self.random.below(3);
        let shorter = self.random.below(room + 1);
        let lengths = [room, room, shorter, shorter, shorter, longer, 0];
        let length = self.random.one_of(&lengths);
        self.file = bytes(self.random, length);
        self.declared = (self.random.below(3) != 0).then_some(length as u64);
        self.add(Event::Room(room));
        self.start();
        if self.random.below(16) == 0 {
            self.come_far();
        }
    }

    fn add(&mut self, event: Event) {
        self.receiver.meet(&event);
        self.events.push(event);
    }

    /// After a location that is refused come a fragment and a location that is not.
    fn start(&mut self) {
        if self.random.below(8) == 0 {
            let length = self.random.one_of(&[0, 65, 66, 255]);
            let location = bytes(self.random, length);
            self.add(Event::Start(location));
            self.add(Event::Give(fragment(LOC, 0, b"a", None, true).bytes()));
        }
        let any = 1 + self.random.below(64);
        let length = self.random.one_of(&[1, 2, 64, any]);
        let other = bytes(self.random, length);
        let locations: [&[u8]; 3] = [LOC, LOC, &other];
        let location = self.random.one_of(&locations).to_vec();
        self.add(Event::Start(location));
    }

    /// A fresh transfer is put to an offset that needs two or four bytes.
    fn come_far(&mut self) {
        let limits = [
            255,
            256,
            300,
            0xffff,
            0x1_0000,
            0xffff_fffe,
            0xffff_ffff,
            0x1_0000_0000,
        ];
        let next = self.random.one_of(&limits);
        self.declared = None;
        self.add(Event::Next(next));
    }

    fn transfer(&self) -> &Transfer {
        let transfer = self.receiver.transfer.as_ref();
        transfer.expect("a transfer that started")
    }

    /// A right fragment, or one with a fault or several, or a shorter buffer before it.
    fn send(&mut self) {
        let mut draft = self.right();
        if self.random.below(4) == 0 {
            self.refuse_twice(&mut draft);
        } else {
            for _ in 0..self.random.one_of(&[0, 0, 0, 1, 1, 2, 3]) {
                self.spoil(&mut draft);
            }
        }
        self.mix(&mut draft);
        let mut packet = draft.bytes();
        if self.random.below(8) == 0 {
            damage(self.random, &mut packet);
        }
        packet.truncate(LINE_BYTES_MAX);
        match self.random.below(30) {
            0 => self.add(Event::Alone(packet)),
            1 => self.send_with_other_room(packet),
            _ => self.add(Event::Give(packet)),
        }
    }

    fn send_with_other_room(&mut self, packet: Vec<u8>) {
        let room = self.receiver.room;
        let other = self.random.below(FILE_MAX + 1);
        let other = self.random.one_of(&[room.saturating_sub(1), other]);
        self.add(Event::Room(other));
        self.add(Event::Give(packet));
        self.add(Event::Room(room));
    }

    /// The fragment that comes next. The last one has EOF, or one with no bytes behind it has.
    fn right(&mut self) -> Draft {
        let next = self.transfer().next;
        let from = (next as usize).min(self.file.len());
        let left = self.file.len() - from;
        let few = 1 + self.random.below(8);
        let most = self
            .random
            .one_of(&[few, few, 100, 255, left])
            .min(left)
            .min(255);
        let binary = self.file[from..from + most].to_vec();
        let ends = most == left && (most == 0 || self.random.below(3) != 0);
        let length = self.declared.filter(|_| next == 0);
        let mut draft = fragment(&self.transfer().location, next, &binary, length, ends);
        draft.id = id(self.random);
        if self.random.below(3) == 0 {
            self.widen(&mut draft);
        }
        draft
    }

    /// Offset and Length in more bytes than they need.
    fn widen(&mut self, draft: &mut Draft) {
        for (_, value) in draft
            .items
            .iter_mut()
            .filter(|item| [OFFSET, LENGTH].contains(&item.0))
        {
            let width = self.random.one_of(&[2, 4]);
            while value.len() < width {
                value.insert(0, 0);
            }
        }
    }

    /// The items in any order.
    fn mix(&mut self, draft: &mut Draft) {
        for place in (1..draft.items.len()).rev() {
            draft.items.swap(place, self.random.below(place + 1));
        }
    }

    /// Two faults, most often of two refusals.
    fn refuse_twice(&mut self, draft: &mut Draft) {
        for _ in 0..2 {
            match self.random.below(9) {
                0 => draft.first = 2,
                1 => draft.tail = vec![LOCATION, 9],
                2 => draft.opcode = 0x03,
                3 => draft.items.push(part(0x05, b"t")),
                4 => self.name_another(draft),
                5 => draft.put(OFFSET, number(self.one_off())),
                6 => self.pass_the_room(draft),
                _ => self.end_early(draft),
            }
        }
    }

    /// A location that differs in one bit.
    fn name_another(&mut self, draft: &mut Draft) {
        let mut other = self.transfer().location.clone();
        other[0] ^= 1;
        draft.put(LOCATION, other);
    }

    fn one_off(&self) -> u64 {
        let next = self.transfer().next;
        next.checked_sub(1).unwrap_or(1)
    }

    fn pass_the_room(&mut self, draft: &mut Draft) {
        let length = (self.room_left() + 1).min(255);
        draft.put(BINARY, bytes(self.random, length));
    }

    fn room_left(&self) -> usize {
        (self.receiver.room as u64).saturating_sub(self.transfer().next) as usize
    }

    fn spoil(&mut self, draft: &mut Draft) {
        let place = self.random.below(draft.items.len() + 1);
        let there = draft.items.get(place).cloned();
        match (self.random.below(12), there) {
            (0, Some(item)) => draft.items.push(item),
            (1, Some(_)) => drop(draft.items.remove(place)),
            (2, _) => draft
                .items
                .push(part(self.random.one_of(&[NAME, 0x05, 0x06, 0xff]), b"h1")),
            (3, _) => draft.opcode = self.random.one_of(&[0x03, 0x0a, 0x0c, 0x1b]),
            (4, _) => draft.first = self.random.one_of(&[0, 2, 0x0b]),
            (5, _) => draft.items.push(part(EOF, &[])),
            (6, _) => self.spoil_location(draft),
            (7, _) => self.spoil_number(draft, OFFSET),
            (8, _) => self.spoil_number(draft, LENGTH),
            (9, _) => self.declare(draft),
            (10, _) => self.end_early(draft),
            _ => self.spoil_binary(draft),
        }
    }

    fn spoil_location(&mut self, draft: &mut Draft) {
        let mut other = self.transfer().location.clone();
        match self.random.below(4) {
            0 => other.clear(),
            1 => other.resize(65, b'l'),
            2 => other.push(0),
            _ => drop(other.pop()),
        }
        draft.put(LOCATION, other);
    }

    /// Another number near the right one or near a limit, or one that has a bad length.
    fn spoil_number(&mut self, draft: &mut Draft, kind: u8) {
        let right = if kind == OFFSET {
            self.transfer().next
        } else {
            self.file.len() as u64
        };
        let numbers = [
            0,
            1,
            right,
            right + 1,
            right.saturating_sub(1),
            255,
            256,
            0xffff,
            0xffff_ffff,
        ];
        let mut value = number(self.random.one_of(&numbers));
        if self.random.below(3) == 0 {
            value.resize(self.random.one_of(&[0, 3, 5, 8]), 0);
        }
        draft.put(kind, value);
    }

    /// A Length that is less than it should be, or more, or more than the buffer.
    fn declare(&mut self, draft: &mut Draft) {
        let room = self.receiver.room as u64;
        let length = self.file.len() as u64;
        let lengths = [0, 1, length.saturating_sub(1), length + 1, room, room + 1];
        draft.put(LENGTH, number(self.random.one_of(&lengths)));
    }

    /// EOF one byte before the file's end, or some more.
    fn end_early(&mut self, draft: &mut Draft) {
        let left = (self.file.len() as u64).saturating_sub(self.transfer().next) as usize;
        let fewer = left
            .saturating_sub(self.random.one_of(&[1, 1, 2, 9]))
            .min(255);
        draft.put(BINARY, bytes(self.random, fewer));
        draft.put(EOF, Vec::new());
    }

    fn spoil_binary(&mut self, draft: &mut Draft) {
        let fitting = self.room_left().min(255);
        let any = self.random.below(256);
        let length = self.random.one_of(&[0, 0, 1, fitting, any]);
        draft.put(BINARY, bytes(self.random, length));
    }

    /// A packet of no bytes is refused, and shows the end of the buffer: each piece in turn.
    fn look_at_all(&mut self) {
        let room = self.receiver.room;
        for end in (SHOWN..FILE_MAX).step_by(SHOWN).chain([FILE_MAX]) {
            self.add(Event::Room(end));
            self.add(Event::Give(Vec::new()));
            if end > room + SHOWN {
                break;
            }
        }
    }
}
