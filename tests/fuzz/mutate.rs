//! Changes histories in ways that keep most of them whole: bytes changed at random would hardly
//! ever leave a frame its check or a field its length.

use crate::frame::{enclose, ESCAPE, FLAG};
use crate::histories::{field, Sender};
use crate::random::Random;
use std::slice;

extern "C" {
    fn LLVMFuzzerMutate(data: *mut u8, size: usize, most: usize) -> usize;
}

struct Field {
    tag: u8,
    value: Vec<u8>,
}

/// The bytes as fields, whatever they are: another tag and a cut field are put right.
fn fields(mut bytes: &[u8]) -> Vec<Field> {
    let mut fields = Vec::new();
    while let [tag, high, low, rest @ ..] = bytes {
        let tag = if (1..=3).contains(tag) {
            *tag
        } else {
            1 + tag % 3
        };
        let length = match tag {
            3 => 0,
            _ => usize::from(u16::from_be_bytes([*high, *low])).min(rest.len()),
        };
        let (value, behind) = rest.split_at(length);
        fields.push(Field {
            tag,
            value: value.to_vec(),
        });
        bytes = behind;
    }
    fields
}

/// The content of the bytes between two flags, each byte behind an escape taken as it would be.
fn unstuff(run: &[u8]) -> Vec<u8> {
    let mut content = Vec::new();
    let mut bytes = run.iter();
    while let Some(&byte) = bytes.next() {
        match byte {
            ESCAPE => content.extend(bytes.next().map(|next| next ^ 0x20)),
            plain => content.push(plain),
        }
    }
    content
}

/// The received bytes with the right check in most of the frames.
fn seal(random: &mut Random, value: &[u8]) -> Vec<u8> {
    let runs: Vec<&[u8]> = value.split(|&byte| byte == FLAG).collect();
    let last = runs.len() - 1;
    let mut sealed = Vec::new();
    for (place, run) in runs.into_iter().enumerate() {
        let content = unstuff(run);
        match content.as_slice() {
            [kind, sequence, payload @ .., _, _]
                if place != 0 && place != last && random.below(8) != 0 =>
            {
                let frame = enclose(*kind, *sequence, payload);
                sealed.extend(&frame[1..frame.len() - 1]);
            }
            _ => sealed.extend(run),
        }
        if place != last {
            sealed.push(FLAG);
        }
    }
    sealed
}

/// Bytes after the fuzzer's own changes, with some room to grow.
fn changed(bytes: &[u8]) -> Vec<u8> {
    let mut changed = bytes.to_vec();
    changed.resize(bytes.len() + 32, 0);
    let length = unsafe { LLVMFuzzerMutate(changed.as_mut_ptr(), bytes.len(), changed.len()) };
    changed.truncate(length);
    changed
}

fn sent(random: &mut Random, fields: &[Field]) -> Vec<u8> {
    let names = fields.iter().filter(|field| field.tag == 1);
    let names = names.map(|field| field.value.clone()).collect();
    let mut sender = Sender::new(random, names);
    (0..1 + random.below(4))
        .flat_map(|_| sender.part(random))
        .collect()
}

/// One change at or before a place, which is a field's or the end.
fn change(random: &mut Random, fields: &mut Vec<Field>, place: usize) {
    let inserted = |tag, value| Field { tag, value };
    match random.below(7) {
        0 => {
            let ticks = random.one_of(&[1, 1, 2, 28, 29, 30, 31]);
            fields.splice(place..place, (0..ticks).map(|_| inserted(3, Vec::new())));
        }
        1 => {
            let bytes = sent(random, fields);
            fields.insert(place, inserted(2, bytes));
        }
        _ if place == fields.len() => {}
        2 => {
            let again = inserted(fields[place].tag, fields[place].value.clone());
            let at = random.below(fields.len());
            fields.insert(at, again);
        }
        3 if fields[place].tag == 2 => {
            let cut = random.below(fields[place].value.len() + 1);
            let behind = fields[place].value.split_off(cut);
            fields.insert(place + 1, inserted(2, behind));
        }
        4 => drop(fields.remove(place)),
        _ if fields[place].tag == 3 => {}
        _ => fields[place].value = changed(&fields[place].value),
    }
}

fn mutated(random: &mut Random, history: &[u8]) -> Vec<u8> {
    let mut fields = match random.below(4) {
        0 => fields(&changed(history)),
        _ => fields(history),
    };
    for _ in 0..1 + random.below(3) {
        let place = random.below(fields.len() + 1);
        change(random, &mut fields, place);
    }
    if random.below(8) != 0 {
        fields.sort_by_key(|field| field.tag != 1);
    }
    let mut history = Vec::new();
    for Field { tag, value } in fields {
        match tag {
            2 => field(&mut history, tag, &seal(random, &value)),
            _ => field(&mut history, tag, &value),
        }
    }
    history
}

#[no_mangle]
extern "C" fn LLVMFuzzerCustomMutator(data: *mut u8, size: usize, most: usize, seed: u32) -> usize {
    let mut random = Random::new(u64::from(seed));
    if size == 0 || random.below(8) == 0 {
        return unsafe { LLVMFuzzerMutate(data, size, most) };
    }
    let history = unsafe { slice::from_raw_parts(data, size) };
    let mutated = mutated(&mut random, history);
    let length = mutated.len().min(most);
    let output = unsafe { slice::from_raw_parts_mut(data, most) };
    output[..length].copy_from_slice(&mutated[..length]);
    length
}
