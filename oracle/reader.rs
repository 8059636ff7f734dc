//! A plain reader of sets, from document 01's "Reading a set" alone: refusal 3 and its place. It goes over the sets of
//! recorded/sets.bin, compares refusal 3 with the recorded answers, and prints counts and each set that differs.
//!
//!     rustc --edition 2021 -O -o reader oracle/reader.rs && ./reader oracle/recorded/sets.bin

use std::{env, fs};

#[derive(Clone, Copy, PartialEq)]
enum Sort {
    Set,
    File,
    Message,
    Field,
    Oneof,
    Enum,
    Value,
    MessageOptions,
    FieldOptions,
    ValueOptions,
}

use Sort::*;

enum Known {
    Varint,
    Text,
    Singular(Sort),
    Repeated(Sort),
}

/// The fields that document 01 lists, by descriptor.proto's numbers.
fn known(sort: Sort, number: u64) -> Option<Known> {
    Some(match (sort, number) {
        (Set, 1) => Known::Repeated(File),
        (File, 2 | 12) => Known::Text,
        (File, 4) => Known::Repeated(Message),
        (File, 5) => Known::Repeated(Enum),
        (Message, 1) => Known::Text,
        (Message, 2) => Known::Repeated(Field),
        (Message, 3) => Known::Repeated(Message),
        (Message, 4) => Known::Repeated(Enum),
        (Message, 7) => Known::Singular(MessageOptions),
        (Message, 8) => Known::Repeated(Oneof),
        (MessageOptions, 7) => Known::Varint,
        (Field, 1 | 6 | 7) => Known::Text,
        (Field, 3 | 4 | 5 | 9 | 17) => Known::Varint,
        (Field, 8) => Known::Singular(FieldOptions),
        (FieldOptions, 2 | 3) => Known::Varint,
        (Oneof, 1) => Known::Text,
        (Enum, 1) => Known::Text,
        (Enum, 2) => Known::Repeated(Value),
        (Value, 1) => Known::Text,
        (Value, 2) => Known::Varint,
        (Value, 3) => Known::Singular(ValueOptions),
        (ValueOptions, 1) => Known::Varint,
        _ => return None,
    })
}

/// A varint of at most 64 bits, and where it ends.
fn varint(part: &[u8], mut at: usize) -> Option<(u64, usize)> {
    let mut value = 0u128;
    for group in 0..10 {
        let byte = *part.get(at)?;
        at += 1;
        value |= u128::from(byte & 0x7F) << (7 * group);
        if byte & 0x80 == 0 {
            return u64::try_from(value).ok().map(|value| (value, at));
        }
    }
    None
}

/// The payload of a record behind its key, as places in the part.
fn payload(part: &[u8], wire_type: u64, at: usize) -> Option<(usize, usize)> {
    let (start, length) = match wire_type {
        0 => return varint(part, at).map(|(_, next)| (at, next)),
        1 => (at, 8),
        2 => varint(part, at).map(|(length, start)| (start, length))?,
        5 => (at, 4),
        _ => return None,
    };
    (length <= (part.len() - start) as u64).then(|| (start, start + length as usize))
}

/// The offset of the key at the first fault. `level` is how deep a message lies, the top level being 1.
fn fault(part: &[u8], offset: usize, sort: Sort, level: u32) -> Option<usize> {
    let mut met = Vec::new();
    let mut at = 0;
    while at < part.len() {
        let here = Some(offset + at);
        let Some((key, behind)) = varint(part, at) else { return here };
        let (number, wire_type) = (key / 8, key % 8);
        if number == 0 {
            return here;
        }
        let Some((start, next)) = payload(part, wire_type, behind) else { return here };
        let inner = match known(sort, number) {
            None => None,
            Some(Known::Varint) if wire_type == 0 && !met.contains(&number) => None,
            Some(Known::Text) if wire_type == 2 && !met.contains(&number) => None,
            Some(Known::Singular(inner)) if wire_type == 2 && !met.contains(&number) => Some(inner),
            Some(Known::Repeated(inner)) if wire_type == 2 => Some(inner),
            _ => return here,
        };
        met.push(number);
        let deeper = if inner == Some(Message) { level + 1 } else { level };
        if let Some(inner) = inner.filter(|_| deeper <= 16) {
            if let Some(place) = fault(&part[start..next], offset + start, inner, deeper) {
                return Some(place);
            }
        }
        at = next;
    }
    None
}

fn main() {
    let path = env::args().nth(1).expect("the path of sets.bin");
    let data = fs::read(path).expect("sets.bin");
    let (mut set, mut at) = (Vec::new(), 0);
    let (mut compared, mut differ, mut faults) = (0, 0, 0);
    while at < data.len() {
        let n: Vec<usize> = data[at..at + 10].chunks(2).map(|c| usize::from(u16::from_le_bytes([c[0], c[1]]))).collect();
        at += 10;
        let (judged, number, place) = match n[0] {
            0 => {
                set.clear();
                continue;
            }
            1 => {
                (0..n[1]).for_each(|_| set.extend_from_slice(&data[at..at + n[2]]));
                at += n[2];
                continue;
            }
            2 => (set[..n[1]].to_vec(), n[2], n[3]),
            _ => {
                let mut changed = set.clone();
                changed[n[1]] = n[2] as u8;
                (changed, n[3], n[4])
            }
        };
        if judged.len() > 32768 {
            continue;
        }
        let found = fault(&judged, 0, Set, 0);
        let recorded = (number == 3).then_some(place);
        compared += 1;
        faults += usize::from(found.is_some());
        if found != recorded {
            differ += 1;
            println!("{} bytes: {found:?}, recorded {recorded:?}", judged.len());
        }
    }
    println!("{compared} sets compared, {faults} with a fault, {differ} differ");
}
