//! gen_damage.rs: damage done to a book or a question, by bytes and by whole
//! records.

use crate::cases::Rng;
use crate::reading::body_length;

/// One to three damages, one after the other.
pub fn damage(r: &mut Rng, bytes: &[u8]) -> Vec<u8> {
    let times = r.pick(&[1, 1, 1, 1, 1, 1, 2, 2, 3]);
    let mut bytes = bytes.to_vec();
    for _ in 0..times {
        bytes = once(r, bytes);
    }
    bytes
}

/// The bytes cut into records; what can't be read stands as single bytes.
fn records(bytes: &[u8]) -> Vec<Vec<u8>> {
    let mut list = Vec::new();
    let mut at = 0;
    while at < bytes.len() {
        let end = (at + 1 + body_length(bytes[at]).unwrap_or(0)).min(bytes.len());
        list.push(bytes[at..end].to_vec());
        at = end;
    }
    list
}

fn any_record(r: &mut Rng) -> Vec<u8> {
    let kind = r.between(1, 11) as u8;
    let mut record = vec![kind];
    for _ in 0..body_length(kind).unwrap_or(0) {
        record.push(small(r));
    }
    record
}

fn small(r: &mut Rng) -> u8 {
    r.pick(&[0, 0, 1, 1, 2, 3, 4, 8, 9, 16, 17, 32, 33, 63, 64, 255])
}

fn unknown_kind(r: &mut Rng) -> u8 {
    r.pick(&[0x00, 0x0C, 0x0D, 0x0F, 0x20, 0x30, 0x35, 0x3C, 0x3D, 0x80, 0xFF])
}

fn once(r: &mut Rng, mut bytes: Vec<u8>) -> Vec<u8> {
    let mut list = records(&bytes);
    let byte = r.below(bytes.len());
    let record = r.below(list.len());
    // an empty one can only grow
    let choice = if bytes.is_empty() { 13 + r.below(3) } else { r.below(17) };
    match choice {
        0 => bytes[byte] ^= 1 << r.below(8),
        1 => bytes[byte] = small(r),
        2 => bytes[byte] = r.next() as u8,
        3 => bytes.truncate(byte),
        4 => {
            list.truncate(record);
            bytes = list.concat();
        }
        5 => {
            list.insert(record, any_record(r));
            bytes = list.concat();
        }
        6 => {
            list.remove(record);
            bytes = list.concat();
        }
        7 => {
            let other = r.below(list.len());
            list.swap(record, other);
            bytes = list.concat();
        }
        8 => {
            let again = list[record].clone();
            list.insert(record, again);
            bytes = list.concat();
        }
        // a number one more or one less
        9 | 10 => {
            if let Some(last) = list[record].get_mut(1..).and_then(|body| body.last_mut()) {
                *last = if r.chance(60) { last.wrapping_add(1) } else { last.wrapping_sub(1) };
            }
            bytes = list.concat();
        }
        // another kind, its body as it was
        11 => {
            list[record][0] = r.between(1, 11) as u8;
            bytes = list.concat();
        }
        // some records moved
        12 => {
            let end = r.between(record, list.len() - 1) + 1;
            let moved: Vec<Vec<u8>> = list.drain(record..end.min(record + 6)).collect();
            let to = r.below(list.len() + 1);
            list.splice(to..to, moved);
            bytes = list.concat();
        }
        13 => bytes.extend(any_record(r)),
        14 => bytes.push(r.pick(&[1, 2, 3, 4, 5, 6, 7, 8, 9, 10, 11])),
        15 => {
            list.insert(record.min(list.len()), vec![unknown_kind(r)]);
            bytes = list.concat();
        }
        _ => {
            bytes.pop();
        }
    }
    bytes
}
