//! Random damage to a valid case: bytes, lengths, fields and values, one to three times over.

use crate::files::TAGS;
use crate::random::Random;
use crate::writer::{pieces, raw_field};

pub fn damage(random: &mut Random, formula: &mut Vec<u8>, proof: &mut Vec<u8>) {
    let v = u32::from(formula[3]) * 256 + u32::from(formula[4]);
    let m = u32::from(formula[5]) * 256 + u32::from(formula[6]);
    for _ in 0..random.between(1, 3) {
        let file = if random.chance(35) {
            &mut *formula
        } else {
            &mut *proof
        };
        if random.chance(40) {
            bytes(random, file);
        } else {
            fields(random, file, v, m);
        }
    }
}

fn bytes(random: &mut Random, file: &mut Vec<u8>) {
    let at = random.below(file.len() + 1);
    match random.below(5) {
        0 => file.truncate(at),
        1 => file.insert(at, random.below(256) as u8),
        2 => file.extend([0x11, 0x14, 0x02].iter().take(random.between(1, 3))),
        _ if at == file.len() => {}
        3 => file[at] = random.below(256) as u8,
        _ => file[at] = telling(random, file[at]),
    }
}

fn telling(random: &mut Random, byte: u8) -> u8 {
    let near = [0, 1, 255, byte.wrapping_add(1), byte.wrapping_sub(1)];
    if random.chance(60) {
        random.of(&near)
    } else {
        random.of(&TAGS)
    }
}

fn fields(random: &mut Random, file: &mut Vec<u8>, v: u32, m: u32) {
    let mut all = pieces(file);
    if all.is_empty() {
        return;
    }
    let at = random.below(all.len());
    let other = random.below(all.len());
    match random.below(9) {
        0 => all.swap(at, other),
        1 => all.insert(at, all[other].clone()),
        2 => {
            all.remove(at);
        }
        3 if all[at].len() > 2 => {
            all[at][2] = all[at][2].wrapping_add(random.of(&[1, 2, 4, 255, 254]))
        }
        _ => payload(random, &mut all[at], v, m),
    }
    *file = all.concat();
}

/// Changes the values of a field and writes its length anew, so that only the values are wrong.
fn payload(random: &mut Random, piece: &mut Vec<u8>, v: u32, m: u32) {
    if piece.len() < 5 {
        return;
    }
    let mut payload = piece[3..].to_vec();
    let at = random.below(payload.len() / 2) * 2;
    let from = random.below(payload.len() / 2) * 2;
    let edges = [
        0,
        1,
        2,
        3,
        v,
        v + 1,
        2 * v + 1,
        2 * v + 2,
        m,
        m + 1,
        m + 2,
        16_383,
        16_384,
        65_535,
    ];
    match random.below(7) {
        0 => {
            payload.remove(at);
        }
        1 => {
            payload.drain(at..at + 2);
        }
        2 => payload.extend(payload[at..at + 2].to_vec()),
        3 => payload.extend(payload[at..(at + 4).min(payload.len())].to_vec()),
        4 => payload.copy_within(from..from + 2, at),
        // The complement of a code, or the number beside it.
        5 => payload[at + 1] ^= 1,
        _ => payload[at..at + 2].copy_from_slice(&(random.of(&edges) as u16).to_be_bytes()),
    }
    *piece = raw_field(piece[0], &payload);
}
