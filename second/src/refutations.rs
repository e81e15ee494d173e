//! The pack of pigeonholes: the refutations for n = 1 to 10, then for each n refutations with a damaged step.

use crate::files::{RUP, SR};
use crate::pack::Case;
use crate::pigeon;
use crate::writer::{delete, pieces, raw_field, rup};

pub fn cases() -> Vec<Case> {
    let whole = (1..=10).map(|n| {
        let (formula, proof) = pigeon::files(n);
        Case::new(formula, proof)
    });
    whole.chain((1..=10).flat_map(damaged)).collect()
}

/// To n = 5 every damage to every step; above that every third or fifth at some steps, since each takes a while.
pub fn damaged(n: i32) -> Vec<Case> {
    let (formula, steps) = pigeon::steps(n);
    let mut all = ends(&formula, &steps.concat());
    let one_in = match n {
        ..=5 => 1,
        6..=8 => 3,
        _ => 5,
    };
    for at in 0..steps.len() {
        if one_in > 1 && !telling(n as usize, steps.len()).contains(&at) {
            continue;
        }
        for (turn, other) in damages(&steps[at]).into_iter().enumerate() {
            if (turn + at) % one_in == 0 {
                let mut damaged = steps.clone();
                damaged[at] = other;
                all.push(Case::new(formula.clone(), damaged.concat()));
            }
        }
    }
    all
}

/// The first steps with R and with H, the last of each in the first round, one of the second round, and the last of all.
fn telling(n: usize, steps: usize) -> [usize; 6] {
    [0, n - 2, n - 1, 2 * n - 3, 2 * n - 1, steps - 1]
}

/// A step left out, doubled, given another kind, or with one value changed.
fn damages(step: &[u8]) -> Vec<Vec<u8>> {
    let fields = pieces(step);
    let of_kind = |tag: u8, count: usize| {
        let mut bytes = fields[..count].concat();
        bytes[0] = tag;
        bytes
    };
    let mut others = vec![
        Vec::new(),
        step.repeat(2),
        of_kind(RUP, 1),
        of_kind(SR, 2),
        step[..step.len() - 1].to_vec(),
    ];
    for field in 0..3 {
        let payload = &fields[field][3..];
        if payload.is_empty() {
            continue;
        }
        let mut last_flipped = fields.clone();
        *last_flipped[field].last_mut().expect("not empty") ^= 1;
        others.push(last_flipped.concat());
        let unit = if field == 1 { 4 } else { 2 };
        let tag = fields[field][0];
        let mut first_gone = fields.clone();
        first_gone[field] = raw_field(tag, &payload[unit..]);
        others.push(first_gone.concat());
        let mut first_again = fields.clone();
        first_again[field] = raw_field(tag, &[payload, &payload[..unit]].concat());
        others.push(first_again.concat());
    }
    others
}

/// A step too many after the last: a code that can't stand, a number that isn't live, half a field, and one that is taken.
fn ends(formula: &[u8], proof: &[u8]) -> Vec<Case> {
    let steps = [rup(&[0]), delete(&[16_383]), vec![0x13, 0], rup(&[])];
    steps
        .into_iter()
        .map(|step| Case::new(formula.to_vec(), [proof, &step].concat()))
        .collect()
}
