//! The stored pack, which stays small: cases A to M, then some cases of every verdict and reason, a share of them random.

use crate::cases;
use crate::pack::{key, Case};
use crate::random;
use crate::refutations;
use crate::systematic;
use crate::writer::{delete, head, rup};
use std::collections::BTreeMap;

/// From each source at most this many cases of one verdict or reason.
const SYSTEMATIC: usize = 60;
const RANDOM: usize = 30;
const PIGEONS: usize = 4;
/// A case with longer files is for the other packs.
const MOST: usize = 400;

pub fn cases() -> Vec<Case> {
    let by_hand = cases::cases().into_iter();
    let mut all: Vec<Case> = by_hand
        .map(|case| Case::new(case.formula, case.proof))
        .collect();
    all.push(last_numbers());
    all.extend(share(systematic::cases(), SYSTEMATIC));
    all.extend(share(
        (1..=4).flat_map(refutations::damaged).collect(),
        PIGEONS,
    ));
    all.extend(share(random::cases(1, 4_000), RANDOM));
    all
}

/// The added numbers 16,383, taken and deleted, and 16,384: the one case whose formula is long.
fn last_numbers() -> Case {
    let formula = [head(1, 16_382), [0x02, 0, 0].repeat(16_382)].concat();
    let steps = [rup(&[2]), delete(&[16_383]), rup(&[2])];
    Case::new(formula, steps.concat())
}

/// Of each verdict and reason as many cases as asked for, spread evenly over those that there are.
fn share(from: Vec<Case>, most: usize) -> Vec<Case> {
    let mut groups: BTreeMap<String, Vec<Case>> = BTreeMap::new();
    for case in from {
        if case.formula.len() + case.proof.len() <= MOST {
            let line = case.answer().line();
            groups.entry(key(&line)).or_default().push(case);
        }
    }
    let mut all = Vec::new();
    for group in groups.values() {
        let wanted = most.min(group.len());
        all.extend((0..wanted).map(|at| group[at * group.len() / wanted].clone()));
    }
    all
}
