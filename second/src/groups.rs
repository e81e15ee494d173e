//! Groups of random cases for "Two facts for the manual" (02, §13): the cases of a group differ in one step.

use crate::carried::take;
use crate::judge::State;
use crate::pack::Case;
use crate::random::{self, failing, new_clause, proposal, some_of, Random, Valid};
use crate::rules::{passes, rup, Clause, Witness};
use crate::seeds::Pairs;
use crate::writer;
use std::collections::BTreeSet;

/// The cases of a group in their order: WSR with three MODULO lists, WSR with an empty witness and empty MODULO, RUP.
pub const FIRST: usize = 0;
pub const LONGER: usize = 1;
pub const OTHER: usize = 2;
pub const EMPTY: usize = 3;
pub const RUP: usize = 4;
pub const SIZE: usize = 5;

pub type List = BTreeSet<u32>;

/// The parts of the one step in which the cases of a group differ.
pub struct Parts {
    pub clause: Vec<u32>,
    pub witness: Pairs,
    pub lists: [List; 3],
}

/// A group: the formula, the steps before and the steps after are shared.
pub fn group(formula: &[u8], before: &[u8], parts: &Parts, later: &[u8]) -> Vec<Case> {
    let clause = &parts.clause;
    let with = |list: &List| {
        let numbers: Vec<u32> = list.iter().copied().collect();
        writer::wsr(clause, &parts.witness, &numbers)
    };
    let mut steps: Vec<Vec<u8>> = parts.lists.iter().map(with).collect();
    steps.extend([writer::wsr(clause, &[], &[]), writer::rup(clause)]);
    let case = |step: Vec<u8>| Case::new(formula.to_vec(), [before, &step, later].concat());
    steps.into_iter().map(case).collect()
}

pub fn cases(seed: u64, count: usize) -> Vec<Case> {
    let mut random = Random(seed);
    let mut cases = Vec::new();
    while cases.len() < SIZE * count {
        cases.extend(random_group(&mut random).unwrap_or_default());
    }
    cases
}

/// None where no list is longer than the first.
fn random_group(random: &mut Random) -> Option<Vec<Case>> {
    let valid = random::valid_with_state(random);
    let live: Vec<u32> = valid.state.live.keys().copied().collect();
    let clause = rup_or_not(random, &valid.state, &live);
    let (witness, mut needed) = telling_witness(random, &valid, &clause);
    // With a clause that is RUP every clause passes, and the list may as well be any.
    if needed.is_empty() && random.chance(50) {
        needed = some_of(random, &live, 30);
    }
    let lists = three_lists(random, &live, &needed)?;
    let parts = Parts {
        clause,
        witness,
        lists,
    };
    let later = later(random, &valid, &parts);
    let before = &valid.proof[..valid.state.at];
    Some(group(&valid.formula, before, &parts, &later))
}

fn set(codes: &[u32]) -> Clause {
    codes.iter().copied().collect()
}

/// Codes of a new clause, about as often RUP as not: where propagation from nothing clashes every clause is, so it is wanted less often.
fn rup_or_not(random: &mut Random, state: &State, live: &[u32]) -> Vec<u32> {
    let wanted = random.chance(42);
    let mut clause = new_clause(random, state, live);
    for _ in 0..20 {
        if rup(&set(&clause), &state.live) != wanted {
            clause = new_clause(random, state, live);
        }
    }
    clause
}

/// A witness and the clauses that don't pass with it, preferably some, and C not among them.
fn telling_witness(random: &mut Random, valid: &Valid, clause: &[u32]) -> (Pairs, List) {
    let (state, c) = (&valid.state, set(clause));
    let mut tries = random.of(&[1, 4, 12]);
    loop {
        let pairs = random::witness(random, state.v, clause, &valid.symmetry);
        let s: Witness = pairs.iter().copied().collect();
        let needed = failing(state, &s, &c);
        tries -= 1;
        if tries == 0 || !needed.is_empty() && passes(&c, &s, &c, &state.live) {
            return (pairs, needed);
        }
    }
}

/// The first list is what is needed, less, or empty; the longer one holds it; the other one doesn't, or is a second longer one where the
/// first is empty, since every list holds that.
fn three_lists(random: &mut Random, live: &[u32], needed: &List) -> Option<[List; 3]> {
    let all_needed: Vec<u32> = needed.iter().copied().collect();
    let first: List = match random.below(10) {
        0..=5 => needed.clone(),
        6..=8 => some_of(random, &all_needed, 60),
        _ => List::new(),
    };
    let beyond: Vec<u32> = live
        .iter()
        .copied()
        .filter(|n| !first.contains(n))
        .collect();
    if beyond.is_empty() {
        return None;
    }
    let percent = random.of(&[0, 10, 40]);
    let mut longer = &first | &some_of(random, live, percent);
    if random.chance(60) {
        longer.extend(needed);
    }
    if longer == first {
        longer.insert(random.of(&beyond));
    }
    let mut other = some_of(random, live, 20);
    if random.chance(60) {
        other.extend(&first);
    }
    let members: Vec<u32> = first.iter().copied().collect();
    if members.is_empty() {
        other.insert(random.of(&beyond));
    } else {
        other.remove(&random.of(&members));
    }
    Some([first, longer, other])
}

/// The steps after, well formed over what is live after the RUP step: mostly clauses that only the longer list removes, as RUP steps.
fn later(random: &mut Random, valid: &Valid, parts: &Parts) -> Vec<u8> {
    let mut state = valid.state.clone();
    let mut proof = [&valid.proof[..state.at], &writer::rup(&parts.clause)].concat();
    take(&mut state, &proof).expect("well formed");
    let start = proof.len();
    let removed: Vec<u32> = (&parts.lists[LONGER] - &parts.lists[FIRST])
        .into_iter()
        .collect();
    for _ in 0..random.between(1, 3) {
        if random.chance(75) {
            let clause: Vec<u32> = valid.state.live[&random.of(&removed)]
                .iter()
                .copied()
                .collect();
            proof.extend(writer::rup(&clause));
        } else {
            proof.extend(proposal(random, &state, &valid.symmetry));
        }
        take(&mut state, &proof).expect("well formed");
    }
    proof.split_off(start)
}
