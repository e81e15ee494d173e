//! Small random formulas, most of them with a symmetry that SR and WSR steps can use.

use crate::random::Random;
use crate::rules::{image, Clause, Witness};
use std::collections::BTreeSet;

/// Variable and the code of its atom, as a WITNESS lists them.
pub type Pairs = Vec<(u32, u32)>;

/// A formula with, often, a symmetry that its steps can use.
pub struct Seed {
    pub v: u32,
    pub clauses: Vec<Vec<u32>>,
    pub symmetry: Pairs,
}

pub fn seed_formula(random: &mut Random) -> Seed {
    let mut seed = match random.below(5) {
        0 => pigeons(random),
        1 => at_most_one(random),
        2 => parity(random),
        3 => closed_under_swap(random),
        _ => loose(random),
    };
    if random.chance(25) && !seed.clauses.is_empty() {
        let gone = random.below(seed.clauses.len());
        seed.clauses.remove(gone);
    }
    if random.chance(10) && !seed.clauses.is_empty() {
        let twin = random.below(seed.clauses.len());
        seed.clauses.push(seed.clauses[twin].clone());
    }
    if random.chance(2) {
        seed.clauses.push(Vec::new());
    }
    seed
}

fn swap_of(pairs: &[(u32, u32)]) -> Pairs {
    let both = |&(a, b): &(u32, u32)| [(a, 2 * b), (b, 2 * a)];
    pairs.iter().flat_map(both).collect()
}

/// Pigeons and holes in any small numbers, so that some are satisfiable; the symmetry swaps two pigeons.
fn pigeons(random: &mut Random) -> Seed {
    let (n, holes) = random.of(&[(2, 1), (2, 2), (3, 2), (2, 3), (3, 1), (1, 2)]);
    let p = |i: u32, j: u32| i * holes + j + 1;
    let mut clauses: Vec<Vec<u32>> = Vec::new();
    for i in 0..n {
        clauses.push((0..holes).map(|j| 2 * p(i, j)).collect());
        for j in i + 1..n {
            clauses.extend((0..holes).map(|k| vec![2 * p(i, k) + 1, 2 * p(j, k) + 1]));
        }
    }
    let other = random.below(n as usize) as u32;
    let same = other == 0;
    let pairs: Vec<(u32, u32)> = (0..holes).map(|k| (p(0, k), p(other, k))).collect();
    let symmetry = if same { Vec::new() } else { swap_of(&pairs) };
    Seed {
        v: n * holes,
        clauses,
        symmetry,
    }
}

fn at_most_one(random: &mut Random) -> Seed {
    let v = random.between(2, 5) as u32;
    let sign = random.below(2) as u32;
    let mut clauses: Vec<Vec<u32>> = Vec::new();
    for a in 1..=v {
        clauses.extend((a + 1..=v).map(|b| vec![2 * a + 1 - sign, 2 * b + 1 - sign]));
    }
    if random.chance(50) {
        clauses.push((1..=v).map(|a| 2 * a + sign).collect());
    }
    let b = random.between(2, v as usize) as u32;
    Seed {
        v,
        clauses,
        symmetry: swap_of(&[(1, b)]),
    }
}

/// Three variables with an even or odd number of true ones; the symmetry flips two of them.
fn parity(random: &mut Random) -> Seed {
    let v = random.between(3, 6) as u32;
    let odd = random.below(2) as u32;
    let mut clauses: Vec<Vec<u32>> = Vec::new();
    for bits in 0..8u32 {
        if bits.count_ones() % 2 == odd {
            clauses.push((0..3).map(|k| 2 * (k + 1) + (bits >> k & 1)).collect());
        }
    }
    for _ in 0..random.below(3) {
        clauses.push(random.clause(v, 3));
    }
    Seed {
        v,
        clauses,
        symmetry: vec![(1, 3), (2, 5)],
    }
}

fn closed_under_swap(random: &mut Random) -> Seed {
    let v = random.between(2, 6) as u32;
    let a = random.variable(v);
    let b = a % v + 1;
    let symmetry = swap_of(&[(a, b)]);
    let s: Witness = symmetry.iter().copied().collect();
    let mut clauses: Vec<Vec<u32>> = Vec::new();
    for _ in 0..random.between(1, 5) {
        let clause = random.clause(v, 3);
        let twin: Vec<u32> = clause.iter().map(|l| image(&s, *l)).collect();
        let sets: Vec<Clause> = clauses
            .iter()
            .map(|c| c.iter().copied().collect())
            .collect();
        if !sets.contains(&clause.iter().copied().collect()) {
            clauses.push(clause.clone());
        }
        if twin.iter().collect::<BTreeSet<_>>() != clause.iter().collect() {
            clauses.push(twin);
        }
    }
    Seed {
        v,
        clauses,
        symmetry,
    }
}

fn loose(random: &mut Random) -> Seed {
    let v = random.of(&[0, 1, 2, 2, 3, 3, 4, 4, 5, 6]);
    let most = random.between(1, 4);
    let clauses = (0..random.below(11))
        .map(|_| random.clause(v, most))
        .filter(|c| v > 0 && !c.is_empty());
    Seed {
        v,
        clauses: clauses.collect(),
        symmetry: Vec::new(),
    }
}
