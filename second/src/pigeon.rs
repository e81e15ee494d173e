//! The pigeonhole formula and its WSR refutation of document 001, figure 3, with the paper's correction.

use crate::writer::{codes, formula_of_codes, wsr};
use std::collections::BTreeMap;

/// The clauses of section 5.1 by their names.
#[derive(Clone, Copy, PartialEq, Eq, PartialOrd, Ord)]
enum Name {
    H(i32, i32),
    P(i32, i32, i32),
    R(i32, i32),
}

struct Pigeons {
    n: i32,
    numbers: BTreeMap<Name, u32>,
    last: u32,
}

impl Pigeons {
    /// "pigeon i is in hole j", for the first n pigeons and n-1 holes, as variables 1 to n(n-1).
    fn p(&self, i: i32, j: i32) -> i32 {
        (i - 1) * (self.n - 1) + j
    }

    fn clause(&self, name: Name) -> Vec<u32> {
        match name {
            Name::H(i, n) => codes(&(1..n).map(|j| self.p(i, j)).collect::<Vec<_>>()),
            Name::P(i, j, k) => codes(&[-self.p(i, k), -self.p(j, k)]),
            Name::R(i, n) => codes(&[-self.p(i, n - 1)]),
        }
    }

    fn number(&mut self, name: Name) {
        self.last += 1;
        self.numbers.insert(name, self.last);
    }

    /// "the atomic substitution that swaps pigeons i and n", over the holes below n.
    fn swap(&self, i: i32, n: i32) -> Vec<(u32, u32)> {
        let mut pairs = Vec::new();
        for j in 1..n {
            let (here, there) = (self.p(i, j), self.p(n, j));
            pairs.push((here as u32, codes(&[there])[0]));
            pairs.push((there as u32, codes(&[here])[0]));
        }
        pairs
    }

    fn step(&mut self, name: Name, witness: &[(u32, u32)], modulo: &[Name]) -> Vec<u8> {
        let mut numbers: Vec<u32> = modulo.iter().map(|name| self.numbers[name]).collect();
        numbers.sort_unstable();
        let bytes = wsr(&self.clause(name), witness, &numbers);
        self.number(name);
        bytes
    }
}

/// The names of the pigeonhole problem for n pigeons and n-1 holes.
fn problem(n: i32) -> Vec<Name> {
    let mut names: Vec<Name> = (1..=n).map(|i| Name::H(i, n)).collect();
    for i in 1..=n {
        for j in i + 1..=n {
            names.extend((1..n).map(|k| Name::P(i, j, k)));
        }
    }
    names
}

/// The formula, and the proof as one piece of bytes a step.
pub fn steps(n: i32) -> (Vec<u8>, Vec<Vec<u8>>) {
    let mut pigeons = Pigeons {
        n,
        numbers: BTreeMap::new(),
        last: 0,
    };
    let names = problem(n);
    let clauses: Vec<Vec<u32>> = names.iter().map(|name| pigeons.clause(*name)).collect();
    names.iter().for_each(|name| pigeons.number(*name));
    let formula = formula_of_codes((n * (n - 1)) as u32, &clauses);
    let mut steps = Vec::new();
    for n in (2..=n).rev() {
        for i in 1..n {
            let swap = pigeons.swap(i, n);
            steps.push(pigeons.step(Name::R(i, n), &swap, &[]));
        }
        for i in 1..n {
            let mut modulo = vec![Name::R(i, n)];
            if i == n - 1 {
                // "in the line of H with n-1, n-1, read R of n-1, n where the figure prints R of 1, n"
                let smaller = problem(n - 1);
                let gone = problem(n)
                    .into_iter()
                    .filter(|name| !smaller.contains(name));
                modulo.extend(gone);
            }
            steps.push(pigeons.step(Name::H(i, n - 1), &[], &modulo));
        }
    }
    (formula, steps)
}

pub fn files(n: i32) -> (Vec<u8>, Vec<u8>) {
    let (formula, steps) = steps(n);
    (formula, steps.concat())
}
