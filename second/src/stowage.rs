//! Stowages, what they meet, and how they move.

use crate::rules::{image, Clause, Code, Witness, FALSE, TRUE};
use std::collections::BTreeMap;

/// "A stowage gives each of the variables 1 to V true or false."
pub type Stowage = BTreeMap<u32, bool>;

/// The value of an atom: "a constant has its own value".
pub fn value(stowage: &Stowage, code: Code) -> bool {
    match code {
        TRUE => true,
        FALSE => false,
        literal => stowage[&(literal / 2)] == literal.is_multiple_of(2),
    }
}

pub fn meets(stowage: &Stowage, clause: &Clause) -> bool {
    clause.iter().any(|literal| value(stowage, *literal))
}

/// "Moved by s, it gives each variable the value that its image had before the move".
pub fn moved(stowage: &Stowage, s: &Witness) -> Stowage {
    let after = |v: &u32| (*v, value(stowage, image(s, 2 * *v)));
    stowage.keys().map(after).collect()
}

pub fn all(v: u32) -> Vec<Stowage> {
    let bit = |bits: u32, variable: u32| (variable, bits >> (variable - 1) & 1 == 1);
    (0..1u32 << v)
        .map(|bits| (1..=v).map(|variable| bit(bits, variable)).collect())
        .collect()
}
