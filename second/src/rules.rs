//! The conditions of a step, each written as the paper's sentence says it.

use std::collections::{BTreeMap, BTreeSet};

/// "2v for variable v, 2v+1 for its complement, 0 for true, 1 for false"
pub type Code = u32;
pub const TRUE: Code = 0;
pub const FALSE: Code = 1;

pub type Clause = BTreeSet<Code>;
/// "Equal clauses under two numbers are two clauses."
pub type Clauses = BTreeMap<u32, Clause>;
/// Variable to the code of its atom.
pub type Witness = BTreeMap<u32, Code>;

/// "Complement exchanges 2k and 2k+1."
pub fn complement(code: Code) -> Code {
    if code.is_multiple_of(2) {
        code + 1
    } else {
        code - 1
    }
}

/// "Unlisted variables map to themselves; s of a complement is the complement of s. All mappings act at once."
pub fn image(s: &Witness, literal: Code) -> Code {
    let variable = literal / 2;
    let atom = s.get(&variable).copied().unwrap_or(2 * variable);
    if literal.is_multiple_of(2) {
        atom
    } else {
        complement(atom)
    }
}

fn images(s: &Witness, d: &Clause) -> Clause {
    d.iter().map(|literal| image(s, *literal)).collect()
}

/// "s trivialises D if it sends some literal of D to true, or two literals of D to complements."
pub fn trivialises(s: &Witness, d: &Clause) -> bool {
    let images = images(s, d);
    images.contains(&TRUE) || images.iter().any(|i| images.contains(&complement(*i)))
}

/// "Otherwise D under s is the images without false, each once."
pub fn under(s: &Witness, d: &Clause) -> Clause {
    let mut images = images(s, d);
    images.remove(&FALSE);
    images
}

/// "the least set that holds them and, for each clause of F and each literal in it whose fellow literals all have their complements in the set, that literal"
pub fn least_set(literals: Clause, f: &Clauses) -> Clause {
    let mut set = literals;
    loop {
        let before = set.len();
        for clause in f.values() {
            // The literals without their complement in the set: with two of them no literal follows.
            let mut open = clause.iter().filter(|l| !set.contains(&complement(**l)));
            match (open.next().copied(), open.next().copied()) {
                // No literal is open, so every literal has fellows that all have their complements in the set.
                (None, _) => set.extend(clause),
                (Some(only), None) => {
                    set.insert(only);
                }
                _ => {}
            }
        }
        if set.len() == before {
            return set;
        }
    }
}

/// "It clashes if the set holds a literal and its complement, or if some clause of F has the complement of every literal in the set. The empty clause always clashes."
pub fn clashes(literals: Clause, f: &Clauses) -> bool {
    let set = least_set(literals, f);
    let all_false = |clause: &Clause| clause.iter().all(|l| set.contains(&complement(*l)));
    set.iter().any(|l| set.contains(&complement(*l))) || f.values().any(all_false)
}

/// "C is RUP over F if propagation from the complements of its literals clashes."
pub fn rup(c: &Clause, f: &Clauses) -> bool {
    clashes(c.iter().map(|l| complement(*l)).collect(), f)
}

/// "D passes if s trivialises it, or a literal of D under s has its complement in C, or the union of C and D under s is RUP over F."
pub fn passes(d: &Clause, s: &Witness, c: &Clause, f: &Clauses) -> bool {
    if trivialises(s, d) {
        return true;
    }
    let under = under(s, d);
    under.iter().any(|l| c.contains(&complement(*l))) || rup(&(c | &under), f)
}

/// The condition that a step fails, once its fields are in order.
#[derive(Clone, Copy, Debug, PartialEq, Eq)]
pub enum Failure {
    Rup,
    Trivialised,
    /// "lowest such number, C counted with the number it would get"
    Passes(u32),
}

pub fn rup_step(c: &Clause, f: &Clauses) -> Result<(), Failure> {
    if rup(c, f) {
        Ok(())
    } else {
        Err(Failure::Rup)
    }
}

/// "SR: s trivialises C and every D of F passes."
pub fn sr_step(c: &Clause, s: &Witness, f: &Clauses) -> Result<(), Failure> {
    if !trivialises(s, c) {
        return Err(Failure::Trivialised);
    }
    match f.iter().find(|(_, d)| !passes(d, s, c, f)) {
        Some((number, _)) => Err(Failure::Passes(*number)),
        None => Ok(()),
    }
}

/// "WSR: every D of F not named in MODULO passes, and so does C. RUP is over all of F, the named clauses included."
pub fn wsr_step(
    c: &Clause,
    s: &Witness,
    modulo: &[u32],
    f: &Clauses,
    next: u32,
) -> Result<(), Failure> {
    let named: BTreeSet<u32> = modulo.iter().copied().collect();
    let unnamed = f.iter().filter(|(number, _)| !named.contains(number));
    for (number, d) in unnamed.chain([(&next, c)]) {
        if !passes(d, s, c, f) {
            return Err(Failure::Passes(*number));
        }
    }
    Ok(())
}
