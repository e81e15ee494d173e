//! Reading of the two files: fields, the formula, and one step of the proof, with the refusals in the paper's order.

use crate::rules::{Clause, Clauses, Code, Witness};
use std::collections::BTreeSet;

pub const HEAD: u8 = 0x01;
pub const CLAUSE: u8 = 0x02;
pub const RUP: u8 = 0x11;
pub const SR: u8 = 0x12;
pub const WSR: u8 = 0x13;
pub const DELETE: u8 = 0x14;
pub const WITNESS: u8 = 0x21;
pub const MODULO: u8 = 0x22;

pub const TAGS: [u8; 8] = [HEAD, CLAUSE, RUP, SR, WSR, DELETE, WITNESS, MODULO];

/// "Limits: V 0 to 4,095; m 0 to 16,383; clause numbers to 16,383; each file at most 1,048,576 bytes."
pub const MOST_V: u32 = 4_095;
pub const MOST_M: u32 = 16_383;
pub const MOST_NUMBER: u32 = 16_383;
pub const MOST_FILE: usize = 1_048_576;

/// The reasons of the table. 16 is struck and its number stays unused (02, §6).
pub const REASONS: &[u8] = &[1, 2, 3, 4, 5, 6, 7, 8, 9, 10, 11, 12, 13, 14, 15];

/// A reason of the table with its place; the step is known to the caller.
#[derive(Clone, Copy, Debug, PartialEq, Eq)]
pub struct Fault {
    pub reason: u8,
    pub place: usize,
}

pub fn fault<T>(reason: u8, place: usize) -> Result<T, Fault> {
    Err(Fault { reason, place })
}

/// "one byte tag, two bytes length (high byte first), then that many bytes"
struct Field {
    tag: u8,
    /// The payload in twos, each with its offset in the file.
    twos: Vec<(usize, u32)>,
    end: usize,
}

fn two(file: &[u8], at: usize) -> u32 {
    u32::from(file[at]) * 256 + u32::from(file[at + 1])
}

/// "HEAD has length 4, code and number lists even length, a WITNESS a multiple of 4; all but HEAD may be empty."
fn length_allowed(tag: u8, length: usize) -> bool {
    match tag {
        HEAD => length == 4,
        WITNESS => length.is_multiple_of(4),
        _ => length.is_multiple_of(2),
    }
}

/// "wrong tag, field cut short, length not allowed | offset of the tag": the field, or none for any of the three.
fn field(file: &[u8], at: usize, tags: &[u8]) -> Option<Field> {
    let tag = *file.get(at)?;
    if !tags.contains(&tag) || file.len() < at + 3 {
        return None;
    }
    let length = two(file, at + 1) as usize;
    let end = at + 3 + length;
    if file.len() < end || !length_allowed(tag, length) {
        return None;
    }
    let twos = (at + 3..end).step_by(2).map(|p| (p, two(file, p)));
    let twos = twos.collect();
    Some(Field { tag, twos, end })
}

/// A clause's codes: first the codes outside "2 to 2V+1", then the "variable twice".
fn clause_of(twos: &[(usize, u32)], v: u32, outside: u8, twice: u8) -> Result<Clause, Fault> {
    for &(place, code) in twos {
        if code < 2 || code > 2 * v + 1 {
            return fault(outside, place);
        }
    }
    first_second(twos, |code| code / 2, twice)?;
    Ok(twos.iter().map(|&(_, code)| code).collect())
}

/// "offset of its second code", "offset of the second"; "Within one reason and field the first place counts."
fn first_second(twos: &[(usize, u32)], variable: fn(u32) -> u32, reason: u8) -> Result<(), Fault> {
    let mut seen = BTreeSet::new();
    for &(place, value) in twos {
        if !seen.insert(variable(value)) {
            return fault(reason, place);
        }
    }
    Ok(())
}

#[derive(Clone, Debug)]
pub struct Formula {
    pub v: u32,
    pub m: u32,
    pub clauses: Clauses,
}

/// "In the formula: HEAD 3, 4; for each clause 7 (bytes at an end), 3, 5, 6, 16; after clause m, 7.", of which 02, §6, strikes the 16.
pub fn formula(file: &[u8]) -> Result<Formula, Fault> {
    let Some(head) = field(file, 0, &[HEAD]) else {
        return fault(3, 0);
    };
    let (v, m) = (head.twos[0].1, head.twos[1].1);
    if v > MOST_V || m > MOST_M {
        return fault(4, 0);
    }
    let mut clauses = Clauses::new();
    let mut at = head.end;
    // "Formula clauses have numbers 1 to m."
    for number in 1..=m {
        if at == file.len() {
            return fault(7, file.len());
        }
        let Some(found) = field(file, at, &[CLAUSE]) else {
            return fault(3, at);
        };
        clauses.insert(number, clause_of(&found.twos, v, 5, 6)?);
        at = found.end;
    }
    if at < file.len() {
        return fault(7, at);
    }
    Ok(Formula { v, m, clauses })
}

#[derive(Clone, Copy, Debug, PartialEq, Eq, PartialOrd, Ord)]
pub enum Kind {
    Rup,
    Sr,
    Wsr,
    Delete,
}

#[derive(Clone, Debug)]
pub struct Step {
    pub kind: Kind,
    pub clause: Clause,
    pub witness: Witness,
    /// The numbers of MODULO or of DELETE.
    pub numbers: Vec<u32>,
    /// Where the next step begins.
    pub end: usize,
}

/// "In a step: 8 over all its fields; the clause 9, 10, 16; the witness 9, 10; the numbers 11; then 12", of which 02, §6, strikes the 16.
pub fn step(proof: &[u8], at: usize, v: u32, live: &Clauses, next: u32) -> Result<Step, Fault> {
    let Some(first) = field(proof, at, &[RUP, SR, WSR, DELETE]) else {
        return fault(8, at);
    };
    let kind = match first.tag {
        RUP => Kind::Rup,
        SR => Kind::Sr,
        WSR => Kind::Wsr,
        _ => Kind::Delete,
    };
    let mut end = first.end;
    // "a WITNESS or MODULO missing | offset where the tag is or should be"
    let mut following = |wanted: bool, tag: u8| -> Result<Vec<(usize, u32)>, Fault> {
        if !wanted {
            return Ok(Vec::new());
        }
        let Some(found) = field(proof, end, &[tag]) else {
            return fault(8, end);
        };
        end = found.end;
        Ok(found.twos)
    };
    let pairs = following(kind == Kind::Sr || kind == Kind::Wsr, WITNESS)?;
    let modulo = following(kind == Kind::Wsr, MODULO)?;
    let (clause, listed) = if kind == Kind::Delete {
        (Clause::new(), first.twos)
    } else {
        (clause_of(&first.twos, v, 9, 10)?, modulo)
    };
    let witness = witness_of(&pairs, v)?;
    let numbers = numbers_of(&listed, live)?;
    // "RUP, SR or WSR step whose clause would get number 16,384 | offset of the step's tag"
    if kind != Kind::Delete && next > MOST_NUMBER {
        return fault(12, at);
    }
    Ok(Step {
        kind,
        clause,
        witness,
        numbers,
        end,
    })
}

/// "witness variable outside 1 to V, atom outside 0 to 2V+1 | offset of the two bytes", then "mapped twice".
fn witness_of(twos: &[(usize, u32)], v: u32) -> Result<Witness, Fault> {
    let mut variables = Vec::new();
    let mut witness = Witness::new();
    for pair in twos.chunks(2) {
        let ((place, variable), (atom_place, atom)) = (pair[0], pair[1]);
        if variable < 1 || variable > v {
            return fault(9, place);
        }
        if atom > 2 * v + 1 {
            return fault(9, atom_place);
        }
        variables.push((place, variable));
        witness.insert(variable, atom as Code);
    }
    first_second(&variables, |variable| variable, 10)?;
    Ok(witness)
}

/// "number not live, or not above the one before it in its list | offset of the number"
fn numbers_of(twos: &[(usize, u32)], live: &Clauses) -> Result<Vec<u32>, Fault> {
    let mut numbers: Vec<u32> = Vec::new();
    for &(place, number) in twos {
        let above = numbers.last().is_none_or(|before| number > *before);
        if !live.contains_key(&number) || !above {
            return fault(11, place);
        }
        numbers.push(number);
    }
    Ok(numbers)
}
