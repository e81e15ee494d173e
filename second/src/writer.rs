//! Writing of fields and files; literals are signed variables here, as in the paper's table.

use crate::files::{CLAUSE, DELETE, HEAD, MODULO, RUP, SR, WITNESS, WSR};

/// "2v for variable v, 2v+1 for its complement"
pub fn code(literal: i32) -> u32 {
    2 * literal.unsigned_abs() + u32::from(literal < 0)
}

pub fn codes(literals: &[i32]) -> Vec<u32> {
    literals.iter().map(|l| code(*l)).collect()
}

fn two(value: usize) -> [u8; 2] {
    u16::try_from(value)
        .expect("value fits two bytes")
        .to_be_bytes()
}

pub fn raw_field(tag: u8, payload: &[u8]) -> Vec<u8> {
    let mut bytes = vec![tag];
    bytes.extend(two(payload.len()));
    bytes.extend(payload);
    bytes
}

pub fn field(tag: u8, twos: &[u32]) -> Vec<u8> {
    let payload: Vec<u8> = twos.iter().flat_map(|t| two(*t as usize)).collect();
    raw_field(tag, &payload)
}

pub fn head(v: u32, m: u32) -> Vec<u8> {
    field(HEAD, &[v, m])
}

pub fn formula_of_codes(v: u32, clauses: &[Vec<u32>]) -> Vec<u8> {
    let mut bytes = head(v, clauses.len() as u32);
    for clause in clauses {
        bytes.extend(field(CLAUSE, clause));
    }
    bytes
}

pub fn formula(v: u32, clauses: &[&[i32]]) -> Vec<u8> {
    let clauses: Vec<Vec<u32>> = clauses.iter().map(|c| codes(c)).collect();
    formula_of_codes(v, &clauses)
}

pub fn flat(pairs: &[(u32, u32)]) -> Vec<u32> {
    pairs.iter().flat_map(|(v, atom)| [*v, *atom]).collect()
}

pub fn rup(clause: &[u32]) -> Vec<u8> {
    field(RUP, clause)
}

pub fn sr(clause: &[u32], witness: &[(u32, u32)]) -> Vec<u8> {
    [field(SR, clause), field(WITNESS, &flat(witness))].concat()
}

pub fn wsr(clause: &[u32], witness: &[(u32, u32)], modulo: &[u32]) -> Vec<u8> {
    let witness = field(WITNESS, &flat(witness));
    [field(WSR, clause), witness, field(MODULO, modulo)].concat()
}

pub fn delete(numbers: &[u32]) -> Vec<u8> {
    field(DELETE, numbers)
}

/// The fields of a well-formed file, each with its own tag and length; a damaged tail is one last piece.
pub fn pieces(file: &[u8]) -> Vec<Vec<u8>> {
    let mut pieces = Vec::new();
    let mut rest = file;
    while !rest.is_empty() {
        let length = match rest {
            [_, high, low, ..] => 3 + usize::from(*high) * 256 + usize::from(*low),
            _ => rest.len(),
        };
        let (piece, after) = rest.split_at(length.min(rest.len()));
        pieces.push(piece.to_vec());
        rest = after;
    }
    pieces
}
