//! The systematic pack: cases A to M, every byte changed, every cut, fields moved, two faults at once, small limits; and the pack of bytes.

use crate::cases;
use crate::faults;
use crate::files::{MOST_FILE, TAGS};
use crate::judge::{BYTES, WORDS};
use crate::pack::Case;
use crate::pigeon;
use crate::rules::TRUE;
use crate::writer::{self, code, codes, head, pieces, rup, sr, wsr};
use std::collections::BTreeSet;

type Files = (Vec<u8>, Vec<u8>);

pub fn cases() -> Vec<Case> {
    let small = small();
    let mut all: Vec<Case> = Vec::new();
    for files in &small {
        all.push(Case::new(files.0.clone(), files.1.clone()));
        all.extend(truncations(files));
        all.extend(byte_changes(files, |byte| telling(byte, true)));
        all.extend(field_moves(files));
        all.extend(field_edges(files));
    }
    let pigeons = pigeon::files(3);
    all.extend(truncations(&pigeons));
    all.extend(byte_changes(&pigeons, |byte| telling(byte, false)));
    all.extend(field_moves(&pigeons));
    all.extend(faults::in_one_step());
    all.extend(faults::in_two_steps());
    all.extend(faults::in_formulas());
    all.extend(slices(&small));
    all.extend(small_limits());
    once(all)
}

/// Two ways of damage often make the same case, which is wanted once.
fn once(mut all: Vec<Case>) -> Vec<Case> {
    let mut seen = BTreeSet::new();
    all.retain(|case| seen.insert(case.clone()));
    all
}

/// The pack of bytes: every byte of the files of cases A, E, I and K set to every other value.
pub fn every_byte() -> Vec<Case> {
    let chosen = cases::cases()
        .into_iter()
        .filter(|case| "AEIK".contains(case.name));
    let every: BTreeSet<u8> = (0..=255).collect();
    let changes =
        chosen.flat_map(|case| byte_changes(&(case.formula, case.proof), |_| every.clone()));
    once(changes.collect())
}

/// The values that tell most beside a byte: its neighbours and the ends; the tags too where they are asked for.
fn telling(byte: u8, with_tags: bool) -> BTreeSet<u8> {
    let near = [0, 1, 255, byte.wrapping_sub(1), byte.wrapping_add(1)];
    let tags: &[u8] = if with_tags { &TAGS } else { &[] };
    near.into_iter().chain(tags.iter().copied()).collect()
}

/// Cases A to M, and a few more whose steps are taken in other ways.
fn small() -> Vec<Files> {
    let mut small: Vec<Files> = cases::cases()
        .into_iter()
        .map(|case| (case.formula, case.proof))
        .collect();
    small.push(pigeon::files(2));
    // An SR step that passes by complements in C and by RUP, one by trivialising, then RUP, then a deletion.
    let equal = writer::formula(3, &[&[1, 2], &[-1, -2], &[-3, 1]]);
    let flip = sr(&codes(&[1, 3]), &[(1, code(-1)), (2, code(-2)), (3, TRUE)]);
    let both = sr(&codes(&[1]), &[(1, TRUE), (2, 1)]);
    let tail = [rup(&codes(&[-2])), writer::delete(&[1, 2, 5])].concat();
    small.push((equal, [flip, both, tail].concat()));
    // A WSR step that sends two literals to complements, and one modulo two clauses.
    let square = writer::formula(3, &[&[1, 2, 3], &[-1, 2], &[-2, 3], &[1, -3]]);
    let first = wsr(&codes(&[2, -3]), &[(2, code(3)), (3, code(3))], &[1, 4]);
    let second = wsr(&codes(&[3]), &[(3, TRUE)], &[5]);
    small.push((square, [first, second].concat()));
    small
}

fn with(files: &Files, formula: Option<Vec<u8>>, proof: Option<Vec<u8>>) -> Case {
    let formula = formula.unwrap_or(files.0.clone());
    Case::new(formula, proof.unwrap_or(files.1.clone()))
}

fn truncations(files: &Files) -> Vec<Case> {
    let (formula, proof) = files;
    let mut all = Vec::new();
    for length in 0..formula.len() {
        all.push(with(files, Some(formula[..length].to_vec()), None));
    }
    for length in 0..proof.len() {
        all.push(with(files, None, Some(proof[..length].to_vec())));
    }
    all
}

fn byte_changes(files: &Files, values: impl Fn(u8) -> BTreeSet<u8>) -> Vec<Case> {
    let changed = |file: &[u8]| -> Vec<Vec<u8>> {
        let mut all = Vec::new();
        for at in 0..file.len() {
            for value in values(file[at]) {
                if value == file[at] {
                    continue;
                }
                let mut copy = file.to_vec();
                copy[at] = value;
                all.push(copy);
            }
        }
        all
    };
    both(files, changed)
}

/// The same change made to the formula alone and to the proof alone.
fn both(files: &Files, change: impl Fn(&[u8]) -> Vec<Vec<u8>>) -> Vec<Case> {
    let formulas = change(&files.0)
        .into_iter()
        .map(|file| with(files, Some(file), None));
    let proofs = change(&files.1)
        .into_iter()
        .map(|file| with(files, None, Some(file)));
    formulas.chain(proofs).collect()
}

/// Fields swapped, doubled and cut.
fn field_moves(files: &Files) -> Vec<Case> {
    both(files, |file| {
        let fields = pieces(file);
        let mut all = Vec::new();
        for at in 0..fields.len() {
            let mut doubled = fields.clone();
            doubled.insert(at, fields[at].clone());
            all.push(doubled.concat());
            let mut cut = fields.clone();
            cut.remove(at);
            all.push(cut.concat());
            for other in at + 1..fields.len() {
                let mut swapped = fields.clone();
                swapped.swap(at, other);
                all.push(swapped.concat());
            }
        }
        all
    })
}

/// Each field one to four bytes longer or shorter, with its length right.
fn field_edges(files: &Files) -> Vec<Case> {
    both(files, |file| {
        let fields = pieces(file);
        let mut all = Vec::new();
        for at in 0..fields.len() {
            let (tag, payload) = (fields[at][0], &fields[at][3..]);
            for bytes in 1..=4 {
                let mut longer = fields.clone();
                longer[at] = writer::raw_field(tag, &[payload, &[0, 2, 0, 3][..bytes]].concat());
                all.push(longer.concat());
                if payload.len() >= bytes {
                    let mut shorter = fields.clone();
                    shorter[at] = writer::raw_field(tag, &payload[..payload.len() - bytes]);
                    all.push(shorter.concat());
                }
            }
        }
        all
    })
}

/// "a work slice too short", one short, exact and longer, alone and with other faults that it hides.
fn slices(small: &[Files]) -> Vec<Case> {
    let mut all = Vec::new();
    let broken = (vec![0xff], vec![0xff]);
    for files in small.iter().take(5).chain([&broken]) {
        for words in [0, WORDS - 1, WORDS, WORDS + 1, 2 * WORDS] {
            for bytes in [0, BYTES - 1, BYTES, BYTES + 1, 2 * BYTES] {
                all.push(Case {
                    words,
                    bytes,
                    formula: files.0.clone(),
                    proof: files.1.clone(),
                });
            }
        }
    }
    all
}

/// The limits that fit small files; the others are in the large pack.
fn small_limits() -> Vec<Case> {
    let full = [head(1, 16_383), [0x02, 0, 0].repeat(16_383)].concat();
    let mut all = vec![
        Case::new(vec![0; MOST_FILE + 1], Vec::new()),
        Case::new(full, rup(&[2])),
    ];
    for v in [0, 1, 4_094, 4_095, 4_096, 65_535] {
        for m in [0, 1, 16_383, 16_384, 65_535] {
            all.push(Case::new(head(v, m), Vec::new()));
            let edge = (2 * v + 1).min(65_535);
            let one = writer::field(0x02, &[edge]);
            all.push(Case::new([head(v, m), one].concat(), Vec::new()));
        }
        for over in [0, 1] {
            let literal = (2 * v + 1 + over).min(65_535);
            let variable = (v + over).min(65_535);
            all.push(Case::new(head(v, 0), rup(&[literal])));
            let twice = [(variable, literal), (variable, 0)];
            all.push(Case::new(head(v, 0), sr(&[2], &twice)));
            all.push(Case::new(head(v, 0), sr(&[2], &[(1, 0), (1, literal)])));
            all.push(Case::new(head(v, 0), wsr(&[], &twice[..1], &[])));
        }
    }
    all
}
