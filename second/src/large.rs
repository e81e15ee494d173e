//! The large pack: both sides of the limits that need large files, long chains and wide clauses, clauses of V literals and of one more.

use crate::faults;
use crate::files::{CLAUSE, MOST_FILE};
use crate::full;
use crate::judge::{BYTES, WORDS};
use crate::pack::Case;
use crate::writer::{code, codes, delete, field, formula_of_codes, head, raw_field, rup, sr, wsr};

pub fn cases() -> Vec<Case> {
    let mut all = Vec::new();
    all.extend(many_clauses());
    all.extend(last_number());
    all.extend(long_formulas());
    all.extend(long_proofs());
    all.extend(wide_clauses());
    all.extend(chains());
    all.extend(both_long());
    all.extend(too_long_beside_others());
    all.extend(faults::past_the_last_number());
    all.extend(full::cases());
    all
}

/// m clauses, all of them the same.
fn same(v: u32, m: u32, literals: &[i32]) -> Vec<u8> {
    let clause = field(CLAUSE, &codes(literals));
    [head(v, m), clause.repeat(m as usize)].concat()
}

/// m 16,383 and 16,384, with a clause too few and too many.
fn many_clauses() -> Vec<Case> {
    let mut all = Vec::new();
    for m in [16_383, 16_384] {
        let file = same(2, m, &[]);
        all.push(Case::new(file.clone(), Vec::new()));
        all.push(Case::new(file[..file.len() - 3].to_vec(), Vec::new()));
        all.push(Case::new(file[..file.len() - 1].to_vec(), Vec::new()));
        all.push(Case::new([&file[..], &[2, 0, 0]].concat(), Vec::new()));
        let mut last_wrong = file.clone();
        *last_wrong.last_mut().expect("not empty") = 1;
        all.push(Case::new(last_wrong, Vec::new()));
    }
    let units = same(2, 16_383, &[1]);
    let every: Vec<u32> = (1..=16_383).collect();
    all.push(Case::new(units.clone(), delete(&every)));
    all.push(Case::new(
        units.clone(),
        delete(&[every.clone(), vec![16_384]].concat()),
    ));
    all.push(Case::new(
        units.clone(),
        [delete(&every), delete(&[16_383])].concat(),
    ));
    all.push(Case::new(same(2, 16_383, &[]), delete(&every[1..])));
    all.push(Case::new(same(2, 16_383, &[]), delete(&every)));
    // One modulo nearly all: only C and the last clause have to pass.
    let modulo = &every[..16_381];
    let step = wsr(&codes(&[-1]), &[(1, code(-1))], modulo);
    all.push(Case::new(same(2, 16_382, &[1]), step));
    let step = wsr(&codes(&[2]), &[(2, 0)], &every[..16_382]);
    all.push(Case::new(
        same(2, 16_382, &[1]),
        [step, delete(&[1])].concat(),
    ));
    all
}

/// An added number 16,383 and 16,384, with faults that come before 12 and after it.
fn last_number() -> Vec<Case> {
    let mut all = Vec::new();
    let near = same(2, 16_382, &[1]);
    let full = same(2, 16_383, &[1]);
    let taken = rup(&codes(&[1, 2]));
    let steps = [
        taken.clone(),
        rup(&codes(&[2])),
        rup(&[0]),
        rup(&[2, 2]),
        sr(&codes(&[2]), &[(2, 0)]),
        sr(&codes(&[2]), &[]),
        sr(&codes(&[2]), &[(2, 0), (2, 0)]),
        wsr(&codes(&[2]), &[(2, 0)], &[16_384]),
        wsr(&codes(&[2]), &[(2, 0)], &[7, 7]),
        wsr(&codes(&[2]), &[(2, 0)], &[1, 16_383]),
        delete(&[16_383]),
        delete(&[16_384]),
        vec![0x11, 0, 1, 0],
    ];
    for step in &steps {
        all.push(Case::new(full.clone(), step.clone()));
    }
    for step in [&steps[0], &steps[1], &steps[9], &steps[10], &Vec::new()] {
        let proof = [taken.clone(), step.clone()].concat();
        all.push(Case::new(near.clone(), proof));
    }
    all.push(Case::new(
        near,
        [rup(&codes(&[1])), rup(&codes(&[1]))].concat(),
    ));
    // Numbers used up by steps that are deleted again: "Numbers are never used again."
    let one = formula_of_codes(1, &[vec![2]]);
    let mut proof = Vec::new();
    for number in 2..=16_383 {
        proof.extend(rup(&[2]));
        proof.extend(delete(&[number]));
    }
    all.push(Case::new(one.clone(), proof.clone()));
    all.push(Case::new(one.clone(), [proof.clone(), rup(&[2])].concat()));
    all.push(Case::new(one, [proof, delete(&[1, 16_383])].concat()));
    all
}

/// 129 clauses in exactly 1,048,576 bytes, the last one empty.
fn longest_formula() -> Vec<u8> {
    let literals: Vec<u32> = (1..=4_095).map(|v| 2 * v + v % 2).collect();
    let mut clauses = vec![literals.clone(); 127];
    // What is left takes two clauses, since 7 bytes and three a clause have to come out even.
    let rest = (MOST_FILE - 7 - 127 * (3 + 8_190) - 6) / 2;
    clauses.push(literals[..rest].to_vec());
    clauses.push(Vec::new());
    let exact = formula_of_codes(4_095, &clauses);
    assert_eq!(exact.len(), MOST_FILE);
    exact
}

/// A valid formula of exactly 1,048,576 bytes, one more, and one more beside shorter work memory.
fn long_formulas() -> Vec<Case> {
    let exact = longest_formula();
    let longer = [&exact[..], &[0]].concat();
    let mut short_memory = Case::new(longer.clone(), Vec::new());
    short_memory.words = WORDS - 1;
    let mut ends_wrong = exact.clone();
    ends_wrong[MOST_FILE - 3] = 3;
    vec![
        Case::new(exact, delete(&[129])),
        Case::new(longer, Vec::new()),
        Case::new(ends_wrong, Vec::new()),
        short_memory,
    ]
}

/// A proof of exactly 1,048,576 bytes, all taken; one more byte; and a fault in its last field.
fn long_proofs() -> Vec<Case> {
    let one = formula_of_codes(4_095, &[vec![2], vec![]]);
    let wide: Vec<u32> = (1..=4_095).map(|v| 2 * v).collect();
    let mut proof = Vec::new();
    let mut number = 3;
    while proof.len() + 8_193 + 5 + 3 < MOST_FILE {
        proof.extend(rup(&wide));
        proof.extend(delete(&[number]));
        number += 1;
    }
    // Empty deletions, one of them with two numbers where the rest isn't a multiple of three.
    while proof.len() < MOST_FILE {
        let left = MOST_FILE - proof.len();
        match left % 3 {
            1 => proof.extend(delete(&[1, 2])),
            2 => proof.extend(delete(&[2])),
            _ => proof.extend(delete(&[])),
        }
    }
    assert_eq!(proof.len(), MOST_FILE);
    let longer = [&proof[..], &[0x14]].concat();
    let mut cut = proof.clone();
    *cut.last_mut().expect("not empty") = 2;
    let steps = [0x14, 0, 0].repeat(20_000);
    vec![
        Case::new(one.clone(), proof),
        Case::new(one.clone(), longer),
        Case::new(one.clone(), cut),
        Case::new(one, steps),
    ]
}

/// Both files of exactly 1,048,576 bytes, which leaves room for 349,524 steps; then each of them, and both, a byte longer.
fn both_long() -> Vec<Case> {
    let formula = longest_formula();
    let empty = (MOST_FILE - 7) / 3;
    let proof = [delete(&[128, 129]), delete(&[]).repeat(empty)].concat();
    assert_eq!(proof.len(), MOST_FILE);
    let longer = |file: &[u8]| [file, &[0x14]].concat();
    vec![
        Case::new(formula.clone(), proof.clone()),
        Case::new(longer(&formula), proof.clone()),
        Case::new(formula.clone(), longer(&proof)),
        Case::new(longer(&formula), longer(&proof)),
    ]
}

/// A proof a byte too long beside each fault of a formula, which it hides, and beside short work memory, which hides it.
fn too_long_beside_others() -> Vec<Case> {
    let proof = vec![0x14; MOST_FILE + 1];
    let formulas = [
        Vec::new(),
        vec![0x02, 0, 0],
        head(4_096, 0),
        formula_of_codes(1, &[vec![4]]),
        formula_of_codes(1, &[vec![2, 3]]),
        head(1, 1),
    ];
    let mut all: Vec<Case> = formulas
        .into_iter()
        .map(|formula| Case::new(formula, proof.clone()))
        .collect();
    for (words, bytes) in [
        (WORDS - 1, BYTES),
        (WORDS, BYTES - 1),
        (WORDS + 1, BYTES + 1),
    ] {
        let mut case = Case::new(head(0, 0), proof.clone());
        (case.words, case.bytes) = (words, bytes);
        all.push(case);
    }
    all
}

/// Clauses and witnesses of all 4,095 variables, and lists longer than any clause can be.
fn wide_clauses() -> Vec<Case> {
    let v = 4_095;
    let positive: Vec<u32> = (1..=v).map(|x| 2 * x).collect();
    let negative: Vec<u32> = (1..=v).map(|x| 2 * x + 1).collect();
    let mut all = Vec::new();
    let one = formula_of_codes(v, std::slice::from_ref(&positive));
    all.push(Case::new(one.clone(), rup(&positive)));
    all.push(Case::new(one.clone(), rup(&positive[1..])));
    all.push(Case::new(one.clone(), rup(&negative)));
    let flip: Vec<(u32, u32)> = (1..=v).map(|x| (x, 2 * x + 1)).collect();
    let turn: Vec<(u32, u32)> = (1..=v).map(|x| (x, 2 * (x % v + 1))).collect();
    let all_true: Vec<(u32, u32)> = (1..=v).map(|x| (x, 0)).collect();
    all.push(Case::new(one.clone(), sr(&positive[..9], &all_true)));
    all.push(Case::new(one.clone(), sr(&negative, &flip)));
    all.push(Case::new(one.clone(), wsr(&negative, &flip, &[])));
    all.push(Case::new(one.clone(), wsr(&positive[1..], &turn, &[])));
    all.push(Case::new(one.clone(), wsr(&positive, &turn, &[])));
    all.push(Case::new(one.clone(), wsr(&[positive[0]], &turn, &[])));
    // A field of 65,534 bytes can only have a code outside or a variable twice.
    let many = [&positive[..], &positive, &positive, &positive].concat();
    let long = raw_field(CLAUSE, &[0xff].repeat(65_534));
    all.push(Case::new([head(v, 1), long].concat(), Vec::new()));
    all.push(Case::new(
        [head(v, 1), field(CLAUSE, &many)].concat(),
        Vec::new(),
    ));
    all.push(Case::new(one.clone(), rup(&many)));
    let last_again = [&positive[..], &[8_191]].concat();
    all.push(Case::new(one.clone(), rup(&last_again)));
    let last_over = [&positive[..4_094], &[8_192]].concat();
    all.push(Case::new(one.clone(), rup(&last_over)));
    let again = [&turn[..], &[(4_095, 8_191)]].concat();
    all.push(Case::new(one.clone(), sr(&positive, &again)));
    let over = [&turn[..4_094], &[(4_096, 8_191)]].concat();
    all.push(Case::new(one, sr(&positive, &over)));
    all
}

/// Implications from 1 to the last variable, in order and against it; then the last one missing.
fn chains() -> Vec<Case> {
    let mut all = Vec::new();
    for (v, turned) in [(4_095, false), (2_000, true)] {
        let mut clauses: Vec<Vec<u32>> = (1..v).map(|x| vec![2 * x + 1, 2 * x + 2]).collect();
        if turned {
            clauses.reverse();
        }
        let ends = vec![3, 2 * v];
        let formula = formula_of_codes(v, &clauses);
        all.push(Case::new(formula, rup(&ends)));
        clauses.pop();
        let formula = formula_of_codes(v, &clauses);
        all.push(Case::new(formula, rup(&ends)));
    }
    all
}
