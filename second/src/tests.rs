//! Few tests: the paper's cases, its two moved stowages, its five errors that look like the rule, pigeonholes.

use crate::cases::cases;
use crate::judge::{judge, Answer, State, BYTES, WORDS};
use crate::rules::{
    complement, image, least_set, passes, rup, rup_step, trivialises, Clause, Clauses, Witness,
    TRUE,
};
use crate::stowage::{all, meets, moved, Stowage};
use crate::writer::{self, code, codes, delete};
use crate::{carried, pigeon, random};

fn line(formula: &[u8], proof: &[u8]) -> String {
    judge(formula, proof, WORDS, BYTES).line()
}

fn clause(literals: &[i32]) -> Clause {
    codes(literals).into_iter().collect()
}

fn live(formula: &[u8]) -> Clauses {
    State::start(formula).expect("valid").live
}

fn swap() -> Witness {
    Witness::from([(1, code(2)), (2, code(1))])
}

fn witness_of_d() -> Witness {
    Witness::from([(1, code(2)), (2, TRUE)])
}

#[test]
fn cases_a_to_m() {
    for case in cases() {
        assert_eq!(
            line(&case.formula, &case.proof),
            case.line,
            "case {}",
            case.name
        );
    }
}

#[test]
fn bytes_of_case_a() {
    // "the formula is `01 00 04 ...`, the proof `13 00 02 ...`, and the whole output is `held 0 1 0`"
    let a = &cases()[0];
    let formula = [1, 0, 4, 0, 2, 0, 1, 2, 0, 4, 0, 3, 0, 5];
    let proof = [
        0x13, 0, 2, 0, 3, 0x21, 0, 8, 0, 1, 0, 4, 0, 2, 0, 2, 0x22, 0, 0,
    ];
    assert_eq!((&a.formula[..], &a.proof[..]), (&formula[..], &proof[..]));
}

#[test]
fn moved_stowages() {
    // "In A, the stowage 1 true, 2 false becomes 1 false, 2 true."
    let before = Stowage::from([(1, true), (2, false)]);
    let after = Stowage::from([(1, false), (2, true)]);
    assert_eq!(moved(&before, &swap()), after);
    // "Moved by the witness of D, 1 false, 2 false becomes 1 false, 2 true."
    let before = Stowage::from([(1, false), (2, false)]);
    assert_eq!(moved(&before, &witness_of_d()), after);
}

/// The wrong image: the mappings in the order of their variables, each on what the one before left.
fn one_after_another(s: &Witness, literal: u32) -> u32 {
    s.iter().fold(literal, |now, (variable, atom)| {
        image(&Witness::from([(*variable, *atom)]), now)
    })
}

#[test]
fn error_mappings_one_after_another() {
    // "Case A is then refused and D is taken."
    let f1 = live(&writer::formula(2, &[&[-1, -2]]));
    let not_one = clause(&[-1]);
    assert!(passes(&not_one, &swap(), &not_one, &f1));
    let wrong = one_after_another(&swap(), code(-1));
    assert!(!rup(&Clause::from([code(-1), wrong]), &f1));
    let d = clause(&[1]);
    assert!(!passes(&d, &witness_of_d(), &d, &Clauses::new()));
    assert_eq!(one_after_another(&witness_of_d(), code(1)), TRUE);
}

#[test]
fn error_rup_without_the_modulo_clauses() {
    // "Case G is then refused."
    let mut f3 = live(&writer::formula(3, &[&[-1, 2], &[2, 3], &[2, -3]]));
    let (c, s) = (clause(&[1]), Witness::from([(1, TRUE)]));
    assert!(passes(&f3[&1], &s, &c, &f3));
    let first = f3[&1].clone();
    f3.remove(&2);
    assert!(!passes(&first, &s, &c, &f3));
}

#[test]
fn error_no_shared_variable() {
    // "A clause is untouched only if the witness moves none of its variables."
    let formula = writer::formula(2, &[&[2]]);
    let step = writer::sr(&codes(&[1]), &[(1, TRUE), (2, code(-2))]);
    assert_eq!(line(&formula, &step), "refused 15 1 1");
    let (d, c) = (clause(&[2]), clause(&[1]));
    assert!(d.iter().all(|l| c.iter().all(|k| l / 2 != k / 2)));
    // With that clause waved through, nothing else stands against the step.
    assert_eq!(line(&writer::formula(2, &[]), &step), "held 0 1 0");
}

#[test]
fn error_unit_deletion_ignored() {
    // "Ignoring deletion of unit clauses, as some DRAT tools do. Here it counts."
    let formula = writer::formula(1, &[&[1]]);
    let proof = [delete(&[1]), writer::rup(&codes(&[1]))].concat();
    assert_eq!(line(&formula, &proof), "refused 13 2 0");
    assert_eq!(rup_step(&clause(&[1]), &live(&formula)), Ok(()));
}

#[test]
fn error_c_trivialised_in_wsr() {
    // "Asking of C in WSR that it be trivialised, as in SR."
    let a = &cases()[0];
    assert_eq!(line(&a.formula, &a.proof), "held 0 1 0");
    assert!(!trivialises(&swap(), &clause(&[-1])));
}

#[test]
fn pigeonholes_are_refuted() {
    for n in 1..=5 {
        let (formula, steps) = pigeon::steps(n);
        let answer = judge(&formula, &steps.concat(), WORDS, BYTES);
        assert_eq!(answer, Answer::Refuted(steps.len()), "n = {n}");
        assert_eq!(steps.len() as i32, n * (n - 1));
    }
}

#[test]
fn one_bit_of_the_formula_decides() {
    // samples/twenties.formula: the pigeonhole formula with its last bit turned can be met, and the refutation is refused.
    let (mut formula, proof) = pigeon::files(4);
    assert_eq!(line(&formula, &proof), "refuted 0 12 0");
    *formula.last_mut().expect("a formula has bytes") ^= 1;
    assert_eq!(line(&formula, &proof), "refused 15 3 25");
    let mut stowages = all(12);
    stowages.retain(|stowage| live(&formula).values().all(|c| meets(stowage, c)));
    assert_eq!(stowages.len(), 2);
}

/// The least set word for word: each clause, each literal in it, all its fellows.
fn least_set_word_for_word(literals: Clause, f: &Clauses) -> Clause {
    let mut set = literals;
    loop {
        let before = set.clone();
        for clause in f.values() {
            for literal in clause {
                let mut fellows = clause.iter().filter(|l| *l != literal);
                if fellows.all(|l| set.contains(&complement(*l))) {
                    set.insert(*literal);
                }
            }
        }
        if set == before {
            return set;
        }
    }
}

#[test]
fn least_sets_agree_and_stowages_hold() {
    let mut random = random::Random(1);
    let mut tally = carried::Tally::default();
    for _ in 0..300 {
        let (formula, proof) = random::valid(&mut random);
        let f = live(&formula);
        for first in f.values() {
            let start: Clause = first.iter().take(1).map(|l| complement(*l)).collect();
            let right = least_set_word_for_word(start.clone(), &f);
            assert_eq!(least_set(start, &f), right);
        }
        let line = line(&formula, &proof);
        carried::check(&formula, &proof, &line, &mut tally).expect("demand 3");
    }
    assert!(tally.moved > 0);
}

#[test]
fn steps_wrongly_taken_are_seen() {
    // B, D and E as answered by a checker that takes the step which the paper refuses, and A by one that says refuted.
    let mut tally = carried::Tally::default();
    let cases = cases();
    for (index, wrong) in [(1, "held"), (3, "held"), (4, "held"), (0, "refuted")] {
        let case = &cases[index];
        let mut check = |line: &str| carried::check(&case.formula, &case.proof, line, &mut tally);
        assert_eq!(check(case.line), Ok(()), "{}", case.name);
        assert!(check(&format!("{wrong} 0 1 0")).is_err(), "{}", case.name);
        // A line that is no answer.
        assert!(check("taken 0 1 0").is_err(), "{}", case.name);
    }
}
