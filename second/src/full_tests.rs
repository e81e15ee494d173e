//! Tests of 02, §6: clauses of V literals and of one more with their lines written by hand, the fact itself, the struck count put back,
//! and lines with a reason that isn't in the table.

use crate::cases::cases;
use crate::files::{self, Fault, CLAUSE, DELETE, REASONS, RUP, SR, WSR};
use crate::judge::{Answer, State};
use crate::pack::{absent, answer, counts, Case};
use crate::rules::Clauses;
use crate::writer::{formula_of_codes, pieces, rup, sr, wsr};
use crate::{carried, full, random, systematic};

/// Every clause has V literals. P is [1 2 .. 4095], N is [-4095 .. -2 -1].
const EXACT: [(&str, &str); 35] = [
    // With V = 0: the empty clause is live, and it always clashes; over nothing, nothing clashes.
    ("V=0 []", "refuted 0 0 0"),
    ("V=0 RUP [] over nothing", "refused 13 1 0"),
    ("V=0 RUP [] over []", "refuted 0 1 0"),
    ("V=0 RUP [] with number 16384", "refused 12 1 0"),
    // No literal of C is sent anywhere, so C isn't trivialised, and 14 comes before 15.
    ("V=0 SR [] over nothing", "refused 14 1 0"),
    ("V=0 SR [] over []", "refused 14 1 0"),
    // SR 0 to 2, WITNESS 3 to 5, the variable at 6.
    ("V=0 SR [], 1 to T", "refused 9 1 6"),
    // C would get number 1.
    ("V=0 WSR [] over nothing", "refused 15 1 1"),
    ("V=0 WSR [] over []", "refuted 0 1 0"),
    // RUP is over the named clause too; after the step C alone is live.
    ("V=0 WSR [] modulo []", "refuted 0 1 0"),
    ("V=1 [1]", "held 0 0 0"),
    ("V=1 [-1]", "held 0 0 0"),
    ("V=1 RUP [1] over [1]", "held 0 1 0"),
    ("V=1 RUP [-1] over [1]", "refused 13 1 0"),
    // All follows from 1 and its complement, yet no empty clause is live.
    ("V=1 RUP [-1] over [1], [-1]", "held 0 1 0"),
    ("V=1 SR [1], 1 to T", "held 0 1 0"),
    ("V=1 SR [-1], 1 to F", "held 0 1 0"),
    // Clause 1 becomes empty, and [-1] isn't RUP.
    ("V=1 SR [-1], 1 to F, over [1]", "refused 15 1 1"),
    // SR 0 to 4, WITNESS 5 to 7, pairs at 8 and 12.
    ("V=1 SR [1], 2 to T", "refused 9 1 8"),
    ("V=1 SR [1], 1 to T twice", "refused 10 1 12"),
    ("V=1 WSR [1]", "refused 15 1 1"),
    ("V=1 WSR [-1], 1 to F, modulo [1]", "held 0 1 0"),
    // WSR 0 to 4, WITNESS 5 to 11, MODULO 12 to 14, the number at 15.
    ("V=1 WSR [1], 1 to T, modulo 9", "refused 11 1 15"),
    ("V=4095 P", "held 0 0 0"),
    ("V=4095 N", "held 0 0 0"),
    ("V=4095 P, N", "held 0 0 0"),
    ("V=4095 RUP P over P", "held 0 1 0"),
    ("V=4095 RUP N over P", "refused 13 1 0"),
    // P becomes [2 .. 4095], and -2 is in C.
    ("V=4095 SR N, 1 to F, over P", "held 0 1 0"),
    // N becomes P: nothing true, no complements.
    ("V=4095 SR N, all turned, over P", "refused 14 1 0"),
    // SR 0 to 8192, WITNESS 8193 to 8195, the variable at 8196.
    ("V=4095 SR P, 4096 to T", "refused 9 1 8196"),
    ("V=4095 WSR N, 1 to F, over P", "held 0 1 0"),
    // P becomes N, which is C, and C isn't RUP; with P named only C has to pass, and becomes P.
    ("V=4095 WSR N, all turned, over P", "refused 15 1 1"),
    ("V=4095 WSR N, all turned, modulo P", "held 0 1 0"),
    ("V=4095 WSR P over P", "held 0 1 0"),
];

/// V, then V + 1 codes, with the line as a clause of a formula, whose codes begin at 10, and that as a clause of a step, where they begin
/// at 3, whatever comes after the clause. The last of 4,096 codes is 8,190 bytes further on.
const ONE_MORE: [(&str, &str, &str, &str); 21] = [
    ("V=0", "0", "refused 5 0 10", "refused 9 1 3"),
    ("V=0", "1", "refused 5 0 10", "refused 9 1 3"),
    ("V=0", "2", "refused 5 0 10", "refused 9 1 3"),
    ("V=1", "0 2", "refused 5 0 10", "refused 9 1 3"),
    ("V=1", "4 2", "refused 5 0 10", "refused 9 1 3"),
    ("V=1", "2 1", "refused 5 0 12", "refused 9 1 5"),
    ("V=1", "2 4", "refused 5 0 12", "refused 9 1 5"),
    ("V=1", "2 2", "refused 6 0 12", "refused 10 1 5"),
    ("V=1", "2 3", "refused 6 0 12", "refused 10 1 5"),
    ("V=1", "3 2", "refused 6 0 12", "refused 10 1 5"),
    ("V=1", "3 3", "refused 6 0 12", "refused 10 1 5"),
    ("V=4095", "1 P", "refused 5 0 10", "refused 9 1 3"),
    ("V=4095", "8192 P", "refused 5 0 10", "refused 9 1 3"),
    ("V=4095", "P 0", "refused 5 0 8200", "refused 9 1 8193"),
    ("V=4095", "P 8192", "refused 5 0 8200", "refused 9 1 8193"),
    // The second code is the one right after it, and the last one of P.
    ("V=4095", "2 P", "refused 6 0 12", "refused 10 1 5"),
    ("V=4095", "3 P", "refused 6 0 12", "refused 10 1 5"),
    ("V=4095", "8191 P", "refused 6 0 8200", "refused 10 1 8193"),
    ("V=4095", "P 2", "refused 6 0 8200", "refused 10 1 8193"),
    ("V=4095", "P 8191", "refused 6 0 8200", "refused 10 1 8193"),
    // 5 comes before 6, and 9 before 10, though the variable is twice at an earlier place.
    (
        "V=4095",
        "2 P to 8188, 8192",
        "refused 5 0 8200",
        "refused 9 1 8193",
    ),
];

/// The last clause has V + 1 codes, those before it V.
const BEHIND_OTHERS: [(&str, &str); 6] = [
    // HEAD 0 to 6, clauses at 7 and 12, the third at 17 with its codes at 20 and 22.
    ("V=1 [1], [-1], CLAUSE 2 3", "refused 6 0 22"),
    // The second clause at 12, its codes at 15 and 17.
    ("V=1 [1], CLAUSE 4 2", "refused 5 0 15"),
    // The second step at 5, its codes at 8 and 10.
    ("V=1 RUP [1], RUP 2 3", "refused 10 2 10"),
    ("V=1 RUP [1], SR 0 2", "refused 9 2 8"),
    // The second clause at 8200, its codes from 8203.
    ("V=4095 P, CLAUSE P 8192", "refused 5 0 16393"),
    // The second step at 8193, its codes from 8196.
    ("V=4095 RUP P, WSR P 3", "refused 10 2 16386"),
];

fn by_hand(rows: &[(&str, &str)]) -> Vec<(String, String)> {
    let owned = |(name, line): &(&str, &str)| (name.to_string(), line.to_string());
    rows.iter().map(owned).collect()
}

fn judged(cases: Vec<full::Named>) -> Vec<(String, String)> {
    let line = |(name, case): full::Named| (name, case.answer().line());
    cases.into_iter().map(line).collect()
}

#[test]
fn clauses_of_v_literals() {
    assert_eq!(judged(full::exact()), by_hand(&EXACT));
}

#[test]
fn clauses_of_one_more() {
    let mut lines = Vec::new();
    for (v, codes, formula, step) in ONE_MORE {
        lines.push((format!("{v} CLAUSE {codes}"), formula.to_string()));
        for field in ["RUP", "SR", "WSR"] {
            lines.push((format!("{v} {field} {codes}"), step.to_string()));
        }
    }
    lines.extend(by_hand(&BEHIND_OTHERS));
    assert_eq!(judged(full::one_more()), lines);
}

/// V as HEAD has it.
fn v_of(formula: &[u8]) -> usize {
    usize::from(formula[3]) * 256 + usize::from(formula[4])
}

/// How many codes each clause of a case has, by the lengths of the fields.
fn lengths(case: &Case) -> Vec<usize> {
    let fields = [pieces(&case.formula), pieces(&case.proof)].concat();
    let clauses = fields
        .iter()
        .filter(|f| [CLAUSE, RUP, SR, WSR].contains(&f[0]));
    clauses.map(|field| (field.len() - 3) / 2).collect()
}

#[test]
fn they_have_v_literals_and_one_more() {
    for (name, case) in full::exact() {
        let v = v_of(&case.formula);
        assert!(lengths(&case).iter().all(|codes| *codes == v), "{name}");
    }
    for (name, case) in full::one_more() {
        let (v, mut lengths) = (v_of(&case.formula), lengths(&case));
        assert_eq!(lengths.pop(), Some(v + 1), "{name}");
        assert!(lengths.iter().all(|codes| *codes == v), "{name}");
    }
}

/// Every list of at most so many codes from 0 to 2V+3.
fn every_list(v: u32, most: u32) -> Vec<Vec<u32>> {
    if most == 0 {
        return vec![vec![]];
    }
    let mut all = vec![vec![]];
    for shorter in every_list(v, most - 1) {
        all.extend((0..=2 * v + 3).map(|code| [&shorter[..], &[code]].concat()));
    }
    all
}

/// Where a list is first at fault, and whether for a variable twice: a code outside comes first.
fn first_fault(list: &[u32], v: u32) -> Option<(bool, usize)> {
    let outside = |code: &u32| !(2..=2 * v + 1).contains(code);
    let again = |at: &usize| list[..*at].iter().any(|code| code / 2 == list[*at] / 2);
    let outside = list.iter().position(outside).map(|at| (false, at));
    outside.or_else(|| (0..list.len()).find(again).map(|at| (true, at)))
}

#[test]
fn no_list_without_a_fault_has_more_than_v_codes() {
    // How many lists of 0, 1 and so on to V + 1 codes are without a fault: 2V choices for the first code, 2V-2 for the second.
    let sound: [&[usize]; 4] = [&[1, 0], &[1, 2, 0], &[1, 4, 8, 0], &[1, 6, 24, 48, 0]];
    for (v, sound) in (0..).zip(sound) {
        let mut found = vec![0; sound.len()];
        for list in every_list(v, v + 1) {
            let at_fault = first_fault(&list, v);
            found[list.len()] += usize::from(at_fault.is_none());
            let told = |reasons: [u8; 2], first: usize| {
                at_fault.map(|(twice, at)| Fault {
                    reason: reasons[usize::from(twice)],
                    place: first + 2 * at,
                })
            };
            let formula = formula_of_codes(v, std::slice::from_ref(&list));
            assert_eq!(files::formula(&formula).err(), told([5, 6], 10), "{list:?}");
            for step in [rup(&list), sr(&list, &[]), wsr(&list, &[], &[])] {
                let read = files::step(&step, 0, v, &Clauses::new(), 1);
                assert_eq!(read.err(), told([9, 10], 3), "{list:?}");
            }
        }
        assert_eq!(found, sound, "V = {v}");
    }
}

/// The number of codes of the field at an offset, and its end.
fn extent(file: &[u8], at: usize) -> (usize, usize) {
    let length = usize::from(file[at + 1]) * 256 + usize::from(file[at + 2]);
    (length / 2, at + 3 + length)
}

/// The first formula clause that is read and has more codes than the most: "offset of its tag".
fn long_clause(formula: &[u8], read: usize, most: usize) -> Option<usize> {
    let mut at = 7;
    while at + 3 <= read {
        let (codes, end) = extent(formula, at);
        if end <= read && codes > most {
            return Some(at);
        }
        at = end;
    }
    None
}

/// The first step whose clause is read and has more codes than the most, and the offset of its tag.
fn long_step(mut state: State, proof: &[u8], most: usize) -> Option<(usize, usize)> {
    while state.at < proof.len() {
        let at = state.at;
        let read = files::step(proof, at, state.v, &state.live, state.next);
        // "8 over all its fields; the clause 9, 10, 16; the witness 9, 10; the numbers 11; then 12"
        let past_the_clause = match read.err() {
            None => true,
            Some(fault) => match fault.reason {
                8 => false,
                9 | 10 => fault.place >= extent(proof, at).1,
                _ => true,
            },
        };
        if past_the_clause && proof[at] != DELETE && extent(proof, at).0 > most {
            return Some((state.taken + 1, at));
        }
        state.take(proof).ok()?;
    }
    None
}

/// The answer of a case with the struck count put back where 01 has it: 16 after 6 in the formula, after the clause's 10 in a step.
fn with_the_count(case: &Case, most: fn(usize) -> usize) -> Answer {
    let own = case.answer();
    let read = match own {
        // Up to its place all is read: nothing under 1, 2, 4 and a HEAD at fault.
        Answer::Refused { step: 0, place, .. } => place,
        _ => case.formula.len(),
    };
    if read == 0 {
        return own;
    }
    let most = most(v_of(&case.formula));
    let in_formula = long_clause(&case.formula, read, most).map(|at| (0, at));
    let state = State::start(&case.formula).ok();
    let long = in_formula.or_else(|| long_step(state?, &case.proof, most));
    long.map_or(own, |(step, place)| Answer::Refused {
        reason: 16,
        step,
        place,
    })
}

#[test]
fn the_struck_count_changes_no_answer() {
    let packs = [
        systematic::cases(),
        random::cases(5, 3_000),
        random::cases(6, 3_000),
        full::cases(),
    ];
    for (index, pack) in packs.iter().enumerate() {
        let (mut in_formulas, mut in_steps) = (0, 0);
        for case in pack {
            assert_eq!(with_the_count(case, |v| v), case.answer());
            // A count that is one too strict would come up: there are clauses of V literals to count.
            match with_the_count(case, |v| v.saturating_sub(1)) {
                Answer::Refused {
                    reason: 16, step, ..
                } if step > 0 => in_steps += 1,
                Answer::Refused { reason: 16, .. } => in_formulas += 1,
                _ => {}
            }
        }
        assert!(in_formulas > 0 && in_steps > 0, "pack {index}");
    }
}

#[test]
fn the_reasons_that_come_up_are_those_of_the_table() {
    let cases = [systematic::cases(), full::cases()].concat();
    let lines: Vec<String> = cases.iter().map(|case| case.answer().line()).collect();
    let counts = counts(&lines.join("\n")).expect("answers");
    assert_eq!(absent(&counts), []);
    assert!(!REASONS.contains(&16));
}

#[test]
fn other_reasons_are_no_answers() {
    let b = &cases()[1];
    let seen = |line: &str| {
        let held = carried::check(&b.formula, &b.proof, line, &mut carried::Tally::default());
        let counted = counts(&format!("held 0 1 0\n{line}\nrefuted 0 1 0\n"));
        assert_eq!(answer(line).is_some(), held.is_ok(), "{line}");
        assert_eq!(answer(line).is_some(), counted.is_ok(), "{line}");
        assert!(counted.err().is_none_or(|told| told.ends_with(line)));
        answer(line).is_some()
    };
    // 272 is 16 in one byte.
    for reason in 0..=300 {
        let of_the_table = REASONS.iter().any(|r| u32::from(*r) == reason);
        assert_eq!(seen(&format!("refused {reason} 1 0")), of_the_table);
    }
    for line in ["refused 16 0 7", "refused 16 2 5", "held 16 1 0", "refused"] {
        assert!(!seen(line), "{line}");
    }
}
