//! Tests of what tries the two facts of 02, §13: lines that break one are seen, groups that are none are, and each count is what it says.

use crate::groups::{self, EMPTY, FIRST, LONGER, OTHER, RUP, SIZE};
use crate::pack::Case;
use crate::rules::{rup_step, trivialises, wsr_step, Clause, Clauses, Failure, Witness, TRUE};
use crate::writer::{self, codes, delete};
use crate::{facts, random};

/// 1:[-1 2], 2:[3], 3:[3]; the steps before; the clause with its literals sent to true, modulo 1 and 2, or 1 to 4, or 2; then RUP [3].
fn group_after(before: &[u8], literals: &[i32]) -> Vec<Case> {
    let parts = groups::Parts {
        clause: codes(literals),
        witness: codes(literals).iter().map(|c| (c / 2, TRUE)).collect(),
        lists: [[1, 2].into(), [1, 2, 3, 4].into(), [2].into()],
    };
    // With V = 9 the tags of RUP and WSR are codes too.
    let formula = writer::formula(9, &[&[-1, 2], &[3], &[3]]);
    groups::group(&formula, before, &parts, &writer::rup(&codes(&[3])))
}

/// The step before is RUP [3], which gets number 4.
fn group_of(literals: &[i32]) -> Vec<Case> {
    group_after(&writer::rup(&codes(&[3])), literals)
}

#[test]
fn broken_facts_are_seen() {
    let not_rup = "held 0 3 0,refused 13 3 0,refused 15 2 1,refused 15 2 5,refused 13 2 0";
    let is_rup = ["held 0 3 0"; SIZE].join(",");
    let (one, three): (&[i32], &[i32]) = (&[1], &[3]);
    let wrong = [
        (one, not_rup, LONGER, "refused 15 2 3", "fact 1"),
        (three, &is_rup, LONGER, "refused 15 2 3", "fact 1"),
        (three, &is_rup, FIRST, "refused 15 2 3", "fact 1"),
        (one, not_rup, EMPTY, "held 0 3 0", "fact 2"),
        (one, not_rup, RUP, "refused 13 3 0", "fact 2"),
        (three, &is_rup, EMPTY, "refused 15 2 5", "fact 2"),
        (three, &is_rup, RUP, "refused 13 2 0", "fact 2"),
        (three, &is_rup, RUP, "refused 13 3 0", "what follows"),
        (three, &is_rup, EMPTY, "refuted 0 3 0", "what follows"),
        (one, not_rup, EMPTY, "refused 15 2 2", "C would get 5"),
        (one, not_rup, EMPTY, "refused 13 2 0", "its condition"),
        (one, not_rup, OTHER, "refused 14 2 1", "its condition"),
        (one, not_rup, OTHER, "refused 15 2 0", "its condition"),
        (one, not_rup, RUP, "refused 13 2 1", "its condition"),
        (one, not_rup, RUP, "refused 14 2 0", "its condition"),
        (one, not_rup, RUP, "refused 15 2 5", "its condition"),
        (one, not_rup, RUP, "held 0 1 0", "ends before"),
        (one, not_rup, RUP, "held 0 3 0 memory", "not an answer"),
        (one, not_rup, LONGER, "refused 16 3 0", "not an answer"),
    ];
    for (literals, right, index, line, message) in wrong {
        let group = group_of(literals);
        let mut lines: Vec<&str> = right.split(',').collect();
        let own: Vec<String> = group.iter().map(|case| case.answer().line()).collect();
        assert_eq!(own, lines);
        let check = |lines: &[&str]| facts::check(&group, lines, &mut facts::Tally::default());
        assert_eq!(check(&lines), Ok(()));
        lines[index] = line;
        let told = check(&lines).expect_err(line);
        assert!(told.contains(message) && told.contains("\nformula [01, 00, 04, "));
        assert_eq!(told.matches("\nproof [1").count(), 2, "{told}");
    }
}

/// The group of the clause with another step in one case.
fn group_with(literals: &[i32], index: usize, step: &[u8]) -> Vec<Case> {
    let three = writer::rup(&codes(&[3]));
    let mut group = group_of(literals);
    group[index].proof = [&three[..], step, &three].concat();
    group
}

/// Steps with which the group of [3] is none: the one thing that is wrong, the case, the step.
fn wrong_steps() -> [(&'static str, usize, Vec<u8>); 12] {
    let c = codes(&[3]);
    let wsr = |witness: &[(u32, u32)], list: &[u32]| writer::wsr(&c, witness, list);
    let sr = |witness: &[(u32, u32)]| writer::sr(&c, witness);
    let s = [(3, TRUE)];
    [
        ("longer: as long", LONGER, wsr(&s, &[1, 2])),
        ("longer: without 2", LONGER, wsr(&s, &[1, 3, 4])),
        ("longer: 5 isn't live", LONGER, wsr(&s, &[1, 2, 5])),
        ("longer: witness", LONGER, wsr(&[], &[1, 2, 3, 4])),
        ("other: holds the first", OTHER, wsr(&s, &[1, 2, 3])),
        ("other: witness", OTHER, wsr(&[], &[2])),
        ("nothing: witness", EMPTY, wsr(&s, &[])),
        ("nothing: MODULO", EMPTY, wsr(&[], &[2])),
        ("first: SR", FIRST, sr(&s)),
        ("other: SR", OTHER, sr(&s)),
        ("nothing: SR", EMPTY, sr(&[])),
        ("RUP: SR", RUP, sr(&[])),
    ]
}

/// The last literal becomes its complement.
fn turn_last(bytes: &mut [u8]) {
    *bytes.last_mut().expect("not empty") ^= 1;
}

type Change = fn(&mut Case);

/// What the cases of a group share, changed in one: the step before has five bytes, and five more reach to the end of the clause.
const CHANGES: [(&str, Change); 6] = [
    ("words", |case| case.words += 1),
    ("bytes", |case| case.bytes += 1),
    ("formula", |case| turn_last(&mut case.formula)),
    ("step before", |case| turn_last(&mut case.proof[..5])),
    ("clause", |case| turn_last(&mut case.proof[..10])),
    ("step after", |case| turn_last(&mut case.proof)),
];

#[test]
fn groups_that_are_none_are_seen() {
    let seen = |why: &str, group: &[Case]| {
        let told = facts::check(group, &["held 0 3 0"; SIZE], &mut facts::Tally::default());
        assert!(told.expect_err(why).starts_with("not a group"), "{why}");
    };
    for (a, b) in [(0, 1), (0, 4), (1, 2), (2, 3), (3, 4)] {
        let mut group = group_of(&[3]);
        group.swap(a, b);
        seen("exchanged", &group);
    }
    for (why, index, step) in wrong_steps() {
        seen(why, &group_with(&[3], index, &step));
    }
    let step = delete(&[1, 2, 3, 4]);
    seen("longer: DELETE", &group_with(&[], LONGER, &step));
    for index in LONGER..SIZE {
        for (why, change) in CHANGES {
            let mut group = group_of(&[3]);
            change(&mut group[index]);
            seen(why, &group);
        }
    }
    let mut group = group_of(&[3]);
    group.push(group[FIRST].clone());
    seen("a sixth case", &group);
    group.iter_mut().for_each(|case| case.formula.clear());
    seen("no formula", &group[..SIZE]);
    let before = [writer::rup(&codes(&[3])), delete(&[5])].concat();
    seen("before: 5 isn't live", &group_after(&before, &[3]));
    // The tag of the one step is the last byte of the step before.
    seen("before: cut", &group_after(&[0x11, 0, 2, 0], &[3]));
}

#[test]
fn tallies_count_what_they_say() {
    let [held, refuted, own] = ["held 0 3 0", "refuted 0 3 0", "refused 15 2 1"];
    let later = "refused 13 3 0";
    // Lines of the three lists, and each count; a group that breaks fact 1 counts nowhere.
    let wanted = [
        ([held, held, held], [1, 1, 0, 0, 0, 1, 0, 0]),
        ([held, refuted, own], [1, 1, 0, 0, 1, 1, 0, 0]),
        ([held, later, own], [1, 1, 0, 0, 1, 1, 0, 1]),
        ([refuted, later, later], [1, 1, 0, 0, 0, 1, 0, 1]),
        ([later, later, own], [1, 1, 0, 0, 1, 1, 0, 0]),
        ([own, later, own], [1, 0, 1, 0, 0, 1, 0, 0]),
        ([own, own, own], [1, 0, 0, 1, 0, 1, 0, 0]),
        ([held, own, own], [0; 8]),
        ([own, held, held], [0; 8]),
        ([own, own, held], [0; 8]),
    ];
    for ([first, longer, other], counts) in wanted {
        let mut tally = facts::Tally::default();
        // The same refusal after both of fact 2, its place six bytes further on after WSR.
        let lines = [first, longer, other, "refused 9 3 19", "refused 9 3 13"];
        let told = facts::check(&group_of(&[3]), &lines, &mut tally);
        assert_eq!(tally.counts().map(|(_, count)| count), counts, "{lines:?}");
        assert_eq!(told.is_err(), counts == [0; 8], "{told:?}");
    }
}

#[test]
fn random_groups_keep_both_facts() {
    let mut tally = facts::Tally::default();
    for group in groups::cases(2, 500).chunks(SIZE) {
        let lines: Vec<String> = group.iter().map(|case| case.answer().line()).collect();
        let lines: Vec<&str> = lines.iter().map(String::as_str).collect();
        assert_eq!(facts::check(group, &lines, &mut tally), Ok(()));
    }
    let counts = tally.counts().map(|(_, count)| count);
    assert!(counts.iter().all(|count| *count > 0));
    // "exactly when": a clause that is RUP and one that isn't both have to come up often.
    let [groups, .., taken, refused, _] = counts;
    assert!(4 * taken.min(refused) >= groups, "{counts:?}");
}

#[test]
fn wsr_with_nothing_is_rup() {
    // "passes its conditions exactly when the RUP step of the same clause does" (02, §13), also of clauses with a variable twice
    let mut random = random::Random(1);
    let nothing = Witness::new();
    let (mut taken, mut refused, mut twice) = (0, 0, 0);
    for _ in 0..20_000 {
        let v = random.between(1, 5) as u32;
        let mut any = |most: usize| -> Vec<Clause> {
            let count = random.below(most + 1);
            let mut clause = || (0..random.below(5)).map(|_| random.literal(v)).collect();
            (0..count).map(|_| clause()).collect()
        };
        let f: Clauses = (1..).zip(any(7)).collect();
        for c in any(1) {
            let as_wsr = wsr_step(&c, &nothing, &[], &f, f.len() as u32 + 1);
            assert_eq!(as_wsr.is_ok(), rup_step(&c, &f).is_ok(), "{c:?} over {f:?}");
            *(if as_wsr.is_ok() {
                &mut taken
            } else {
                &mut refused
            }) += 1;
            twice += usize::from(trivialises(&nothing, &c));
        }
    }
    assert!(taken > 1_000 && refused > 1_000 && twice > 1_000);
    // The code 0 in C breaks it, with no live clause and no other code: every witness trivialises C, and propagation has no clash.
    let (c, f) = (Clause::from([TRUE]), Clauses::new());
    assert_eq!(wsr_step(&c, &nothing, &[], &f, 1), Ok(()));
    assert_eq!(rup_step(&c, &f), Err(Failure::Rup));
}
