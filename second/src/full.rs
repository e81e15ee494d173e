//! "no clause has more than V literals" (02, §6): clauses of V literals, and of one more, which have a code outside or a variable twice.

use crate::files::{CLAUSE, MOST_NUMBER, MOST_V};
use crate::pack::Case;
use crate::rules::{FALSE, TRUE};
use crate::writer::{codes, field, formula, formula_of_codes, head, rup, sr, wsr};

/// A case and the name under which its line is written down.
pub type Named = (String, Case);
/// A name, a formula and a proof.
type Row<'a> = (&'a str, &'a [u8], Vec<u8>);

pub fn cases() -> Vec<Case> {
    let all = exact().into_iter().chain(one_more());
    all.map(|(_, case)| case).collect()
}

/// Every clause has V literals; the steps are taken, or refused for what comes after their clause.
pub fn exact() -> Vec<Named> {
    [no_variable(), one_variable(), most_variables()].concat()
}

/// Every clause has V literals but the last, which has one more.
pub fn one_more() -> Vec<Named> {
    [alone(), behind_others()].concat()
}

fn named(v: u32, rows: Vec<Row>) -> Vec<Named> {
    let case =
        |(name, formula, proof): Row| (format!("V={v} {name}"), Case::new(formula.to_vec(), proof));
    rows.into_iter().map(case).collect()
}

/// With V = 0 the only clause is the empty one.
fn no_variable() -> Vec<Named> {
    let (bare, empty) = (formula(0, &[]), formula(0, &[&[]]));
    let most = MOST_NUMBER as usize;
    let last = [head(0, MOST_NUMBER), field(CLAUSE, &[]).repeat(most)].concat();
    let rows: Vec<Row> = vec![
        ("[]", &empty, vec![]),
        ("RUP [] over nothing", &bare, rup(&[])),
        ("RUP [] over []", &empty, rup(&[])),
        ("RUP [] with number 16384", &last, rup(&[])),
        ("SR [] over nothing", &bare, sr(&[], &[])),
        ("SR [] over []", &empty, sr(&[], &[])),
        ("SR [], 1 to T", &bare, sr(&[], &[(1, TRUE)])),
        ("WSR [] over nothing", &bare, wsr(&[], &[], &[])),
        ("WSR [] over []", &empty, wsr(&[], &[], &[])),
        ("WSR [] modulo []", &empty, wsr(&[], &[], &[1])),
    ];
    named(0, rows)
}

fn one_variable() -> Vec<Named> {
    let (bare, one, not_one) = (formula(1, &[]), formula(1, &[&[1]]), formula(1, &[&[-1]]));
    let both = formula(1, &[&[1], &[-1]]);
    let (c, not_c) = (codes(&[1]), codes(&[-1]));
    let (set, unset) = ([(1, TRUE)], [(1, FALSE)]);
    let rows: Vec<Row> = vec![
        ("[1]", &one, vec![]),
        ("[-1]", &not_one, vec![]),
        ("RUP [1] over [1]", &one, rup(&c)),
        ("RUP [-1] over [1]", &one, rup(&not_c)),
        ("RUP [-1] over [1], [-1]", &both, rup(&not_c)),
        ("SR [1], 1 to T", &bare, sr(&c, &set)),
        ("SR [-1], 1 to F", &bare, sr(&not_c, &unset)),
        ("SR [-1], 1 to F, over [1]", &one, sr(&not_c, &unset)),
        ("SR [1], 2 to T", &bare, sr(&c, &[(2, TRUE)])),
        ("SR [1], 1 to T twice", &bare, sr(&c, &set.repeat(2))),
        ("WSR [1]", &bare, wsr(&c, &[], &[])),
        (
            "WSR [-1], 1 to F, modulo [1]",
            &one,
            wsr(&not_c, &unset, &[1]),
        ),
        ("WSR [1], 1 to T, modulo 9", &bare, wsr(&c, &set, &[9])),
    ];
    named(1, rows)
}

/// P: every variable, in order.
fn p() -> Vec<u32> {
    (1..=MOST_V).map(|x| 2 * x).collect()
}

/// N: the complement of every variable, the last one first.
fn n() -> Vec<u32> {
    (1..=MOST_V).rev().map(|x| 2 * x + 1).collect()
}

fn most_variables() -> Vec<Named> {
    let (p, n) = (p(), n());
    let of = |clauses: &[&Vec<u32>]| -> Vec<u8> {
        let clauses: Vec<Vec<u32>> = clauses.iter().map(|c| c.to_vec()).collect();
        formula_of_codes(MOST_V, &clauses)
    };
    let (bare, over, not, both) = (of(&[]), of(&[&p]), of(&[&n]), of(&[&p, &n]));
    let flip: Vec<(u32, u32)> = (1..=MOST_V).map(|x| (x, 2 * x + 1)).collect();
    let unset = [(1, FALSE)];
    let rows: Vec<Row> = vec![
        ("P", &over, vec![]),
        ("N", &not, vec![]),
        ("P, N", &both, vec![]),
        ("RUP P over P", &over, rup(&p)),
        ("RUP N over P", &over, rup(&n)),
        ("SR N, 1 to F, over P", &over, sr(&n, &unset)),
        ("SR N, all turned, over P", &over, sr(&n, &flip)),
        ("SR P, 4096 to T", &bare, sr(&p, &[(MOST_V + 1, TRUE)])),
        ("WSR N, 1 to F, over P", &over, wsr(&n, &unset, &[])),
        ("WSR N, all turned, over P", &over, wsr(&n, &flip, &[])),
        ("WSR N, all turned, modulo P", &over, wsr(&n, &flip, &[1])),
        ("WSR P over P", &over, wsr(&p, &[], &[])),
    ];
    named(MOST_V, rows)
}

/// V + 1 codes: one outside in front or at the end, or one of a variable that is there, the same or its complement.
fn lists() -> Vec<(u32, &'static str, Vec<u32>)> {
    let p = p();
    let with = |front: &[u32], end: &[u32]| [front, &p, end].concat();
    vec![
        (0, "0", vec![0]),
        (0, "1", vec![1]),
        (0, "2", vec![2]),
        (1, "0 2", vec![0, 2]),
        (1, "4 2", vec![4, 2]),
        (1, "2 1", vec![2, 1]),
        (1, "2 4", vec![2, 4]),
        (1, "2 2", vec![2, 2]),
        (1, "2 3", vec![2, 3]),
        (1, "3 2", vec![3, 2]),
        (1, "3 3", vec![3, 3]),
        (MOST_V, "1 P", with(&[1], &[])),
        (MOST_V, "8192 P", with(&[8_192], &[])),
        (MOST_V, "P 0", with(&[], &[0])),
        (MOST_V, "P 8192", with(&[], &[8_192])),
        (MOST_V, "2 P", with(&[2], &[])),
        (MOST_V, "3 P", with(&[3], &[])),
        (MOST_V, "8191 P", with(&[8_191], &[])),
        (MOST_V, "P 2", with(&[], &[2])),
        (MOST_V, "P 8191", with(&[], &[8_191])),
        // Both faults: the last code of P gives way to one outside.
        (
            MOST_V,
            "2 P to 8188, 8192",
            [&[2], &p[..4_094], &[8_192]].concat(),
        ),
    ]
}

/// Each list as the one clause of a formula, and as that of a RUP, an SR and a WSR step.
fn alone() -> Vec<Named> {
    let mut all = Vec::new();
    for (v, name, codes) in lists() {
        let bare = head(v, 0);
        let formula = formula_of_codes(v, std::slice::from_ref(&codes));
        let mut push = |field: &str, formula: &[u8], proof: Vec<u8>| {
            let case = Case::new(formula.to_vec(), proof);
            all.push((format!("V={v} {field} {name}"), case));
        };
        push("CLAUSE", &formula, vec![]);
        push("RUP", &bare, rup(&codes));
        push("SR", &bare, sr(&codes, &[]));
        // A witness and a number at fault, which come after the clause.
        push("WSR", &bare, wsr(&codes, &[(v + 1, TRUE)], &[1]));
    }
    all
}

/// After clauses and a step that are in order.
fn behind_others() -> Vec<Named> {
    let p = p();
    let one = formula(1, &[&[1]]);
    let taken = rup(&[2]);
    let two_before = formula_of_codes(1, &[vec![2], vec![3], vec![2, 3]]);
    let one_before = formula_of_codes(1, &[vec![2], vec![4, 2]]);
    let small: Vec<Row> = vec![
        ("[1], [-1], CLAUSE 2 3", &two_before, vec![]),
        ("[1], CLAUSE 4 2", &one_before, vec![]),
        (
            "RUP [1], RUP 2 3",
            &one,
            [taken.clone(), rup(&[2, 3])].concat(),
        ),
        ("RUP [1], SR 0 2", &one, [taken, sr(&[0, 2], &[])].concat()),
    ];
    let end = |code: u32| [&p[..], &[code]].concat();
    let over = formula_of_codes(MOST_V, std::slice::from_ref(&p));
    let wide_before = formula_of_codes(MOST_V, &[p.clone(), end(8_192)]);
    let wide: Vec<Row> = vec![
        ("P, CLAUSE P 8192", &wide_before, vec![]),
        (
            "RUP P, WSR P 3",
            &over,
            [rup(&p), wsr(&end(3), &[], &[])].concat(),
        ),
    ];
    [named(1, small), named(MOST_V, wide)].concat()
}
