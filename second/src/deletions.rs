//! The pack of deletions: some or all of five clauses deleted, one step each in every order, and one step for all; then what still
//! follows, and which numbers are live.

use crate::pack::Case;
use crate::writer::{codes, delete, formula, rup, sr, wsr};

pub fn cases() -> Vec<Case> {
    let clauses = formula(5, &[&[1], &[-1, 2], &[-2, 3], &[-3, 4], &[-4]]);
    let mut all = Vec::new();
    for order in orders(&[1, 2, 3, 4, 5]) {
        let steps: Vec<Vec<u8>> = order.iter().map(|n| delete(&[*n])).collect();
        let mut ways = vec![steps.concat(), between(&steps)];
        if order.is_sorted() {
            ways.push(delete(&order));
            ways.push(wsr(&codes(&[5]), &[(5, 0)], &order));
        }
        for way in ways {
            for last in probes() {
                all.push(Case::new(clauses.clone(), [&way[..], &last].concat()));
            }
        }
    }
    all
}

/// Each deletion followed by a clause that is always taken, so that numbers below and above are live.
fn between(steps: &[Vec<u8>]) -> Vec<u8> {
    let added = sr(&codes(&[5]), &[(5, 0)]);
    steps
        .iter()
        .flat_map(|s| [&s[..], &added].concat())
        .collect()
}

/// Every choice of some of the numbers, in every order.
fn orders(numbers: &[u32]) -> Vec<Vec<u32>> {
    let mut all = vec![Vec::new()];
    for first in numbers {
        let others: Vec<u32> = numbers.iter().copied().filter(|n| n != first).collect();
        all.extend(
            orders(&others)
                .into_iter()
                .map(|rest| [&[*first], &rest[..]].concat()),
        );
    }
    all
}

/// The refutation, consequences of some of the clauses, and the deletion of each number.
fn probes() -> Vec<Vec<u8>> {
    let mut all = vec![
        rup(&[]),
        rup(&codes(&[3])),
        rup(&codes(&[-1])),
        rup(&codes(&[-2, 4])),
    ];
    all.extend((1..=8).map(|n| delete(&[n])));
    all
}
