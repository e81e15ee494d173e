//! Cases A to M, "Small proofs worked by hand", with the answers of the paper's table.

use crate::rules::TRUE;
use crate::writer::{code, codes, delete, formula, rup, sr, wsr};

pub struct HandCase {
    pub name: char,
    pub formula: Vec<u8>,
    pub proof: Vec<u8>,
    pub line: &'static str,
}

pub fn cases() -> Vec<HandCase> {
    let f1 = formula(2, &[&[-1, -2]]);
    let f2 = formula(2, &[&[-1, 2]]);
    let f3 = formula(3, &[&[-1, 2], &[2, 3], &[2, -3]]);
    let f4 = formula(2, &[&[1], &[2], &[-1, -2]]);
    let swap = [(1, code(2)), (2, code(1))];
    let one_true = [(1, TRUE)];
    let (one, not_one) = (codes(&[1]), codes(&[-1]));
    let bare = |v| formula(v, &[]);
    let chain = [(1, code(2)), (2, TRUE)];
    let h = [delete(&[2]), wsr(&one, &one_true, &[])].concat();
    let table = [
        ('A', &f1, wsr(&not_one, &swap, &[]), "held 0 1 0"),
        ('B', &f1, rup(&not_one), "refused 13 1 0"),
        ('C', &f1, sr(&not_one, &swap), "refused 14 1 0"),
        ('D', &bare(2), wsr(&one, &chain, &[]), "refused 15 1 1"),
        ('E', &f2, sr(&one, &one_true), "refused 15 1 1"),
        ('F', &f2, wsr(&one, &one_true, &[1]), "held 0 1 0"),
        ('G', &f3, wsr(&one, &one_true, &[2]), "held 0 1 0"),
        ('H', &f3, h, "refused 15 2 1"),
        ('I', &f4, rup(&[]), "refuted 0 1 0"),
        ('J', &f4, [rup(&[]), delete(&[4])].concat(), "held 0 2 0"),
        (
            'K',
            &f1,
            [delete(&[1]), delete(&[1])].concat(),
            "refused 11 2 8",
        ),
        ('L', &formula(0, &[&[]]), vec![], "refuted 0 0 0"),
        ('M', &formula(1, &[&[1, -1]]), vec![], "refused 6 0 12"),
    ];
    table
        .into_iter()
        .map(|(name, formula, proof, line)| HandCase {
            name,
            formula: formula.clone(),
            proof,
            line,
        })
        .collect()
}
