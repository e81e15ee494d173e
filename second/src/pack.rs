//! The pack: cases one after another, numbers in four bytes, high byte first, and beside it the expected lines.

use crate::files::REASONS;
use crate::judge::{judge, Answer, BYTES, WORDS};
use std::collections::BTreeMap;
use std::io::{BufWriter, Write};
use std::path::Path;

#[derive(Clone, Debug, PartialEq, Eq, PartialOrd, Ord)]
pub struct Case {
    pub words: u32,
    pub bytes: u32,
    pub formula: Vec<u8>,
    pub proof: Vec<u8>,
}

impl Case {
    /// A case with exactly the work memory that the paper asks for.
    pub fn new(formula: Vec<u8>, proof: Vec<u8>) -> Case {
        Case {
            words: WORDS,
            bytes: BYTES,
            formula,
            proof,
        }
    }

    pub fn answer(&self) -> Answer {
        judge(&self.formula, &self.proof, self.words, self.bytes)
    }
}

/// Writes NAME.pack and NAME.lines into the folder.
pub fn write(folder: &Path, name: &str, cases: &[Case]) -> std::io::Result<()> {
    std::fs::create_dir_all(folder)?;
    let create = |end: &str| std::fs::File::create(folder.join(format!("{name}.{end}")));
    let mut pack = BufWriter::new(create("pack")?);
    let mut lines = BufWriter::new(create("lines")?);
    for case in cases {
        let lengths = [case.formula.len() as u32, case.proof.len() as u32];
        for number in [case.words, case.bytes, lengths[0], lengths[1]] {
            pack.write_all(&number.to_be_bytes())?;
        }
        pack.write_all(&case.formula)?;
        pack.write_all(&case.proof)?;
        writeln!(lines, "{}", case.answer().line())?;
    }
    pack.flush()?;
    lines.flush()
}

/// The first case of a pack, which is cut off it.
fn first(pack: &mut &[u8]) -> Option<Case> {
    let mut number = || Some(u32::from_be_bytes(pack.split_off(..4)?.try_into().ok()?));
    let (words, bytes, n, k) = (number()?, number()?, number()?, number()?);
    let mut part = |size: u32| Some(pack.split_off(..size as usize)?.to_vec());
    Some(Case {
        words,
        bytes,
        formula: part(n)?,
        proof: part(k)?,
    })
}

/// The cases of a pack; none of one that is cut short.
pub fn read(mut pack: &[u8]) -> Option<Vec<Case>> {
    let mut cases = Vec::new();
    while !pack.is_empty() {
        cases.push(first(&mut pack)?);
    }
    Some(cases)
}

/// The answer that a line says; none of a line that is no answer, and one with a reason that isn't in the table is none.
pub fn answer(line: &str) -> Option<Answer> {
    let fields: Vec<&str> = line.split(' ').collect();
    let [verdict, reason, step, place] = fields[..] else {
        return None;
    };
    let steps = step.parse().ok()?;
    let answer = match verdict {
        "refuted" => Answer::Refuted(steps),
        "held" => Answer::Held(steps),
        _ => Answer::Refused {
            reason: reason.parse().ok().filter(|r| REASONS.contains(r))?,
            step: steps,
            place: place.parse().ok()?,
        },
    };
    // Only the answer's own line says it: no other word, sign or leading zero does.
    Some(answer).filter(|answer| answer.line() == line)
}

/// How often each verdict and each reason comes up: keys "held", "refuted", "refused 1" and so on; the error says which line is no answer.
pub fn counts(lines: &str) -> Result<BTreeMap<String, usize>, String> {
    let mut counts = BTreeMap::new();
    for line in lines.lines() {
        answer(line).ok_or_else(|| format!("not an answer: {line}"))?;
        *counts.entry(key(line)).or_insert(0) += 1;
    }
    Ok(counts)
}

/// What a line is counted under: its verdict, and its reason if it is refused.
pub fn key(line: &str) -> String {
    let mut fields = line.split(' ');
    match (fields.next(), fields.next()) {
        (Some("refused"), Some(reason)) => format!("refused {reason:>2}"),
        (verdict, _) => verdict.unwrap_or_default().to_string(),
    }
}

/// The reasons of the table that never come up.
pub fn absent(counts: &BTreeMap<String, usize>) -> Vec<u8> {
    let came = |reason: &u8| counts.contains_key(&format!("refused {reason:>2}"));
    let reasons = REASONS.iter().copied();
    reasons.filter(|reason| !came(reason)).collect()
}
