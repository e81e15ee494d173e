//! A second checker, written from the paper alone: obvious rather than fast, to compare another checker with.

mod carried;
mod cases;
mod damage;
mod deletions;
#[cfg(test)]
mod fact_tests;
mod facts;
mod faults;
mod files;
mod full;
#[cfg(test)]
mod full_tests;
mod groups;
mod judge;
mod large;
mod pack;
mod pigeon;
mod random;
mod refutations;
mod rules;
mod seeds;
mod stored;
mod stowage;
mod systematic;
#[cfg(test)]
mod tests;
mod writer;

use judge::{judge, BYTES, WORDS};
use std::path::Path;
use std::process::ExitCode;

const USAGE: &str = "second answer FORMULA PROOF
second cases [OUTDIR]
second pack stored|systematic|bytes|deletions|pigeons|large OUTDIR
second pack random|valid|facts SEED COUNT OUTDIR
second stowages FILE.pack FILE.lines
second facts FILE.pack FILE.lines
second counts FILE.lines...
second pigeon N FORMULA PROOF";

fn main() -> ExitCode {
    let words: Vec<String> = std::env::args().skip(1).collect();
    let words: Vec<&str> = words.iter().map(String::as_str).collect();
    let done = match words[..] {
        ["answer", formula, proof] => answer(formula, proof),
        ["cases"] => hand_cases(),
        ["cases", folder] => hand_cases().and_then(|()| hand_files(Path::new(folder))),
        ["pack", name, folder] => fixed(name).and_then(|cases| pack(folder, name, &cases)),
        ["pack", name @ ("random" | "valid" | "facts"), seed, count, folder] => {
            numbers(seed, count).and_then(|(seed, count)| {
                let cases = match name {
                    "random" => random::cases(seed, count),
                    "facts" => groups::cases(seed, count),
                    _ => random::valid_cases(seed, count),
                };
                pack(folder, &format!("{name}-{seed}"), &cases)
            })
        }
        ["stowages", pack, lines] => stowages(pack, lines),
        ["facts", pack, lines] => two_facts(pack, lines),
        ["counts", ref files @ ..] if !files.is_empty() => counts(files),
        ["pigeon", n, formula, proof] => pigeons(n, formula, proof),
        _ => Err(USAGE.to_string()),
    };
    match done {
        Ok(()) => ExitCode::SUCCESS,
        Err(message) => {
            eprintln!("{message}");
            ExitCode::FAILURE
        }
    }
}

type Done = Result<(), String>;

fn numbers(seed: &str, count: &str) -> Result<(u64, usize), String> {
    let seed = seed.parse().map_err(|_| USAGE.to_string())?;
    let count = count.parse().map_err(|_| USAGE.to_string())?;
    Ok((seed, count))
}

fn answer(formula: &str, proof: &str) -> Done {
    // "A file that is larger or can't be read [...] gives the line `unread` alone", here with the library's limits.
    match (std::fs::read(formula), std::fs::read(proof)) {
        (Ok(formula), Ok(proof)) => println!("{}", judge(&formula, &proof, WORDS, BYTES).line()),
        _ => println!("unread"),
    }
    Ok(())
}

fn hand_cases() -> Done {
    let cases = cases::cases();
    let mut right = 0;
    for case in &cases {
        let line = judge(&case.formula, &case.proof, WORDS, BYTES).line();
        if line == case.line {
            right += 1;
        } else {
            println!("{}: {line}, paper {}", case.name, case.line);
        }
    }
    println!("cases: {right} of {}", cases.len());
    if right == cases.len() {
        Ok(())
    } else {
        Err("a case differs from the paper".to_string())
    }
}

/// The files of cases A to M, as A.formula and A.proof, with the paper's line as A.line.
fn hand_files(folder: &Path) -> Done {
    let write = |name: String, bytes: &[u8]| std::fs::write(folder.join(name), bytes);
    let all = || -> std::io::Result<()> {
        std::fs::create_dir_all(folder)?;
        for case in cases::cases() {
            write(format!("{}.formula", case.name), &case.formula)?;
            write(format!("{}.proof", case.name), &case.proof)?;
            write(
                format!("{}.line", case.name),
                format!("{}\n", case.line).as_bytes(),
            )?;
        }
        Ok(())
    };
    all().map_err(|error| error.to_string())
}

/// The packs that have no seed.
fn fixed(name: &str) -> Result<Vec<pack::Case>, String> {
    match name {
        "stored" => Ok(stored::cases()),
        "systematic" => Ok(systematic::cases()),
        "bytes" => Ok(systematic::every_byte()),
        "deletions" => Ok(deletions::cases()),
        "pigeons" => Ok(refutations::cases()),
        "large" => Ok(large::cases()),
        _ => Err(USAGE.to_string()),
    }
}

fn pack(folder: &str, name: &str, cases: &[pack::Case]) -> Done {
    pack::write(Path::new(folder), name, cases).map_err(|error| error.to_string())?;
    println!("{name}: {} cases", cases.len());
    Ok(())
}

/// A pack, and the lines that a checker gave for it.
fn said(pack: &str, lines: &str) -> Result<(Vec<pack::Case>, Vec<String>), String> {
    let bytes = std::fs::read(pack).map_err(|error| error.to_string())?;
    let cases = pack::read(&bytes).ok_or("a pack that is cut short")?;
    let lines = std::fs::read_to_string(lines).map_err(|error| error.to_string())?;
    let lines: Vec<String> = lines.lines().map(String::from).collect();
    if lines.len() != cases.len() {
        return Err(format!("{} lines, {} cases", lines.len(), cases.len()));
    }
    Ok((cases, lines))
}

/// Demand 3 over a pack, with the lines that a checker gave for it.
fn stowages(pack: &str, lines: &str) -> Done {
    let (cases, lines) = said(pack, lines)?;
    let mut tally = carried::Tally::default();
    for (index, (case, line)) in cases.iter().zip(&lines).enumerate() {
        let (formula, proof) = (&case.formula, &case.proof);
        carried::check(formula, proof, line, &mut tally).map_err(|message| {
            format!("case {index}: {message}\nformula {formula:02x?}\nproof {proof:02x?}")
        })?;
    }
    let (cases, passed) = (tally.cases, tally.passed_over);
    println!(
        "cases {cases} passed over {passed} refuted {}",
        tally.refuted
    );
    println!("steps taken {:?}", tally.steps);
    println!("steps that moved a stowage {:?}", tally.moving);
    println!("stowages carried {} moved {}", tally.carried, tally.moved);
    Ok(())
}

/// The two facts of 02, §13 over a pack of groups, with the lines that a checker gave for it.
fn two_facts(pack: &str, lines: &str) -> Done {
    let (cases, lines) = said(pack, lines)?;
    let lines: Vec<&str> = lines.iter().map(String::as_str).collect();
    if !cases.len().is_multiple_of(groups::SIZE) {
        return Err(format!("{} cases, which are no groups", cases.len()));
    }
    let mut tally = facts::Tally::default();
    let groups = cases.chunks(groups::SIZE).zip(lines.chunks(groups::SIZE));
    for (index, (group, lines)) in groups.enumerate() {
        facts::check(group, lines, &mut tally)
            .map_err(|message| format!("group {index}: {message}"))?;
    }
    for (name, count) in tally.counts() {
        println!("{name}: {count}");
    }
    match tally.counts().iter().find(|(_, count)| *count == 0) {
        Some((name, _)) => Err(format!("never tried: {name}")),
        None => Ok(()),
    }
}

fn counts(files: &[&str]) -> Done {
    let mut lines = String::new();
    for file in files {
        lines += &std::fs::read_to_string(file).map_err(|error| error.to_string())?;
    }
    let counts = pack::counts(&lines)?;
    for (key, count) in &counts {
        println!("{key}: {count}");
    }
    match pack::absent(&counts)[..] {
        [] => Ok(()),
        ref absent => Err(format!("reasons that never come up: {absent:?}")),
    }
}

fn pigeons(n: &str, formula: &str, proof: &str) -> Done {
    // Above 32 the numbers outgrow what a checker of this format takes.
    let n = n.parse().ok().filter(|n| (1..=32).contains(n));
    let (formula_bytes, proof_bytes) = pigeon::files(n.ok_or("N is 1 to 32")?);
    std::fs::write(formula, formula_bytes).map_err(|error| error.to_string())?;
    std::fs::write(proof, proof_bytes).map_err(|error| error.to_string())
}
