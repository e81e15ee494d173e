//! Random cases from a seed: valid ones found by trial, damaged ones, and byte noise with plausible tags.

use crate::damage::damage;
use crate::files::{MOST_FILE, TAGS};
use crate::judge::{State, BYTES, WORDS};
use crate::pack::Case;
use crate::rules::{passes, rup, trivialises, Clause, Witness};
use crate::seeds::{seed_formula, Pairs};
use crate::writer::{self, formula_of_codes};
use std::collections::BTreeSet;

/// Splitmix: the same seed gives the same cases on every machine.
pub struct Random(pub u64);

impl Random {
    fn next(&mut self) -> u64 {
        self.0 = self.0.wrapping_add(0x9e37_79b9_7f4a_7c15);
        let mut z = self.0;
        z = (z ^ (z >> 30)).wrapping_mul(0xbf58_476d_1ce4_e5b9);
        z = (z ^ (z >> 27)).wrapping_mul(0x94d0_49bb_1331_11eb);
        z ^ (z >> 31)
    }

    /// A number below the bound, which is above 0.
    pub fn below(&mut self, bound: usize) -> usize {
        (self.next() % bound as u64) as usize
    }

    pub fn between(&mut self, low: usize, high: usize) -> usize {
        low + self.below(high - low + 1)
    }

    pub fn chance(&mut self, percent: usize) -> bool {
        self.below(100) < percent
    }

    pub fn of<T: Copy>(&mut self, from: &[T]) -> T {
        from[self.below(from.len())]
    }

    pub fn variable(&mut self, v: u32) -> u32 {
        self.between(1, v as usize) as u32
    }

    pub fn literal(&mut self, v: u32) -> u32 {
        2 * self.variable(v) + self.below(2) as u32
    }

    /// Codes of a clause with no variable twice, in random order.
    pub fn clause(&mut self, v: u32, most: usize) -> Vec<u32> {
        let mut codes: Vec<u32> = Vec::new();
        for _ in 0..self.between(1, most.max(1)) {
            if v == 0 {
                break;
            }
            let literal = self.literal(v);
            if codes.iter().all(|code| code / 2 != literal / 2) {
                codes.push(literal);
            }
        }
        codes
    }
}

/// A witness: a literal of C set, a swap with signs, the formula's symmetry, constants, a rotation, or any atoms.
pub fn witness(random: &mut Random, v: u32, clause: &[u32], symmetry: &Pairs) -> Pairs {
    if v == 0 {
        return Vec::new();
    }
    let (a, b, c) = (random.variable(v), random.variable(v), random.variable(v));
    let sign = random.below(2) as u32;
    let mut pairs: Pairs = match random.below(8) {
        0 | 1 if !clause.is_empty() => {
            let literal = random.of(clause);
            vec![(literal / 2, literal % 2)]
        }
        2 => vec![(a, 2 * b + sign), (b, 2 * a + sign)],
        3 => symmetry.clone(),
        4 => vec![(a, 2 * b), (b, 2 * c + sign), (c, 2 * a)],
        5 if !clause.is_empty() => {
            let literal = random.of(clause);
            let other = (b, random.below(2) as u32);
            vec![(literal / 2, literal % 2), other]
        }
        6 => vec![(a, 2 * a + 1)],
        _ => (0..random.below(4))
            .map(|_| (random.variable(v), random.below(2 * v as usize + 2) as u32))
            .collect(),
    };
    if random.chance(15) {
        pairs.push((c, 2 * c));
    }
    let mut seen = BTreeSet::new();
    pairs.retain(|(variable, _)| seen.insert(*variable));
    pairs
}

pub fn some_of(random: &mut Random, numbers: &[u32], percent: usize) -> BTreeSet<u32> {
    let kept = numbers.iter().copied().filter(|_| random.chance(percent));
    kept.collect()
}

/// Codes of a new clause: any, or a live clause with one literal fewer, which is often close to being taken.
pub fn new_clause(random: &mut Random, state: &State, live: &[u32]) -> Vec<u32> {
    if random.chance(1) {
        return Vec::new();
    }
    if random.chance(30) && !live.is_empty() {
        let near = &state.live[&random.of(live)];
        let mut clause: Vec<u32> = near.iter().copied().collect();
        if !clause.is_empty() {
            clause.remove(random.below(clause.len()));
        }
        return clause;
    }
    let most = random.of(&[1, 1, 2, 2, 3]);
    random.clause(state.v, most)
}

/// The live clauses that don't pass.
pub fn failing(state: &State, s: &Witness, c: &Clause) -> BTreeSet<u32> {
    let fails = |number: &u32| !passes(&state.live[number], s, c, &state.live);
    state.live.keys().copied().filter(fails).collect()
}

/// One proposed step, well formed, that may or may not be taken.
pub fn proposal(random: &mut Random, state: &State, symmetry: &Pairs) -> Vec<u8> {
    let live: Vec<u32> = state.live.keys().copied().collect();
    let mut clause = new_clause(random, state, &live);
    let kind = random.below(20);
    if kind < 4 {
        return writer::rup(&clause);
    }
    if kind < 7 {
        let percent = random.of(&[10, 20, 30]);
        let numbers: Vec<u32> = some_of(random, &live, percent).into_iter().collect();
        return writer::delete(&numbers);
    }
    // A clause that is RUP says little about its witness, so others are preferred.
    let set = |clause: &[u32]| -> Clause { clause.iter().copied().collect() };
    for _ in 0..5 {
        if rup(&set(&clause), &state.live) {
            clause = new_clause(random, state, &live);
        }
    }
    let c = set(&clause);
    let mut pairs = witness(random, state.v, &clause, symmetry);
    let mut s: Witness = pairs.iter().copied().collect();
    if kind < 13 {
        for _ in 0..4 {
            if !trivialises(&s, &c) {
                pairs = witness(random, state.v, &clause, symmetry);
                s = pairs.iter().copied().collect();
            }
        }
        return writer::sr(&clause, &pairs);
    }
    let mut modulo: BTreeSet<u32> = match random.below(5) {
        0..=2 => BTreeSet::new(),
        _ => failing(state, &s, &c),
    };
    if random.chance(25) {
        modulo.extend(some_of(random, &live, 15));
    }
    let modulo: Vec<u32> = modulo.into_iter().collect();
    writer::wsr(&clause, &pairs, &modulo)
}

/// A valid formula and a proof whose steps are taken, sometimes with a last one that isn't.
pub struct Valid {
    pub formula: Vec<u8>,
    pub proof: Vec<u8>,
    /// After the steps that are taken, which end at its reading place.
    pub state: State,
    pub symmetry: Pairs,
}

pub fn valid(random: &mut Random) -> (Vec<u8>, Vec<u8>) {
    let valid = valid_with_state(random);
    (valid.formula, valid.proof)
}

pub fn valid_with_state(random: &mut Random) -> Valid {
    let seed = seed_formula(random);
    let formula = formula_of_codes(seed.v, &seed.clauses);
    let mut state = State::start(&formula).expect("seed formulas are valid");
    let mut proof = Vec::new();
    let ends_refused = random.chance(35);
    let wanted = random.below(9);
    for _ in 0..wanted * 8 {
        let longer = [proof.clone(), proposal(random, &state, &seed.symmetry)].concat();
        let taken = state.take(&longer).is_ok();
        if taken || (ends_refused && state.taken + 1 >= wanted) {
            proof = longer;
        }
        if !taken && proof.len() > state.at || state.taken >= wanted + usize::from(ends_refused) {
            break;
        }
    }
    Valid {
        formula,
        proof,
        state,
        symmetry: seed.symmetry,
    }
}

pub fn valid_cases(seed: u64, count: usize) -> Vec<Case> {
    let mut random = Random(seed);
    let case = |(formula, proof)| Case::new(formula, proof);
    (0..count).map(|_| case(valid(&mut random))).collect()
}

/// Fields with plausible tags and small values, most of them in order and some not.
fn noise(random: &mut Random, tags: &[u8]) -> Vec<u8> {
    let mut bytes = Vec::new();
    for _ in 0..random.below(8) {
        let tag = if random.chance(85) {
            random.of(tags)
        } else {
            random.of(&TAGS)
        };
        let twos: Vec<u32> = (0..random.below(5))
            .map(|_| random.below(10) as u32)
            .collect();
        let mut field = writer::field(tag, &twos);
        if random.chance(10) {
            let at = random.below(field.len());
            field[at] = random.below(256) as u8;
        }
        bytes.extend(field);
    }
    bytes
}

fn noisy(random: &mut Random) -> (Vec<u8>, Vec<u8>) {
    let (mut formula, _) = valid(random);
    if random.chance(30) {
        let (v, m) = (random.below(5) as u32, random.below(4) as u32);
        formula = [writer::head(v, m), noise(random, &[0x02])].concat();
    }
    let tags = [
        0x11, 0x12, 0x21, 0x13, 0x21, 0x22, 0x14, 0x11, 0x14, 0x12, 0x21,
    ];
    let mut proof = noise(random, &tags);
    if random.chance(20) {
        proof = (0..random.below(30))
            .map(|_| random.below(256) as u8)
            .collect();
    }
    (formula, proof)
}

/// The cases that chance won't find: a file too long, and numbers at their limit; they open every pack.
fn limit(random: &mut Random, index: usize) -> Case {
    let bare = |m: u32| [writer::head(1, m), [0x02, 0, 0].repeat(m as usize)].concat();
    let (formula, proof) = match index {
        0 => (vec![random.below(256) as u8; MOST_FILE + 1], Vec::new()),
        1 => (bare(16_383), writer::rup(&[2])),
        2 => (bare(16_382), writer::rup(&[2]).repeat(2)),
        3 => (
            bare(16_383),
            [writer::delete(&[7]), writer::sr(&[2], &[(1, 0)])].concat(),
        ),
        4 => (writer::head(4_096, 0), Vec::new()),
        _ => (writer::head(4_095, 16_384), Vec::new()),
    };
    Case::new(formula, proof)
}

pub fn case(random: &mut Random, index: usize) -> Case {
    if index < 6 {
        return limit(random, index);
    }
    let (mut formula, mut proof) = valid(random);
    match random.below(20) {
        0..=8 => {}
        9..=16 => damage(random, &mut formula, &mut proof),
        _ => (formula, proof) = noisy(random),
    }
    let mut case = Case::new(formula, proof);
    match random.below(100) {
        0 => case.words = random.below(WORDS as usize) as u32,
        1 => case.bytes = random.below(BYTES as usize) as u32,
        2 | 3 => case.words += random.below(40) as u32,
        4 | 5 => case.bytes += random.below(40) as u32,
        _ => {}
    }
    case
}

pub fn cases(seed: u64, count: usize) -> Vec<Case> {
    let mut random = Random(seed);
    (0..count).map(|index| case(&mut random, index)).collect()
}
