//! Faults put into one step or one clause by twos, so that the order of the refusals shows.

use crate::files::{CLAUSE, DELETE, MODULO, RUP, SR, WITNESS, WSR};
use crate::pack::Case;
use crate::writer::{code, codes, delete, field, formula, head};

/// A step in parts, a field each; none where the field is left out.
#[derive(Clone)]
struct Parts {
    fields: Vec<Option<Part>>,
}

#[derive(Clone)]
struct Part {
    tag: u8,
    twos: Vec<u32>,
    /// A byte more in the payload, counted in the length.
    odd: bool,
    /// The length says more than is there.
    stretched: bool,
}

impl Parts {
    fn new(fields: &[(u8, Vec<u32>)]) -> Parts {
        let part = |(tag, twos): &(u8, Vec<u32>)| {
            Some(Part {
                tag: *tag,
                twos: twos.clone(),
                odd: false,
                stretched: false,
            })
        };
        Parts {
            fields: fields.iter().map(part).collect(),
        }
    }

    fn bytes(&self) -> Vec<u8> {
        let mut bytes = Vec::new();
        for part in self.fields.iter().flatten() {
            let mut one = field(part.tag, &part.twos);
            if part.odd {
                one.push(0);
                one[2] += 1;
            }
            if part.stretched {
                one[1] = 0xff;
            }
            bytes.extend(one);
        }
        bytes
    }

    fn part(&mut self, at: usize, change: impl Fn(&mut Part)) {
        if let Some(part) = self.fields[at].as_mut() {
            change(part);
        }
    }
}

type Fault = Box<dyn Fn(&mut Parts)>;

fn values(at: usize, change: fn(&mut Vec<u32>)) -> Fault {
    Box::new(move |parts| parts.part(at, |part| change(&mut part.twos)))
}

/// The faults any field can have: tag, odd length, length too long, missing.
fn of_field(at: usize) -> Vec<Fault> {
    vec![
        Box::new(move |parts| parts.part(at, |part| part.tag = 0x15)),
        Box::new(move |parts| parts.part(at, |part| part.odd = true)),
        Box::new(move |parts| parts.part(at, |part| part.stretched = true)),
        Box::new(move |parts| parts.fields[at] = None),
    ]
}

/// The first value, or 2 where an earlier fault took all values away.
fn first(twos: &[u32]) -> u32 {
    twos.first().copied().unwrap_or(2)
}

fn of_clause() -> Vec<Fault> {
    vec![
        values(0, |twos| twos.push(0)),
        values(0, |twos| twos.insert(0, 8)),
        values(0, |twos| twos.push(first(twos))),
        values(0, |twos| twos.insert(1.min(twos.len()), first(twos) ^ 1)),
        values(0, |twos| twos.clear()),
    ]
}

fn of_witness() -> Vec<Fault> {
    vec![
        values(1, |twos| twos.extend([0, 2])),
        values(1, |twos| twos.extend([4, 9])),
        values(1, |twos| twos.extend([3, 8])),
        values(1, |twos| twos.extend([first(twos), 1])),
        values(1, |twos| twos.push(1)),
        values(1, |twos| twos.clear()),
    ]
}

fn of_numbers(at: usize) -> Vec<Fault> {
    match at {
        0 => vec![
            values(0, |twos| twos.push(9)),
            values(0, |twos| twos.insert(0, 0)),
            values(0, |twos| twos.push(1)),
        ],
        _ => vec![
            values(2, |twos| twos.push(9)),
            values(2, |twos| twos.insert(0, 0)),
            values(2, |twos| twos.push(1)),
        ],
    }
}

/// Puts other values into a field, if it is there.
fn set(parts: &mut Parts, at: usize, twos: &[u32]) {
    parts.part(at, |part| part.twos = twos.to_vec());
}

/// A step in order whose condition fails: C is not RUP, or not trivialised.
fn of_condition() -> Fault {
    Box::new(|parts| set(parts, 0, &codes(&[-2])))
}

/// The first clause of the base doesn't pass.
fn of_passing() -> Fault {
    Box::new(|parts| {
        set(parts, 0, &codes(&[-2]));
        set(parts, 1, &[2, 1]);
    })
}

/// All clauses are named in MODULO, and C itself doesn't pass.
fn of_passing_itself() -> Fault {
    Box::new(|parts| {
        set(parts, 0, &codes(&[-2]));
        set(parts, 1, &[]);
        set(parts, 2, &[1, 2, 3, 4]);
    })
}

/// With V=3, the clauses of F3 and one more, which the steps below are taken over.
const BASE: [&[i32]; 4] = [&[-1, 2], &[2, 3], &[2, -3], &[1, 3]];

fn base() -> Vec<u8> {
    formula(3, &BASE)
}

/// A step of each kind that is taken, with the faults that fit its fields.
fn kinds() -> Vec<(Parts, Vec<Fault>)> {
    let clause = codes(&[2, 1]);
    let witness = vec![2, 0, 1, code(1)];
    let joined = |lists: Vec<Vec<Fault>>| lists.into_iter().flatten().collect();
    vec![
        (
            Parts::new(&[(RUP, clause.clone())]),
            joined(vec![of_field(0), of_clause(), vec![of_condition()]]),
        ),
        (
            Parts::new(&[(SR, clause.clone()), (WITNESS, witness.clone())]),
            joined(vec![
                of_field(0),
                of_field(1),
                of_clause(),
                of_witness(),
                vec![of_condition(), of_passing()],
            ]),
        ),
        (
            Parts::new(&[(WSR, clause), (WITNESS, witness), (MODULO, vec![2, 3])]),
            joined(vec![
                of_field(0),
                of_field(1),
                of_field(2),
                of_clause(),
                of_witness(),
                of_numbers(2),
                vec![of_passing(), of_passing_itself()],
            ]),
        ),
        (
            Parts::new(&[(DELETE, vec![1, 4])]),
            joined(vec![of_field(0), of_numbers(0)]),
        ),
    ]
}

/// Every two faults of a step in it at once, in both orders of making them.
pub fn in_one_step() -> Vec<Case> {
    let mut all = Vec::new();
    for (parts, faults) in kinds() {
        all.push(Case::new(base(), parts.bytes()));
        for first in &faults {
            for second in &faults {
                let mut step = parts.clone();
                first(&mut step);
                second(&mut step);
                all.push(Case::new(base(), step.bytes()));
            }
        }
    }
    all
}

/// One fault in each of two steps, every two in both orders: "The first step with a fault is the one answered".
pub fn in_two_steps() -> Vec<Case> {
    let steps = with_one_fault();
    let mut all = Vec::new();
    for first in &steps {
        for second in &steps {
            all.push(Case::new(base(), [&first[..], second].concat()));
        }
    }
    all
}

/// A step of each kind with each of its faults.
fn with_one_fault() -> Vec<Vec<u8>> {
    let mut all = Vec::new();
    for (parts, faults) in kinds() {
        for fault in &faults {
            let mut step = parts.clone();
            fault(&mut step);
            all.push(step.bytes());
        }
    }
    all
}

/// Each fault in a step whose clause would get number 16,384, alone and after a deletion: what comes before 12, and what after.
pub fn past_the_last_number() -> Vec<Case> {
    let mut clauses = BASE.to_vec();
    clauses.resize(16_383, &[]);
    let full = formula(3, &clauses);
    let sound = kinds().into_iter().map(|(parts, _)| parts.bytes());
    let mut all = Vec::new();
    for step in sound.chain(with_one_fault()) {
        let later = [delete(&[16_383]), step.clone()].concat();
        all.push(Case::new(full.clone(), step));
        all.push(Case::new(full.clone(), later));
    }
    all
}

/// Two faults in one clause of the formula, in two clauses in both orders, and beside a wrong HEAD or end.
pub fn in_formulas() -> Vec<Case> {
    let parts = Parts::new(&[(CLAUSE, codes(&[1, -2]))]);
    let faults: Vec<Fault> = of_field(0).into_iter().chain(of_clause()).collect();
    let whole = parts.bytes();
    let heads = [
        head(3, 2),
        head(3, 1),
        head(3, 3),
        head(1, 2),
        head(0, 2),
        head(4_096, 2),
    ];
    let mut all = Vec::new();
    let mut push = |clauses: &[&[u8]]| {
        for head in &heads {
            let file = [head.clone(), clauses.concat()].concat();
            all.push(Case::new(file, vec![0xff]));
        }
    };
    push(&[&whole, &whole]);
    for first in &faults {
        for second in &faults {
            let (mut one, mut other, mut twice) = (parts.clone(), parts.clone(), parts.clone());
            first(&mut one);
            second(&mut other);
            first(&mut twice);
            second(&mut twice);
            push(&[&one.bytes(), &other.bytes()]);
            push(&[&whole, &twice.bytes()]);
        }
    }
    all
}
