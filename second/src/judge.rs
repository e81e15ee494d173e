//! The answer of a call: the order 1, 2, the formula, then the steps, and the verdict after the last.

use crate::files::{self, fault, Fault, Kind, Step, MOST_FILE};
use crate::rules::{rup_step, sr_step, wsr_step, Clauses, Failure};

/// "Work memory: 16,384 words of 32 bits, and 8,192 bytes. Longer is allowed."
pub const WORDS: u32 = 16_384;
pub const BYTES: u32 = 8_192;

/// "Refuted and Held carry the number of steps; an answer of Refused carries its reason, step and place."
#[derive(Clone, Copy, Debug, PartialEq, Eq)]
pub enum Answer {
    Refuted(usize),
    Held(usize),
    Refused {
        reason: u8,
        step: usize,
        place: usize,
    },
}

impl Answer {
    /// "verdict in small letters, reason (0 unless refused), step, place (0 unless refused)"
    pub fn line(&self) -> String {
        match self {
            Answer::Refuted(steps) => format!("refuted 0 {steps} 0"),
            Answer::Held(steps) => format!("held 0 {steps} 0"),
            Answer::Refused {
                reason,
                step,
                place,
            } => format!("refused {reason} {step} {place}"),
        }
    }
}

/// What is known between two steps.
#[derive(Clone, Debug)]
pub struct State {
    pub v: u32,
    pub live: Clauses,
    /// "Each taken RUP, SR or WSR step gives its clause the next number. Numbers are never used again."
    pub next: u32,
    pub taken: usize,
    pub at: usize,
}

impl State {
    pub fn start(formula: &[u8]) -> Result<State, Fault> {
        let formula = files::formula(formula)?;
        Ok(State {
            v: formula.v,
            live: formula.clauses,
            next: formula.m + 1,
            taken: 0,
            at: 0,
        })
    }

    /// Reads the step at the reading place and takes it; a refused step leaves the state as it was.
    pub fn take(&mut self, proof: &[u8]) -> Result<Step, Fault> {
        let step = files::step(proof, self.at, self.v, &self.live, self.next)?;
        let (c, s, f) = (&step.clause, &step.witness, &self.live);
        let done = match step.kind {
            Kind::Rup => rup_step(c, f),
            Kind::Sr => sr_step(c, s, f),
            Kind::Wsr => wsr_step(c, s, &step.numbers, f, self.next),
            // "DELETE needs no condition; its clauses are no longer live."
            Kind::Delete => Ok(()),
        };
        // "then 13, or 14 before 15"
        match done {
            Ok(()) => {}
            Err(Failure::Rup) => return fault(13, 0),
            Err(Failure::Trivialised) => return fault(14, 0),
            Err(Failure::Passes(number)) => return fault(15, number as usize),
        }
        self.enter(&step);
        Ok(step)
    }

    /// "After a step RUP, SR or WSR, C is live and the MODULO clauses aren't."
    pub fn enter(&mut self, step: &Step) {
        for number in &step.numbers {
            self.live.remove(number);
        }
        if step.kind != Kind::Delete {
            self.live.insert(self.next, step.clause.clone());
            self.next += 1;
        }
        self.taken += 1;
        self.at = step.end;
    }

    pub fn empty_clause_live(&self) -> bool {
        self.live.values().any(|clause| clause.is_empty())
    }
}

/// "Order: 1, 2, then the whole formula, then the steps."
pub fn judge(formula: &[u8], proof: &[u8], words: u32, bytes: u32) -> Answer {
    // "Steps count from 1; step 0 means the formula or the call."
    let refused = |fault: Fault, step: usize| Answer::Refused {
        reason: fault.reason,
        step,
        place: fault.place,
    };
    let call = |reason: u8| refused(Fault { reason, place: 0 }, 0);
    if words < WORDS || bytes < BYTES {
        return call(1);
    }
    if formula.len() > MOST_FILE || proof.len() > MOST_FILE {
        return call(2);
    }
    let mut state = match State::start(formula) {
        Ok(state) => state,
        Err(fault) => return refused(fault, 0),
    };
    // "A proof is steps to its end; it may be empty."
    while state.at < proof.len() {
        if let Err(fault) = state.take(proof) {
            return refused(fault, state.taken + 1);
        }
    }
    // "Refuted: every step is taken and an empty clause is live after the last. Held: every step is taken and none is."
    if state.empty_clause_live() {
        Answer::Refuted(state.taken)
    } else {
        Answer::Held(state.taken)
    }
}
