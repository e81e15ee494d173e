//! Demand 3 by brute force, over the steps that a checker's line says it has taken: the line is believed, and what it promises is tried.

use crate::files::{self, Kind};
use crate::judge::{Answer, State};
use crate::pack;
use crate::rules::Clauses;
use crate::stowage::{all, meets, moved, Stowage};
use std::collections::BTreeMap;

/// Above this many variables there are too many stowages.
const MOST_V: u32 = 8;

#[derive(Default)]
pub struct Tally {
    pub cases: usize,
    /// Cases with no step to carry a stowage through: refused before the first, or too many variables.
    pub passed_over: usize,
    pub refuted: usize,
    pub steps: BTreeMap<Kind, usize>,
    pub carried: usize,
    pub moved: usize,
    /// Steps that moved a stowage at all.
    pub moving: BTreeMap<Kind, usize>,
}

/// How many steps a line says were taken, and whether it says refuted; nothing of a line that refuses the formula or the call.
fn taken(line: &str) -> Result<Option<(usize, bool)>, String> {
    let answer = pack::answer(line).ok_or_else(|| format!("line {line}"))?;
    Ok(match answer {
        Answer::Refuted(steps) => Some((steps, true)),
        Answer::Held(steps) => Some((steps, false)),
        Answer::Refused { step, .. } => step.checked_sub(1).map(|steps| (steps, false)),
    })
}

/// The step at the reading place, taken with no condition tried.
pub fn take(state: &mut State, proof: &[u8]) -> Result<files::Step, String> {
    let step = files::step(proof, state.at, state.v, &state.live, state.next)
        .map_err(|f| format!("step {} is taken, yet {f:?}", state.taken + 1))?;
    state.enter(&step);
    Ok(step)
}

/// Carries every stowage that meets the formula through the steps that the line says were taken; the error says what failed.
pub fn check(formula: &[u8], proof: &[u8], line: &str, tally: &mut Tally) -> Result<(), String> {
    tally.cases += 1;
    let Some((steps, refuted)) = taken(line)? else {
        tally.passed_over += 1;
        return Ok(());
    };
    let mut state = State::start(formula).map_err(|f| format!("{line}, yet the formula {f:?}"))?;
    if state.v > MOST_V {
        tally.passed_over += 1;
        return Ok(());
    }
    let meets_all = |stowage: &Stowage, live: &Clauses| live.values().all(|c| meets(stowage, c));
    let mut stowages = all(state.v);
    stowages.retain(|stowage| meets_all(stowage, &state.live));
    for _ in 0..steps {
        let step = take(&mut state, proof)?;
        *tally.steps.entry(step.kind).or_insert(0) += 1;
        let moved_before = tally.moved;
        for stowage in &mut stowages {
            let witnessed = matches!(step.kind, Kind::Sr | Kind::Wsr);
            if witnessed && !meets(stowage, &step.clause) {
                *stowage = moved(stowage, &step.witness);
                tally.moved += 1;
            }
            tally.carried += 1;
            if !meets_all(stowage, &state.live) {
                return Err(format!("step {}: {stowage:?} fails", state.taken));
            }
        }
        if tally.moved > moved_before {
            *tally.moving.entry(step.kind).or_insert(0) += 1;
        }
    }
    if refuted {
        tally.refuted += 1;
        if !stowages.is_empty() {
            return Err("refuted, yet a stowage meets the formula".to_string());
        }
    }
    Ok(())
}
