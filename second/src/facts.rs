//! "Two facts for the manual" (02, §13), held on a group of cases and the lines that a checker gave for it: the lines are believed.

use crate::carried::take;
use crate::files::{self, Fault, Kind, Step};
use crate::groups::{EMPTY, FIRST, LONGER, OTHER, RUP, SIZE};
use crate::judge::{Answer, State};
use crate::pack::{self, Case};

/// What each case is called where it is shown.
const NAMES: [&str; SIZE] = [
    "WSR with the first list",
    "WSR with the longer list",
    "WSR with the other list",
    "WSR with nothing",
    "RUP",
];
/// The case that each is shown beside where its line is wrong by itself.
const BESIDE: [usize; SIZE] = [LONGER, FIRST, FIRST, RUP, EMPTY];

/// What is wrong, and the cases that show it.
type Wrong = (String, Vec<usize>);

/// Holds both facts on a group and the lines for it; the error says what failed, with the files.
pub fn check(group: &[Case], lines: &[&str], tally: &mut Tally) -> Result<(), String> {
    hold(group, lines, tally).map_err(|(mut message, cases)| {
        message += &format!("\nformula {:02x?}", group[cases[0]].formula);
        for index in cases {
            let (name, proof) = (NAMES[index], &group[index].proof);
            message += &format!("\n{name}: {}\nproof {proof:02x?}", lines[index]);
        }
        message
    })
}

fn hold(group: &[Case], lines: &[&str], tally: &mut Tally) -> Result<(), Wrong> {
    let (before, steps) = read(group).map_err(|message| (message, vec![FIRST, RUP]))?;
    let number = before.taken + 1;
    let (mut answers, mut taken) = (Vec::new(), Vec::new());
    for (index, line) in lines.iter().enumerate() {
        let wrong = |message: &str| {
            let message = format!("{}, step {number}: {message}", NAMES[index]);
            (message, vec![index, BESIDE[index]])
        };
        let answer = pack::answer(line).ok_or_else(|| wrong("not an answer"))?;
        taken.push(is_taken(answer, number, steps[index].kind).map_err(wrong)?);
        answers.push(answer);
    }
    first_fact(&steps, &taken)?;
    second_fact(&answers, &taken)?;
    only_c_fails(answers[EMPTY], taken[EMPTY], before.next)?;
    tally.count(&answers, &taken);
    Ok(())
}

/// What is known before the step in which the cases differ, and that step of each, worked out from the bytes.
fn read(group: &[Case]) -> Result<(State, Vec<Step>), String> {
    let (wsr, rup) = (&group[FIRST].proof, &group[RUP].proof);
    // WSR and RUP have different tags, so the first byte that differs is the tag of that step.
    let at = wsr.iter().zip(rup).take_while(|(a, b)| a == b).count();
    let not_read = |fault: Fault| format!("not a group: {fault:?}");
    let mut state = State::start(&group[FIRST].formula).map_err(not_read)?;
    while state.at < at {
        take(&mut state, wsr).map_err(|message| format!("not a group: {message}"))?;
    }
    // "Both concern the one step, past reasons 8 to 12" (02, §13): this reads the step up to them.
    let step = |case: &Case| files::step(&case.proof, at, state.v, &state.live, state.next);
    let steps: Result<Vec<Step>, Fault> = group.iter().map(step).collect();
    let steps = steps.map_err(not_read)?;
    if state.at == at && is_group(group, at, &steps) {
        Ok((state, steps))
    } else {
        Err("not a group".to_string())
    }
}

fn holds(longer: &Step, list: &Step) -> bool {
    list.numbers.iter().all(|n| longer.numbers.contains(n))
}

/// Whether all but the one step is shared, and that step has the parts that the two facts speak of.
fn is_group(group: &[Case], at: usize, steps: &[Step]) -> bool {
    let outside = |index: usize| {
        let (case, step) = (&group[index], &steps[index]);
        let proof = (&case.proof[..at], &case.proof[step.end..]);
        (case.words, case.bytes, &case.formula, proof, &step.clause)
    };
    let kind = |index: usize| if index == RUP { Kind::Rup } else { Kind::Wsr };
    let alike = |index: usize| outside(index) == outside(FIRST) && steps[index].kind == kind(index);
    let [first, longer, other, empty, _] = steps else {
        return false;
    };
    (0..SIZE).all(alike)
        && longer.witness == first.witness
        && other.witness == first.witness
        && empty.witness.is_empty()
        && empty.numbers.is_empty()
        && holds(longer, first)
        && longer.numbers.len() > first.numbers.len()
        && (first.numbers.is_empty() || !holds(other, first))
}

/// Taken: no refusal, or that of a later step.
fn is_taken(answer: Answer, number: usize, kind: Kind) -> Result<bool, &'static str> {
    let (last, refused) = match answer {
        Answer::Refuted(steps) | Answer::Held(steps) => (steps, None),
        Answer::Refused {
            reason,
            step,
            place,
        } => (step, Some((kind, reason, place))),
    };
    match refused {
        _ if last < number => Err("the answer ends before it"),
        _ if last > number => Ok(true),
        None => Ok(true),
        // "13 | RUP step: not RUP | 0", "15 | SR or WSR: a clause doesn't pass | lowest such number"
        Some((Kind::Rup, 13, 0) | (Kind::Wsr, 15, 1..)) => Ok(false),
        Some(_) => Err("refused, and not by its condition"),
    }
}

/// "Over the same live clauses, a WSR step that is taken with one MODULO list is also taken with any longer list of live numbers that holds
/// it." (02, §13)
fn first_fact(steps: &[Step], taken: &[bool]) -> Result<(), Wrong> {
    for list in [FIRST, LONGER, OTHER] {
        for longer in [FIRST, LONGER, OTHER] {
            if holds(&steps[longer], &steps[list]) && taken[list] && !taken[longer] {
                let message = "fact 1: taken with a list and refused with a longer one";
                return Err((message.to_string(), vec![list, longer]));
            }
        }
    }
    Ok(())
}

/// "A WSR step with an empty witness and empty MODULO passes its conditions exactly when the RUP step of the same clause does, as corollary
/// 9 says." (02, §13)
fn second_fact(answers: &[Answer], taken: &[bool]) -> Result<(), Wrong> {
    // Places are left out: the empty WITNESS and MODULO put later offsets six bytes further on.
    let without_place = |answer: Answer| match answer {
        Answer::Refused { reason, step, .. } => Answer::Refused {
            reason,
            step,
            place: 0,
        },
        other => other,
    };
    let message = if taken[EMPTY] != taken[RUP] {
        "fact 2: one is taken and the other isn't"
    } else if taken[RUP] && without_place(answers[EMPTY]) != without_place(answers[RUP]) {
        // The same clauses are live after both.
        "fact 2: both are taken, and what follows differs"
    } else {
        return Ok(());
    };
    Err((message.to_string(), vec![EMPTY, RUP]))
}

/// "lowest such number, C counted with the number it would get": with an empty witness and empty MODULO that is always C's.
fn only_c_fails(answer: Answer, taken: bool, next: u32) -> Result<(), Wrong> {
    // An empty s leaves D as it is, and propagation from its complements makes D itself all false: every D of F passes, so only C can fail.
    match answer {
        Answer::Refused { place, .. } if !taken && place != next as usize => {
            let message = format!("reason 15: it names {place}, and C would get {next}");
            Err((message, vec![EMPTY, RUP]))
        }
        _ => Ok(()),
    }
}

#[derive(Default)]
pub struct Tally {
    groups: usize,
    with_both: usize,
    with_the_longer: usize,
    with_neither: usize,
    not_with_the_other: usize,
    both_taken: usize,
    both_refused: usize,
    refused_later: usize,
}

impl Tally {
    /// Fact 1 has been held: with a list that holds the first, where the first is taken only a later step can be refused.
    fn count(&mut self, answers: &[Answer], taken: &[bool]) {
        let refused = |index: usize| matches!(answers[index], Answer::Refused { .. });
        self.groups += 1;
        match (taken[FIRST], taken[LONGER]) {
            (true, _) => self.with_both += 1,
            (false, true) => self.with_the_longer += 1,
            (false, false) => self.with_neither += 1,
        }
        self.not_with_the_other += usize::from(taken[FIRST] && !taken[OTHER]);
        self.both_taken += usize::from(taken[RUP]);
        self.both_refused += usize::from(!taken[RUP]);
        // "later steps may differ" (02, §13)
        self.refused_later += usize::from(!refused(FIRST) && refused(LONGER));
    }

    /// Each count with its name; with a 0 among them something was never tried.
    pub fn counts(&self) -> [(&'static str, usize); 8] {
        [
            ("groups", self.groups),
            ("fact 1, taken with both lists", self.with_both),
            (
                "fact 1, refused with the first list and taken with the longer",
                self.with_the_longer,
            ),
            ("fact 1, refused with both lists", self.with_neither),
            (
                "another list, taken with the first and refused with the other",
                self.not_with_the_other,
            ),
            ("fact 2, both taken", self.both_taken),
            ("fact 2, both refused", self.both_refused),
            (
                "later steps, all taken with the first list and one refused with the longer",
                self.refused_later,
            ),
        ]
    }
}
