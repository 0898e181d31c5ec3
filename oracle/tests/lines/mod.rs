//! Lines of the program `boundary`, each from what the reference, or `scope` beside it, answers.

pub mod desks;

use oracle::generator::Plan;
use oracle::generator::state::Older;
use oracle::input::Slots;
use oracle::output::FrameOutput;
use oracle::scope::{Refusal, State, judge};

/// The base values of a channel: `start`, and each next one 1/1024 above.
fn ramp(start: f64) -> Slots {
    let value = |slot, subband| start + f64::from(32 * slot + subband) / 1024.0;
    (0..36u16)
        .map(|slot| std::array::from_fn(|subband| value(slot, subband as u16)))
        .collect()
}

/// A frame of zeros, with base values that begin with `left` and, in a second channel, with -1.5.
pub fn plan(base_channels: usize, centre: u32, surround: u32, left: f64) -> Plan {
    let mut plan = Plan::plain(base_channels, centre, surround);
    plan.base.scaled = [left, -1.5][..base_channels]
        .iter()
        .map(|x| ramp(*x))
        .collect();
    plan.base.raw = plan.base.scaled.clone();
    plan
}

/// The history that a base leaves: its last nine slots, one base channel in both halves.
fn stored(base: &[Slots]) -> Vec<f64> {
    let sides = [&base[0], base.last().unwrap()];
    let places = |k: usize| sides[k / 288][27 + k % 9][k / 9 % 32];
    (0..576).map(places).collect()
}

/// What a line says of the answer and of the state. After a refusal the reference has no buffers.
fn said(
    answer: &Result<FrameOutput, Refusal>,
    base: &[Slots],
    before: &State,
    after: &State,
) -> String {
    let mut said = match answer {
        Ok(frame) => format!(
            "accepted, {} head bits, {} payload bits, {} excess codes",
            frame.span.head_used,
            frame.span.payload_used,
            frame.excesses.codes()
        ),
        Err(refusal) => format!(
            "refusal {}, group {}, code {}; buffers as they were",
            refusal.number, refusal.group, refusal.code
        ),
    };
    if before == after {
        return said + "; state as it was";
    }
    assert_eq!(after.history, stored(base));
    said += &format!("; history stored, {}", numbers(after));
    if numbers(before) == numbers(after) {
        said += " as they were";
    }
    said
}

/// The numbers of a state, its layout where that is known.
fn numbers(state: &State) -> String {
    let layout = match state.layout {
        0 => String::new(),
        layout => format!(", layout {layout}"),
    };
    let tallies = state.accepted.map(|tally| tally.to_string()).join(" ");
    format!("layout count {}{layout}, tallies {tallies}", state.count)
}

/// The lines so far.
#[derive(Default)]
pub struct Lines(pub Vec<String>);

impl Lines {
    /// A frame's line; `change` spoils the loan.
    pub fn spoiled(
        &mut self,
        name: &str,
        plan: &Plan,
        state: &mut State,
        change: impl Fn(&mut oracle::FrameInput),
    ) -> Result<FrameOutput, Refusal> {
        let mut input = plan.input();
        change(&mut input);
        let before = state.clone();
        let answer = judge(&input, state);
        let said = said(&answer, &input.base_scaled, &before, state);
        self.0.push(format!("{name}: {said}"));
        answer
    }

    pub fn line(
        &mut self,
        name: &str,
        plan: &Plan,
        state: &mut State,
    ) -> Result<FrameOutput, Refusal> {
        self.spoiled(name, plan, state, |_| ())
    }

    /// A carrying's line.
    pub fn carried(&mut self, name: &str, state: &mut State) {
        let before = state.clone();
        let answer = match state.carry() {
            Ok(()) => "carried".to_string(),
            Err(refusal) => format!("refusal {}", refusal.number),
        };
        let left = if before == *state {
            "state as it was".to_string()
        } else {
            assert_eq!(before.history, state.history);
            format!("history as it was, {}", numbers(state))
        };
        self.0.push(format!("{name}: {answer}; {left}"));
    }

    /// A conversion's line; a refused one leaves the state.
    pub fn converted(&mut self, name: &str, older: &Older, state: &mut State) {
        let said = match older.converted() {
            Ok(converted) => {
                assert_eq!(converted.history, older.history);
                *state = converted;
                format!("converted; history kept, {}", numbers(state))
            }
            Err(refusal) => format!("refusal {}; state as it was", refusal.number),
        };
        self.0.push(format!("{name}: {said}"));
    }

    pub fn add(&mut self, more: &str) {
        self.0.last_mut().unwrap().push_str(more);
    }
}
