//! Frames, carryings and conversions through the library and the oracle, one after another, compared in
//! everything.

use crate::case::{Case, SLICES};
use crate::coverage::Coverage;
use crate::lent::{Compared, Difference, Lent, float_sum, loan_sum, same_number, same_state};
use crate::twin::Twin;
use koftabasin::{Answer, McError, McState};
use oracle::FrameOutput;
use oracle::excess::Excesses;
use oracle::flat::packed;
use oracle::generator::Random;
use oracle::generator::state::Older;
use oracle::library;
use oracle::scope::{Buffers, Refusal, State, is_desk};
use oracle::trail::Trail;

/// A run of calls on one state, held by both sides.
pub struct Run {
    lent: Lent,
    held: McState,
    pub state: State,
    /// The same calls for other desks, in some sequences.
    twin: Option<Twin>,
    trail: Trail,
    pub coverage: Coverage,
    /// Frames so far.
    pub frames: u64,
}

impl Run {
    pub fn new() -> Run {
        Run {
            lent: Lent::new(),
            held: McState::new(),
            state: State::fresh(),
            twin: None,
            trail: Trail::default(),
            coverage: Coverage::default(),
            frames: 0,
        }
    }

    /// Goes on from a fresh state, which the library makes of what it held.
    pub fn start_fresh(&mut self) -> Compared {
        self.held.reset();
        self.start(State::fresh());
        same_state(&self.held, &self.state)
    }

    /// Goes on from this state.
    pub fn start_from(&mut self, state: State) {
        self.held = library::held(&state);
        self.start(state);
    }

    /// Goes on from what becomes of an older state, if that is converted.
    pub fn start_converted(&mut self, older: &Older) -> Compared {
        if let Some((held, state)) = self.convert(older)? {
            self.held = held;
            self.start(state);
        }
        Ok(())
    }

    fn start(&mut self, state: State) {
        self.state = state;
        self.twin = None;
        self.trail = Trail::default();
    }

    /// Makes each call up to the next start a second time, for desks that are drawn anew.
    pub fn draw_desks_anew(&mut self, random: &mut Random) {
        self.twin = Some(Twin::of(&self.held, random));
    }

    /// Counts the sequence that was run since the start.
    pub fn end(&mut self) {
        self.coverage.sequence(&self.trail);
    }

    /// Carries the state.
    pub fn carry(&mut self) -> Compared {
        self.trail.carry();
        let refusal = carry(&mut self.coverage, &mut self.held, &mut self.state)?;
        match &mut self.twin {
            Some(twin) => twin.carry(refusal, &self.state),
            None => Ok(()),
        }
    }

    /// Carries another state; the run's stays.
    pub fn carry_apart(&mut self, state: &State) -> Compared {
        let mut held = library::held(state);
        carry(&mut self.coverage, &mut held, &mut state.clone()).map(|_| ())
    }

    /// Converts an older state on both sides and compares answers and states.
    pub fn convert(&mut self, older: &Older) -> Result<Option<(McState, State)>, Difference> {
        let sum = float_sum(&older.history);
        let (count, layout) = (older.count as u8, older.layout as u8);
        let found = McState::convert(&older.history, count, layout, older.tally);
        let wanted = older.converted();
        same_answer(found.as_ref().err(), wanted.as_ref().err())?;
        same_number("sum of the loan", float_sum(&older.history), sum)?;
        self.coverage.converted(older, &wanted);
        let states = found.ok().zip(wanted.ok());
        if let Some((held, state)) = &states {
            same_state(held, state)?;
        }
        Ok(states)
    }

    /// Calls the library on a case and compares all that it answers and leaves. The run goes on from
    /// the state afterwards, unless the case has a state of its own.
    pub fn compare(&mut self, case: &Case) -> Compared {
        self.frames += 1;
        let (answer, after) = case.judged();
        if let (Ok(frame), Some(written)) = (&answer, &case.written) {
            same_excesses(&frame.excesses, written)?;
        }
        let (flat, lengths) = case.flat();
        let mut own = None;
        let held = match same_bits(&case.state, &self.state) {
            true => &mut self.held,
            false => own.insert(library::held(&case.state)),
        };
        let sum = loan_sum(&case.input, &flat);
        let frame = library::frame(&case.input, &flat);
        let found = self.lent.call(held, &frame, lengths);
        let packed = packed(&answer);
        same_number("answer", found.0, packed)?;
        if let Ok(frame) = &answer {
            same_used(found, frame)?;
        }
        let wanted = answer.as_ref().ok().map(Buffers::of);
        self.lent.compare(wanted.as_ref())?;
        same_state(held, &after)?;
        self.coverage.note(case, &answer, &after);
        if own.is_none() {
            let change = self.trail.frame(case.input.reading);
            self.coverage.change(change, answer.is_ok());
            self.state = after;
        }
        let again = own.is_none() && is_desk(case.input.desk);
        if let Some(twin) = self.twin.as_mut().filter(|_| again) {
            let wanted = (packed, wanted.as_ref(), &self.state);
            twin.compare(&mut self.lent, (&frame, lengths), wanted)?;
            self.coverage.anew(&answer);
        }
        same_number("sum of the loan", loan_sum(&case.input, &flat), sum)
    }
}

/// Carries a state on both sides and compares answers and states; the refusal, 0 for none.
fn carry(
    coverage: &mut Coverage,
    held: &mut McState,
    state: &mut State,
) -> Result<u64, Difference> {
    let before = state.clone();
    let (found, wanted) = (held.carry(), state.carry());
    same_answer(found.as_ref().err(), wanted.as_ref().err())?;
    same_state(held, state)?;
    coverage.carried(&before, &wanted);
    Ok(wanted.map_or_else(|refusal| refusal.number.into(), |()| 0))
}

/// The refusals are the same, or there is none.
fn same_answer(found: Option<&McError>, wanted: Option<&Refusal>) -> Compared {
    let found = found.map_or(0, |error| error.number());
    let wanted = wanted.map_or(0, |refusal| refusal.number);
    same_number("answer", found.into(), wanted.into())
}

/// The crate takes the number of an accepted frame apart into the same three.
fn same_used(found: Answer, frame: &FrameOutput) -> Compared {
    let used = found.result().expect("the number is an accepted frame's");
    let (head, payload) = (frame.span.head_used, frame.span.payload_used);
    same_number("head bits", used.head_bits.into(), head)?;
    same_number("payload bits", used.payload_bits.into(), payload)?;
    let codes = frame.excesses.codes();
    same_number("excess codes", used.excess_codes.into(), codes.into())
}

/// The excesses that are read from a payload are those that its plan wrote.
fn same_excesses(read: &Excesses, written: &Excesses) -> Compared {
    match read == written {
        true => Ok(()),
        false => Err(Difference {
            field: "excesses, read by the oracle and written by its generator".to_string(),
            found: read.words(),
            wanted: written.words(),
        }),
    }
}

fn same_bits(one: &State, other: &State) -> bool {
    let bits = |state: &State| (state.count, state.layout, state.accepted);
    let values = one.history.iter().zip(&other.history);
    bits(one) == bits(other) && values.into_iter().all(|(a, b)| a.to_bits() == b.to_bits())
}

/// A case in words, for whoever has to look into a difference.
pub fn words(case: &Case) -> String {
    let wrong = case
        .wrong_length
        .map(|(slice, length)| format!(", {} of length {length}", SLICES[slice]));
    format!(
        "done: {:?}{}; {}, {}",
        case.done,
        wrong.unwrap_or_default(),
        state_words(&case.state),
        case.input.words(),
    )
}

/// A state without its history.
pub fn state_words(state: &State) -> String {
    format!(
        "layout count {}, layout {}, tallies {:?}",
        state.count, state.layout, state.accepted
    )
}
