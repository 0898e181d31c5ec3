//! What a run has reached: frames by what they hold, carryings and conversions.

use crate::case::Case;
use crate::cells::{By, Cell, held_cell, label, title, wanted};
use oracle::desks::before_what;
use oracle::excess::{Excesses, GROUPED};
use oracle::generator::layout::STEPS;
use oracle::generator::state::Older;
use oracle::held::{carried, converted, held};
use oracle::input::READINGS;
use oracle::phantom::{counted, on_amended_head};
use oracle::scope::{Refusal, State, in_range, is_desk};
use oracle::trail::Trail;
use oracle::{FrameInput, FrameOutput, layouts, reference_head};
use std::collections::BTreeMap;

/// Frames, carryings and conversions by cell, calls by what was done to their frame, and the sequences
/// with a change of reading with their frames.
#[derive(Debug, Clone, Default)]
pub struct Coverage {
    cells: BTreeMap<Cell, u64>,
    done: BTreeMap<&'static str, u64>,
    changed_sequences: u64,
    changed_frames: u64,
}

impl Coverage {
    /// Counts a frame with its answer and the state afterwards.
    pub fn note(&mut self, case: &Case, answer: &Result<FrameOutput, Refusal>, after: &State) {
        for name in &case.done {
            *self.done.entry(name).or_default() += 1;
        }
        if let Some((slice, _)) = case.wrong_length {
            self.add(By::WrongLength, slice as u32, 0);
        }
        let named = READINGS.contains(&case.input.reading);
        self.add(By::Reading, if named { case.input.reading } else { 3 }, 0);
        self.phantom(case, answer);
        self.held(case, answer);
        self.wrong_desk(case, answer);
        match answer {
            Err(refusal) => {
                self.add(By::Answer, refusal.number, 0);
                if refusal.number == 2 {
                    self.add(By::Forbidden, refusal.group, refusal.code);
                }
            }
            Ok(frame) => self.accepted(case, frame, after),
        }
    }

    /// Counts the change of reading with which a frame came, if there was one.
    pub fn change(&mut self, change: Option<usize>, accepted: bool) {
        if let Some(place) = change {
            self.add(By::Change, place as u32, u32::from(!accepted));
        }
    }

    /// Counts a carrying of this state with its answer.
    pub fn carried(&mut self, state: &State, answer: &Result<(), Refusal>) {
        let wild = u32::from(!state.history_in_range());
        self.add(By::Carried, carried(state, answer) as u32, wild);
    }

    /// Counts a conversion of this older state with its answer.
    pub fn converted(&mut self, older: &Older, answer: &Result<State, Refusal>) {
        let wild = u32::from(!older.history.iter().all(in_range));
        self.add(By::Converted, converted(older, answer) as u32, wild);
    }

    /// Counts a frame that was called a second time, for another desk, with its answer.
    pub fn anew(&mut self, answer: &Result<FrameOutput, Refusal>) {
        self.add(By::Anew, number(answer), 0);
    }

    /// Counts a sequence, if there was a change of reading in it.
    pub fn sequence(&mut self, trail: &Trail) {
        if trail.changed {
            self.changed_sequences += 1;
            self.changed_frames += trail.frames;
        }
    }

    /// Frames judged on an amended head; mono bases with a phantom centre and second stereo.
    fn phantom(&mut self, case: &Case, answer: &Result<FrameOutput, Refusal>) {
        if on_amended_head(&case.input, answer) {
            self.add(By::AmendedHead, 0, 0);
            self.add(By::AmendedHead, 1, number(answer));
        }
        for place in counted(&case.input, &case.state, answer) {
            self.add(By::MonoPhantom, *place as u32, 0);
        }
    }

    /// How a frame stands to what is held, where no refusal but 5 was found.
    fn held(&mut self, case: &Case, answer: &Result<FrameOutput, Refusal>) {
        let input = &case.input;
        if matches!(number(answer), 0 | 5) {
            let head = reference_head(&input.head, input.head_bits, input.base_channels);
            let channels = head.expect("the head was read").layout;
            let cell = held_cell(input.reading, held(&case.state, &channels));
            self.add(By::Held, cell, number(answer));
        }
    }

    /// What refusal 14 stands before, or that it comes after 6.
    fn wrong_desk(&mut self, case: &Case, answer: &Result<FrameOutput, Refusal>) {
        if !is_desk(case.input.desk) {
            let otherwise = match number(answer) {
                14 => before_what(&case.input, &case.state),
                other => other,
            };
            self.add(By::WrongDesk, otherwise, 0);
        }
    }

    fn accepted(&mut self, case: &Case, frame: &FrameOutput, after: &State) {
        let (config, status) = (&frame.head.config, &frame.head.status);
        let (layout, input) = (layouts::number(&frame.span.layout), &case.input);
        self.add(By::Answer, 0, 0);
        self.add(By::AcceptedUnder, input.reading, 0);
        self.add(By::AcceptedFor, input.desk, 0);
        if case.state.accepted[input.desk as usize] == u32::MAX {
            self.add(By::AtTop, input.desk, 0);
        }
        if input.reading == 2 {
            self.add(By::Stored, after.layout, 0);
        }
        self.add(By::Layout, layout, 0);
        self.add(By::BaseChannels, input.base_channels as u32, 0);
        self.add(By::Rate, input.sample_rate, 0);
        let procedure = frame.head.mc_header.dematrix_procedure;
        self.add(By::Procedure, u32::from(procedure), 0);
        self.each(By::Tc, layout, &status.tc_allocation);
        self.each(By::Code, layout, &status.dyn_cross_mode);
        self.classes(input);
        self.excess_codes(&frame.excesses);
        self.add(By::LfeAllocation, input.lfe_allocation, 0);
        let groups = u32::from(status.mc_prediction.contains(&true));
        self.add(
            By::Prediction,
            u32::from(status.mc_prediction_on) + groups,
            0,
        );
        for px in 0..6 {
            let counts = status.predsi.map(|counts| counts[px]);
            self.each(By::Predictor, px as u32, &counts);
        }
        let second = u32::from(config.second_stereo);
        let copied = u32::from(status.dyn_second_stereo.contains(&true));
        self.add(By::SecondStereo, second + copied, 0);
        self.add(By::Phantom, u32::from(config.phantom_centre), 0);
    }

    /// One frame for each number in the list, however often it stands there.
    fn each(&mut self, by: By, first: u32, numbers: &[u8]) {
        let seen = numbers.iter().fold(0u32, |seen, n| seen | 1 << n);
        for number in (0..16).filter(|n| seen >> n & 1 == 1) {
            self.add(by, first, number);
        }
    }

    fn classes(&mut self, input: &FrameInput) {
        let steps = input.nb_steps.as_flattened();
        for class in STEPS.iter().filter(|class| steps.contains(class)) {
            self.add(By::Class, *class, 0);
        }
    }

    fn excess_codes(&mut self, excesses: &Excesses) {
        let classes = GROUPED.into_iter().zip(excesses.by_class);
        for (steps, codes) in classes.filter(|class| class.1 > 0) {
            *self.cells.entry((By::ExcessCodes, steps, 0)).or_default() += u64::from(codes);
        }
    }

    fn add(&mut self, by: By, first: u32, second: u32) {
        *self.cells.entry((by, first, second)).or_default() += 1;
    }

    /// The cells that a long run is to reach and this one has not.
    pub fn missing(&self) -> Vec<String> {
        let missing = wanted()
            .into_iter()
            .filter(|cell| !self.cells.contains_key(cell));
        missing
            .map(|cell| format!("{} {}", title(cell), label(cell)))
            .collect()
    }

    /// A line for each title.
    pub fn lines(&self) -> Vec<String> {
        let mut lines: Vec<(String, String)> = vec![];
        for (cell, count) in &self.cells {
            let title = title(*cell);
            let words = format!("  {}: {count}", label(*cell));
            match lines.last_mut().filter(|line| line.0 == title) {
                Some(line) => line.1 += &words,
                None => lines.push((title, words)),
            }
        }
        let done = self
            .done
            .iter()
            .map(|(name, count)| format!("  {name}: {count}"));
        lines.push(("Done to frames".to_string(), done.collect()));
        lines
            .iter()
            .map(|(title, words)| format!("{title:14}{words}"))
            .collect()
    }

    /// How many frames there were in sequences with a change of reading.
    pub fn changes(&self) -> String {
        let (frames, sequences) = (self.changed_frames, self.changed_sequences);
        format!("{frames} frames in {sequences} sequences with a change of reading")
    }

    pub fn merge(&mut self, other: Coverage) {
        for (cell, count) in other.cells {
            *self.cells.entry(cell).or_default() += count;
        }
        for (name, count) in other.done {
            *self.done.entry(name).or_default() += count;
        }
        self.changed_sequences += other.changed_sequences;
        self.changed_frames += other.changed_frames;
    }
}

/// The refusal, 0 for accepted.
fn number(answer: &Result<FrameOutput, Refusal>) -> u32 {
    answer.as_ref().map_or_else(|refusal| refusal.number, |_| 0)
}
