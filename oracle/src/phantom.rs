//! What the comparisons count of a phantom centre over one base channel, which the readings take
//! differently.

use crate::generator::layout::PHANTOM_LIMIT;
use crate::input::FrameInput;
use crate::mc::McConfig;
use crate::output::FrameOutput;
use crate::scope::{Refusal, State, amended, judge};

/// What is counted of the frames that have second stereo too.
pub const COUNTED: [&str; 4] = [
    "accepted under reading 1",
    "accepted under reading 2",
    "of these with a step count of second left from the limit on",
    "refusal 8 under reading 1 but accepted under reading 2",
];

/// The places in [`COUNTED`] by which a frame counts that was lent with this state.
pub fn counted(
    input: &FrameInput,
    state: &State,
    answer: &Result<FrameOutput, Refusal>,
) -> &'static [usize] {
    match answer {
        Ok(frame) if unlimited(&frame.head.config) => match input.reading {
            1 => &[0],
            _ if input.nb_steps[0][PHANTOM_LIMIT..] == [0; 32 - PHANTOM_LIMIT] => &[1],
            _ => &[1, 2],
        },
        Err(refusal) if refusal.number == 8 && accepted_under_2(input, state) => &[3],
        _ => &[],
    }
}

/// One base channel, a phantom centre and second stereo.
fn unlimited(config: &McConfig) -> bool {
    config.front == 1 && config.phantom_centre && config.second_stereo
}

/// Whether such a frame is accepted where it is lent under reading 2.
fn accepted_under_2(input: &FrameInput, state: &State) -> bool {
    let input = FrameInput {
        reading: 2,
        ..input.clone()
    };
    let answer = judge(&input, &mut state.clone());
    answer.is_ok_and(|frame| unlimited(&frame.head.config))
}

/// Whether the reference was asked about another head than the one that was lent.
pub fn on_amended_head(input: &FrameInput, answer: &Result<FrameOutput, Refusal>) -> bool {
    let asked = !matches!(answer, Err(refusal) if matches!(refusal.number, 6 | 7 | 14));
    asked && amended(input)
}
