//! What the comparisons count of frames for a wrong desk.

use crate::input::FrameInput;
use crate::scope::{State, judge};

/// What refusal 14 of a frame that was lent with this state stands before: the frame's answer for desk
/// 0, 0 where that is acceptance.
pub fn before_what(input: &FrameInput, state: &State) -> u32 {
    let input = FrameInput {
        desk: 0,
        ..input.clone()
    };
    let answer = judge(&input, &mut state.clone());
    answer.map_or_else(|refusal| refusal.number, |_| 0)
}
