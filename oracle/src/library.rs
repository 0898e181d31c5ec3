//! The oracle's frames and states in the types of the library's crate.

use crate::flat::Flat;
use crate::input::FrameInput;
use crate::scope::State;
use koftabasin::{Frame, McState};

/// What is lent to be read. Counts and allocations of more bits than the library's are cut to them.
pub fn frame<'a>(input: &'a FrameInput, flat: &'a Flat) -> Frame<'a> {
    let [raw_left, raw_right, scaled_left, scaled_right] = &flat.base;
    Frame {
        head: &input.head,
        head_bits: input.head_bits as usize,
        payload: &input.payload,
        payload_bits: input.payload_bits as usize,
        reading: input.reading,
        desk: input.desk,
        rate: input.sample_rate,
        base_channels: input.base_channels as u8,
        raw_left,
        raw_right,
        scaled_left,
        scaled_right,
        base_nb_steps: &flat.base_nb_steps,
        lfe_allocation: input.lfe_allocation as u8,
        nb_steps: &flat.nb_steps,
    }
}

/// The state as the library holds it.
pub fn held(state: &State) -> McState {
    let history = state.history[..].try_into().expect("576 values");
    let (count, layout) = (state.count as u8, state.layout as u8);
    McState::with(history, count, layout, state.accepted)
}

/// The state that the library holds.
pub fn state(held: &McState) -> State {
    State {
        history: held.history().to_vec(),
        count: held.layout_len().into(),
        layout: held.layout().into(),
        accepted: *held.accepted(),
    }
}
