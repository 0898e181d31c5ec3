//! What the comparisons count of what a state holds: how frames stand to it, and how it is carried or
//! converted.

use crate::generator::state::Older;
use crate::layouts;
use crate::mc::McChannel;
use crate::scope::{Refusal, State};

/// What a state holds before a frame that every other refusal has let pass, and the frame's answer under
/// readings 1 and 2: 0 for accepted, 5 for refusal 5.
pub const HELD: [(&str, [u32; 2]); 6] = [
    ("nothing", [0, 0]),
    ("its count alone", [0, 0]),
    ("another count alone", [5, 5]),
    ("its layout", [0, 0]),
    ("another layout of its count", [0, 5]),
    ("a layout of another count", [5, 5]),
];

/// The place in [`HELD`] of a frame with these output channels.
pub fn held(state: &State, channels: &[McChannel]) -> usize {
    let count = channels.len();
    match layouts::channels(state.layout) {
        None if state.count == 0 => 0,
        None if state.count as usize == count => 1,
        None => 2,
        Some(held) if held == channels => 3,
        Some(held) if held.len() == count => 4,
        Some(_) => 5,
    }
}

/// What a state holds that is carried, and why one is refused with 6.
pub const CARRIED: [&str; 6] = [
    "nothing held",
    "a lone count",
    "a layout",
    "refused, a count above 5",
    "refused, a layout that no header gives",
    "refused, a count that is not its layout's",
];

/// The place in [`CARRIED`] of a state, by the answer.
pub fn carried(state: &State, answer: &Result<(), Refusal>) -> usize {
    taken(state.count, state.layout, answer.is_ok())
}

fn taken(count: u32, layout: u32, accepted: bool) -> usize {
    match accepted {
        true if count == 0 => 0,
        true if layout == 0 => 1,
        true => 2,
        false if count > 5 => 3,
        false if layouts::channels(layout).is_none() => 4,
        false => 5,
    }
}

/// The same of an older state that is converted, with a reason more.
pub const CONVERTED: [&str; 7] = [
    CARRIED[0],
    CARRIED[1],
    CARRIED[2],
    CARRIED[3],
    CARRIED[4],
    CARRIED[5],
    "refused, a history of another length",
];

/// The place in [`CONVERTED`] of an older state, by the answer.
pub fn converted(older: &Older, answer: &Result<State, Refusal>) -> usize {
    match older.history.len() {
        576 => taken(older.count, older.layout, answer.is_ok()),
        _ => 6,
    }
}
