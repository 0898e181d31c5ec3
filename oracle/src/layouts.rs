//! The layouts that a state can hold: their numbers, and the channels that the published Rust has for
//! each.

use crate::generator::Plan;
use crate::mc::McChannel;
use crate::reference_head;
use std::sync::LazyLock;

/// Each number with a header that gives its layout: base channels, centre code and surround code.
const HEADERS: [(u32, usize, u32, u32); 12] = [
    (10, 1, 0, 0),
    (11, 1, 0, 1),
    (12, 1, 0, 2),
    (13, 1, 0, 3),
    (20, 2, 0, 0),
    (21, 2, 0, 1),
    (22, 2, 0, 2),
    (23, 2, 0, 3),
    (30, 2, 1, 0),
    (31, 2, 1, 1),
    (32, 2, 1, 2),
    (33, 2, 1, 3),
];

/// The numbers, each with its output channels.
static LAYOUTS: LazyLock<[(u32, Vec<McChannel>); 12]> = LazyLock::new(|| {
    HEADERS.map(|(number, base_channels, centre, surround)| {
        let head = Plan::plain(base_channels, centre, surround).head_written();
        let head = reference_head(&head.bytes, head.bits, base_channels);
        (number, head.expect("a plain head is read").layout)
    })
});

/// The output channels of the layout of this number; none for 0 and for any number that no header gives.
pub fn channels(number: u32) -> Option<&'static [McChannel]> {
    let mut layouts = LAYOUTS.iter();
    let layout = layouts.find(|layout| layout.0 == number)?;
    Some(&layout.1)
}

/// The number of the layout with these output channels.
pub fn number(channels: &[McChannel]) -> u32 {
    let mut layouts = LAYOUTS.iter();
    let layout = layouts.find(|layout| layout.1 == channels);
    layout.expect("a header gives these channels").0
}
