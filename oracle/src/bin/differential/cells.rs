//! The cells that a run counts by: their names, and those that a long run is to reach.

use crate::case::SLICES;
use oracle::excess::GROUPED;
use oracle::generator::layout::{Layout, STEPS};
use oracle::held::{CARRIED, CONVERTED, HELD};
use oracle::input::{DESKS, READINGS};
use oracle::phantom::COUNTED;
use oracle::trail::CHANGES;

/// What is counted by, and two numbers of it.
pub type Cell = (By, u32, u32);

/// What is counted: frames, but for `Carried`, `Converted` and `ExcessCodes`, and from `AcceptedUnder` on
/// accepted ones alone.
#[derive(Debug, Clone, Copy, PartialEq, Eq, PartialOrd, Ord)]
pub enum By {
    Answer,
    /// Group and code of refusal 2.
    Forbidden,
    /// The slice whose length is wrong.
    WrongLength,
    /// The reading, 3 for any other number.
    Reading,
    /// 0 for every frame that was judged on an amended head, 1 and the answer for each of them.
    AmendedHead,
    /// Mono base, phantom centre and second stereo: a place in [`COUNTED`].
    MonoPhantom,
    /// Reading and what the state holds, see [`held_cell`], with the answer, accepted or refusal 5.
    Held,
    /// The change of reading after the frame before, a place in [`CHANGES`]; 0 for an accepted frame, 1
    /// for a refused one.
    Change,
    /// Carryings: a place in [`CARRIED`]; 1 where the history has a value of refusal 7.
    Carried,
    /// Conversions: a place in [`CONVERTED`]; 1 where the history has a value of refusal 7.
    Converted,
    /// For a wrong desk: the answer that the frame has for desk 0.
    WrongDesk,
    /// Called a second time for another desk: the answer.
    Anew,
    /// The reading of an accepted frame.
    AcceptedUnder,
    /// The desk of an accepted frame.
    AcceptedFor,
    /// The desk of an accepted frame whose tally was at its top.
    AtTop,
    /// The layout that the state has after a frame under reading 2.
    Stored,
    /// The layout by its number.
    Layout,
    BaseChannels,
    Rate,
    Procedure,
    /// Layout and tc, in some group.
    Tc,
    /// Layout and code, in some group.
    Code,
    /// Step count, at some transmitted place.
    Class,
    /// Group codes with an excess: the step count.
    ExcessCodes,
    LfeAllocation,
    /// 0 off, 1 on without a group, 2 with one.
    Prediction,
    /// Predictor and its number of coefficients, in some group.
    Predictor,
    /// 0 none, 1 without a copied group, 2 with one.
    SecondStereo,
    Phantom,
}

/// A reading and a place in [`HELD`] as one number.
pub fn held_cell(reading: u32, place: usize) -> u32 {
    10 * reading + place as u32
}

fn layout_name(number: u32) -> String {
    match (number / 10, number % 10) {
        (front, 3) => format!("{front}/0+2"),
        (front, surround) => format!("{front}/{surround}"),
    }
}

fn answer_name(number: u32) -> String {
    match number {
        0 => "accepted".to_string(),
        _ => format!("refusal {number}"),
    }
}

fn history_name(wild: u32) -> &'static str {
    ["", ", wild history"][wild as usize]
}

/// The name of a cell's line: one for each kind, but tcs and codes by layout and what is held by reading.
pub fn title((by, first, _): Cell) -> String {
    match by {
        By::Tc | By::Code => format!("{by:?} {}", layout_name(first)),
        By::Held => format!("{by:?} under {}", first / 10),
        _ => format!("{by:?}"),
    }
}

/// The name of a cell within its line.
pub fn label((by, first, second): Cell) -> String {
    match by {
        By::Answer | By::Anew => answer_name(first),
        By::WrongLength => SLICES[first as usize].to_string(),
        By::Reading if first == 3 => "another".to_string(),
        By::AmendedHead if first == 0 => "all".to_string(),
        By::AmendedHead => answer_name(second),
        By::MonoPhantom => COUNTED[first as usize].to_string(),
        By::Held => {
            let held = HELD[first as usize % 10].0;
            format!("{held}, {}", answer_name(second))
        }
        By::Change => {
            let answer = ["accepted", "refused"][second as usize];
            format!("{}, {answer}", CHANGES[first as usize])
        }
        By::Carried => format!("{}{}", CARRIED[first as usize], history_name(second)),
        By::Converted => format!("{}{}", CONVERTED[first as usize], history_name(second)),
        By::WrongDesk => match first {
            0 => "refusal 14 alone".to_string(),
            6 => "refusal 6 before 14".to_string(),
            _ => format!("refusal 14 before {first}"),
        },
        By::AcceptedUnder => format!("reading {first}"),
        By::AcceptedFor | By::AtTop => format!("desk {first}"),
        By::Stored | By::Layout => layout_name(first),
        By::Tc | By::Code => second.to_string(),
        By::Forbidden => format!("code {second} in {first}"),
        By::ExcessCodes => format!("{first} steps"),
        By::Predictor => format!("{first} with {second}"),
        _ => first.to_string(),
    }
}

/// Every cell that a run over all shapes reaches in time.
pub fn wanted() -> Vec<Cell> {
    let mut cells = held_cells();
    let mut range = |by: By, numbers: std::ops::Range<u32>| {
        cells.extend(numbers.map(|n| (by, n, 0)));
    };
    range(By::Answer, 0..9);
    range(By::Answer, 13..15);
    range(By::WrongDesk, 0..9);
    range(By::WrongDesk, 13..14);
    range(By::Anew, 0..9);
    range(By::Anew, 13..14);
    range(By::AcceptedFor, 0..DESKS as u32);
    range(By::AtTop, 0..DESKS as u32);
    range(By::WrongLength, 0..10);
    range(By::Reading, 1..4);
    range(By::AmendedHead, 0..1);
    range(By::MonoPhantom, 0..COUNTED.len() as u32);
    range(By::AcceptedUnder, 1..3);
    range(By::BaseChannels, 1..3);
    range(By::Procedure, 0..4);
    range(By::LfeAllocation, 0..16);
    range(By::Prediction, 0..3);
    range(By::SecondStereo, 0..3);
    range(By::Phantom, 0..2);
    cells.extend([0, 1, 3, 4, 5, 8].map(|answer| (By::AmendedHead, 1, answer)));
    cells.extend([32_000, 44_100, 48_000].map(|rate| (By::Rate, rate, 0)));
    cells.extend(STEPS.map(|steps| (By::Class, steps, 0)));
    cells.extend(GROUPED.map(|steps| (By::ExcessCodes, steps, 0)));
    cells.extend((0..24).map(|k| (By::Predictor, k / 4, k % 4)));
    for layout in Layout::all() {
        layout_cells(&layout, &mut cells);
    }
    cells.sort_unstable();
    cells.dedup();
    cells
}

/// The cells of what is held: both readings, every change of them, every kind of carrying and of
/// conversion.
fn held_cells() -> Vec<Cell> {
    let mut cells = vec![];
    for (place, (_, answers)) in HELD.iter().enumerate() {
        for (reading, answer) in READINGS.into_iter().zip(answers) {
            cells.push((By::Held, held_cell(reading, place), *answer));
        }
    }
    let pairs = |by: By, places: usize| (0..2 * places as u32).map(move |k| (by, k / 2, k % 2));
    cells.extend(pairs(By::Change, CHANGES.len()));
    cells.extend(pairs(By::Carried, CARRIED.len()));
    cells.extend(pairs(By::Converted, CONVERTED.len()));
    cells
}

/// The cells of a layout: every tc of its width, listed codes, unlisted codes in every group.
fn layout_cells(layout: &Layout, cells: &mut Vec<Cell>) {
    let number = layout.number();
    let listed = layout.sources().len() as u32;
    cells.push((By::Stored, number, 0));
    cells.push((By::Layout, number, 0));
    cells.extend((0..1 << layout.tc_bits).map(|tc| (By::Tc, number, tc)));
    cells.extend((0..listed).map(|code| (By::Code, number, code)));
    let unlisted = listed..1 << layout.crosstalk_bits;
    cells.extend(unlisted.flat_map(|code| (0..12).map(move |group| (By::Forbidden, group, code))));
}
