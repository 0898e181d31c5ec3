//! The lines of desks and of conversion.

use super::{Lines, plan};
use oracle::FrameInput;
use oracle::generator::Plan;
use oracle::generator::state::Older;
use oracle::scope::State;

fn three_one(left: f64) -> Plan {
    plan(2, 1, 1, left)
}

fn three_two(left: f64) -> Plan {
    plan(2, 1, 2, left)
}

/// The line of 3/2 for a desk.
fn three_two_for(lines: &mut Lines, name: &str, left: f64, desk: u32, state: &mut State) {
    let _ = lines.spoiled(name, &three_two(left), state, |input| input.desk = desk);
}

/// Desks above 7, by themselves and beside another fault, each on a copy of the state.
fn wrong_desks(lines: &mut Lines, state: &State) {
    for desk in [8, 256, u32::MAX] {
        let name = format!("desk {desk}");
        three_two_for(lines, &name, 0.5, desk, &mut state.clone());
    }
    let mut line = |name: &str, plan: Plan, change: fn(&mut FrameInput)| {
        let _ = lines.spoiled(name, &plan, &mut state.clone(), |input| {
            input.desk = 8;
            change(input);
        });
    };
    line("desk 8, 24,000 Hz", three_two(0.5), |input| {
        input.sample_rate = 24_000
    });
    let name = "desk 8, base value above 4";
    line(name, three_two(2.876953125), |_| ());
    line("desk 8, head of no bits", three_two(0.5), |input| {
        input.head_bits = 0
    });
    line("desk 8, 3/1 after 3/2", three_one(0.5), |_| ());
}

/// Desks in turn on one state, and a tally at its top.
pub fn desks(lines: &mut Lines) {
    let state = &mut State::fresh();
    three_two_for(lines, "3/2, desk 0", 0.125, 0, state);
    three_two_for(lines, "then desk 7", 0.25, 7, state);
    wrong_desks(lines, state);
    state.accepted[3] = u32::MAX - 1;
    three_two_for(lines, "tally one below its top, desk 3", 0.375, 3, state);
    three_two_for(lines, "then desk 3", 0.625, 3, state);
    let name = "then desk 4, reading 2";
    let _ = lines.spoiled(name, &three_two(0.75), state, |input| {
        (input.reading, input.desk) = (2, 4)
    });
    lines.carried("then carrying", state);
}

/// States of before there were desks, with and without a layout.
pub fn conversions(lines: &mut Lines) {
    let mut stored = State::fresh();
    let _ = lines.line("3/1", &three_one(0.125), &mut stored);
    let older = |length: usize, count: u32, layout: u32, tally: u32| Older {
        history: stored.history[..length].to_vec(),
        count,
        layout,
        tally,
    };
    let state = &mut State::fresh();
    let name = "state of 4 channels and 7 frames";
    lines.converted(name, &older(576, 4, 0, 7), state);
    let _ = lines.line("then 3/2", &three_two(0.5), &mut state.clone());
    let name = "state of layout 31 and 4294967295 frames";
    lines.converted(name, &older(576, 4, 31, u32::MAX), state);
    let name = "then 3/1, reading 2, desk 1";
    let _ = lines.spoiled(name, &three_one(0.5), &mut state.clone(), |input| {
        (input.reading, input.desk) = (2, 1)
    });
    for (name, length, count, layout) in [
        ("state of 6 channels", 576, 6, 0),
        ("state of layout 34 of 4 channels", 576, 4, 34),
        ("state of layout 31 of 5 channels", 576, 5, 31),
        ("state with 575 history values", 575, 4, 0),
    ] {
        lines.converted(name, &older(length, count, layout, 7), state);
    }
}
