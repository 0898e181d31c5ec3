//! Files of random frames of either version, whole and spoiled, most of them of one layout.

use super::bad::bad;
use super::{File, FileFrame, Version};
use crate::generator::damage::{
    self, Part, WRONG_DESKS, WRONG_READINGS, cut, noise, overwrite, unknown_steps, wild_value,
    wrong_allocation,
};
use crate::generator::layout::Layout;
use crate::generator::state::{desk, tallies};
use crate::generator::{Kind, Plan, Random, base};
use crate::input::{FrameInput, READINGS};
use crate::scope::State;

/// Frames of a file.
const FRAMES: u32 = 12;

/// The bytes of the file of this seed, of the first version where it is odd, else of the second. One in
/// three is no frame file.
pub fn mixed(seed: u64) -> Vec<u8> {
    let random = &mut Random::new(seed);
    let version = match seed % 2 {
        1 => Version::First,
        _ => Version::Second,
    };
    let stream = Layout::random(random);
    let file = File {
        version,
        state: state(random, version, &stream),
        frames: (0..FRAMES)
            .map(|_| frame(random, version, &stream))
            .collect(),
    };
    match random.chance(1, 3) {
        true => bad(random, &file),
        false => file.write(),
    }
}

/// A fresh state or one within the stream. In a second version some hold a wrong count or layout, or any
/// floats.
fn state(random: &mut Random, version: Version, stream: &Layout) -> State {
    if random.chance(1, 3) {
        return State::fresh();
    }
    let (count, layout) = (stream.outputs() as u32, stream.number());
    let (history, accepted) = (base::history(random), tallies(random));
    if version == Version::First {
        let count = random.pick(&[0, count]);
        let state = State::convert(&history, count, 0, accepted[0]);
        return state.expect("such a count is converted");
    }
    let (count, layout) = random.pick(&[(0, 0), (count, 0), (count, layout)]);
    let mut state = State {
        history,
        count,
        layout,
        accepted,
    };
    match random.below(16) {
        0..2 => damage::wrong_held(random, &mut state.count, &mut state.layout),
        2 => damage::wild_history(random, &mut state.history),
        _ => {}
    }
    state
}

/// A plan of this layout, one time in eight of another with as many channels, and as often of any.
fn plan(random: &mut Random, reading: u32, stream: &Layout) -> Plan {
    let kind = random.below(8);
    loop {
        let shape = u64::from(random.below(Plan::SHAPES as u32));
        let layout = Plan::plain_of_shape(shape).layout();
        let fits = match kind {
            0 => true,
            1 => layout.outputs() == stream.outputs(),
            _ => layout.number() == stream.number(),
        };
        if fits {
            return Plan::of_shape_under(reading, shape, random.bits64());
        }
    }
}

fn frame(random: &mut Random, version: Version, stream: &Layout) -> FileFrame {
    let second = version == Version::Second;
    let reading = if second { random.pick(&READINGS) } else { 1 };
    let plan = plan(random, reading, stream);
    let mut input = plan.input();
    if random.flag() {
        spoil(random, &plan, &mut input);
    }
    if second {
        name(random, &mut input);
    }
    FileFrame {
        carried: second && random.chance(1, 4),
        input,
    }
}

/// Names a reading and a desk; one reading in 16 is wrong, and one desk in eight.
fn name(random: &mut Random, input: &mut FrameInput) {
    input.reading = random.pick(&READINGS);
    input.desk = desk(random);
    match random.below(16) {
        0 => input.reading = random.pick(&WRONG_READINGS),
        1..3 => input.desk = random.pick(&WRONG_DESKS),
        _ => {}
    }
}

/// One of the ways of spoiling a frame that a file of either version can carry.
fn spoil(random: &mut Random, plan: &Plan, input: &mut FrameInput) {
    match random.below(10) {
        0 => cut(input, Part::Head, u64::from(random.below(60)), false),
        1 => {
            let bits = random.below(input.payload_bits as u32 + 1);
            cut(input, Part::Payload, bits.into(), random.flag());
        }
        2 => noise(random, input, Part::Head),
        3 => noise(random, input, Part::Payload),
        4 => input.sample_rate = random.pick(&[0, 24_000, 44_101]),
        5 => input.lfe_allocation = random.pick(&[16, 255]),
        6 => input.base_nb_steps[0][random.below(32) as usize] = unknown_steps(random),
        7 => wild_value(random, input, &mut State::fresh()),
        8 => wrong_allocation(random, plan, input),
        _ => {
            let flag = plan.head_written().all(Kind::LayerThree).next();
            overwrite(input, Part::Head, flag.unwrap(), 1);
        }
    }
}
