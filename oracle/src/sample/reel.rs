//! The sample: a reel of five channels, cut out of a stream, on which the reading changes.

use super::{File, FileFrame, Version};
use crate::generator::damage::{Part, overwrite};
use crate::generator::{Kind, Plan, Random, base};
use crate::input::FrameInput;
use crate::scope::State;

/// Reading and desk of each frame.
const LENT: [(u32, u32); 6] = [(1, 0), (1, 3), (1, 3), (2, 6), (2, 0), (2, 3)];

/// The first frame under reading 2, before which the state is carried.
const CHANGE: usize = 3;

/// 3/2 at 48,000 Hz. Four frames are accepted, with prediction, crosstalk and LFE in each; the second
/// has a reserved scalefactor and the fifth a crosstalk code that is not listed. The state holds 3/0 with
/// a second programme, which has as many channels, so that it has to be carried before a frame under
/// reading 2. Desk 6 has its tally at its top.
pub fn reel() -> File {
    let state = State {
        history: base::history(&mut Random::new(1)),
        count: 5,
        layout: 33,
        accepted: [100, 0, 0, 41, 0, 7, u32::MAX, 0],
    };
    let frames = LENT.iter().enumerate().map(|(k, &(reading, desk))| {
        let input = match k {
            1 => spoiled(1, Part::Payload, Kind::Scalefactor, 63),
            4 => spoiled(4, Part::Head, Kind::Crosstalk, 15),
            _ => plan(k as u64).input(),
        };
        FileFrame {
            carried: k == CHANGE,
            input: FrameInput {
                reading,
                desk,
                ..input
            },
        }
    });
    File {
        version: Version::Second,
        state,
        frames: frames.collect(),
    }
}

/// The first plan from this number on, by steps of 1000, that has all that the reel is to show.
fn plan(number: u64) -> Plan {
    let shape = 2 + 8 * 2 + 32 * (number % 4) + 128;
    let mut plans = (0..).map(|k| Plan::of_shape(shape, number + 1000 * k));
    plans.find(full).unwrap()
}

fn full(plan: &Plan) -> bool {
    let (head, payload) = (&plan.head, plan.payload_written());
    let has = |kind| payload.all(kind).next().is_some();
    let crossed = head.crosstalk_on && head.codes.iter().any(|code| *code != 0);
    crossed && has(Kind::Coefficient) && has(Kind::LfeSample) && payload.bytes.len() > 2000
}

/// The frame of a plan with another number in a field of this kind.
fn spoiled(number: u64, part: Part, kind: Kind, value: u32) -> FrameInput {
    let plan = plan(number);
    let written = match part {
        Part::Head => plan.head_written(),
        Part::Payload => plan.payload_written(),
    };
    let field = written.all(kind).nth(5).unwrap();
    let mut input = plan.input();
    overwrite(&mut input, part, field, value);
    input
}
