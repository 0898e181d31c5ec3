//! Heads of every shape, whole and cut at every bit, in frames without anything to transmit. Each is
//! lent under a reading and for a desk drawn at random.

use crate::case::Case;
use crate::run::Run;
use crate::sequence::{Stopped, compare};
use oracle::FrameInput;
use oracle::generator::damage::{Part, cut, pad};
use oracle::generator::state::desk;
use oracle::generator::{HeadShape, Plan, Random};
use oracle::input::READINGS;
use oracle::scope::State;
use std::sync::LazyLock;

static SHAPES: LazyLock<Vec<HeadShape>> = LazyLock::new(HeadShape::all);

/// The number of shapes.
pub fn shapes() -> u64 {
    SHAPES.len() as u64
}

/// The head of this number: shapes in turn, with random fields that differ from one round to the next.
pub fn head(run: &mut Run, seed: u64, number: u64) -> Result<(), Stopped> {
    let shape = &SHAPES[(number % shapes()) as usize];
    let mut random = Random::new(Random::new(seed ^ number.rotate_left(32)).bits64());
    let mut plan = Plan::plain(shape.base_channels, shape.centre, shape.surround);
    plan.head = shape.head(&mut random);
    let whole = plan.input();
    for bits in 0..=whole.head_bits {
        let mut input = whole.clone();
        input.reading = random.pick(&READINGS);
        input.desk = desk(&mut random);
        match bits == whole.head_bits {
            true => pad(&mut random, &mut input, Part::Head),
            false => cut(&mut input, Part::Head, bits, random.flag()),
        }
        run.start_fresh()
            .map_err(|difference| (difference, "fresh state".to_string()))?;
        compare(run, &case(input), || format!("{shape:?}"))?;
    }
    Ok(())
}

fn case(input: FrameInput) -> Case {
    Case {
        input,
        state: State::fresh(),
        wrong_length: None,
        written: None,
        done: vec!["head"],
    }
}
