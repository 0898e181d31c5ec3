//! A frame as it is lent, and ways to spoil it.

use crate::lent::{LENGTHS, MARGIN};
use oracle::excess::Excesses;
use oracle::flat::Flat;
use oracle::generator::damage;
use oracle::generator::spoil::{self, Way, all, bits_past, either};
use oracle::generator::state::tallies;
use oracle::generator::{Made, Random};
use oracle::scope::{Refusal, State, judge};
use oracle::{FrameInput, FrameOutput};

/// What is lent to one call.
#[derive(Clone)]
pub struct Case {
    pub input: FrameInput,
    pub state: State,
    /// A slice by its number in [`SLICES`], and the wrong length that it has.
    pub wrong_length: Option<(usize, usize)>,
    /// The excesses that the plan wrote, where its strings are lent as it wrote them.
    pub written: Option<Excesses>,
    /// What was done to the frame.
    pub done: Vec<&'static str>,
}

/// The slices of fixed length.
pub const SLICES: [&str; 10] = [
    "raw_left",
    "raw_right",
    "scaled_left",
    "scaled_right",
    "base_nb_steps",
    "nb_steps",
    "raw",
    "work",
    "output",
    "lfe",
];

impl Case {
    pub fn of(made: &Made, state: &State, reading: u32, desk: u32) -> Case {
        Case {
            input: FrameInput {
                reading,
                desk,
                ..made.input()
            },
            state: state.clone(),
            wrong_length: None,
            written: Some(made.plan.excesses()),
            done: vec![],
        }
    }

    /// What the scope and the Rust say, and the state afterwards.
    pub fn judged(&self) -> (Result<FrameOutput, Refusal>, State) {
        let mut state = self.state.clone();
        let answer = match self.wrong_length {
            Some(_) => Err(Refusal::plain(6)),
            None => judge(&self.input, &mut state),
        };
        (answer, state)
    }

    /// The slices to be lent, and the lengths of those to be written.
    pub fn flat(&self) -> (Flat, [usize; 4]) {
        let (mut flat, mut lengths) = (Flat::of(&self.input), LENGTHS);
        if let Some((slice, length)) = self.wrong_length {
            match slice {
                0..4 => flat.base[slice].resize(length, 0.0),
                4 => flat.base_nb_steps.resize(length, 0),
                5 => flat.nb_steps.resize(length, 0),
                _ => lengths[slice - 6] = length,
            }
        }
        (flat, lengths)
    }
}

/// The ways in the order in which they are combined: bits first, then counts, then the rest.
const SPOILS: [Way<Case>; 29] = [
    Way::Input(spoil::HEAD_BIT),
    Way::Input(spoil::PAYLOAD_BIT),
    Way::Input(spoil::HEAD_FIELD),
    Way::Input(spoil::PAYLOAD_FIELD),
    Way::Input(spoil::CROSSTALK_CODE),
    Way::Input(spoil::LAYER_THREE),
    Way::Input(spoil::CENTRE_CODE_2),
    Way::Input(spoil::SCALEFACTOR_63),
    Way::Input(spoil::HEAD_NOISE),
    Way::Input(spoil::PAYLOAD_NOISE),
    Way::Input(spoil::HEAD_PADDED),
    Way::Input(spoil::PAYLOAD_PADDED),
    Way::Input(("strings of 8,192 bytes", |_, _, input| {
        all(|| longest_strings(input))
    })),
    Way::Input(spoil::HEAD_CUT),
    Way::Input(spoil::PAYLOAD_CUT),
    Way::Input(spoil::SCFSI_CUT),
    Way::Input(("wrong bit count", |random, _, input| {
        let (bytes, bits) = either(random, input);
        all(|| *bits = bits_past(random, bytes))
    })),
    Way::Case(("wild value", |random, _, case| {
        all(|| damage::wild_value(random, &mut case.input, &mut case.state))
    })),
    Way::Input(spoil::ALLOCATION),
    Way::Case(("other layout count", |random, _, case| {
        all(|| (case.state.count, case.state.layout) = (random.below(6), 0))
    })),
    Way::Case(("other layout", |random, _, case| {
        all(|| damage::other_layout(random, &mut case.state))
    })),
    Way::Case(("wrong layout", |random, _, case| {
        all(|| case.state.layout = damage::wrong_layout(random))
    })),
    Way::Case(("other tallies", |random, _, case| {
        all(|| case.state.accepted = tallies(random))
    })),
    Way::Case(("wrong loan", |random, _, case| {
        all(|| damage::wrong_loan(random, &mut case.input, &mut case.state))
    })),
    Way::Input(spoil::WRONG_READING),
    Way::Input(spoil::OTHER_DESK),
    Way::Input(spoil::WRONG_DESK),
    Way::Input(("wrong base count", |random, _, input| {
        let other = 3 - input.base_channels;
        all(|| input.base_channels = random.pick(&[0, 3, 4, 255, other]))
    })),
    Way::Case(("wrong length", |random, _, case| {
        all(|| wrong_length(random, case))
    })),
];

/// Spoils a case in one to three ways.
pub fn spoil(random: &mut Random, made: &Made, case: &mut Case) {
    case.done = spoil::spoil(random, made, case, |case| &mut case.input, &SPOILS);
    case.written = None;
    case.input.lfe_allocation = case.input.lfe_allocation.min(255);
}

fn longest_strings(input: &mut FrameInput) {
    for (bytes, bits) in [
        (&mut input.head, &mut input.head_bits),
        (&mut input.payload, &mut input.payload_bits),
    ] {
        bytes.resize(8192, 0xFF);
        *bits = 65_536;
    }
}

/// A wrong length for one slice.
fn wrong_length(random: &mut Random, case: &mut Case) {
    let slice = random.below(10) as usize;
    let flat = Flat::of(&case.input);
    let right = match slice {
        0..4 => flat.base[slice].len(),
        4 => flat.base_nb_steps.len(),
        5 => 96,
        _ => LENGTHS[slice - 6],
    };
    case.wrong_length = Some((slice, spoil::wrong_length(random, right, MARGIN)));
}
