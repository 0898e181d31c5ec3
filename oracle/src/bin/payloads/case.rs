//! A payload with its head as it is lent, and ways to spoil it.

use crate::call::{BUFFERS, MARGIN};
use oracle::FrameInput;
use oracle::excess::Excesses;
use oracle::flat::Flat;
use oracle::generator::damage::{WRONG_READINGS, unknown_steps};
use oracle::generator::spoil::{self, Way, all, bits_past, either};
use oracle::generator::{Made, Random};

/// What is lent to one call.
#[derive(Clone)]
pub struct Case {
    pub input: FrameInput,
    /// A slice by its number in [`slice_name`], and the wrong length that it has.
    pub wrong_length: Option<(usize, usize)>,
    /// The excesses that the plan wrote, where its strings are lent as it wrote them.
    pub written: Option<Excesses>,
    /// What was done to the payload.
    pub done: Vec<&'static str>,
}

/// The slices of fixed length: the buffers, then the two lists of step counts.
pub const SLICES: usize = BUFFERS.len() + 2;

pub fn slice_name(slice: usize) -> &'static str {
    match slice.checked_sub(BUFFERS.len()) {
        None => BUFFERS[slice].0,
        Some(0) => "nb_steps",
        Some(_) => "base_nb_steps",
    }
}

impl Case {
    pub fn of(made: &Made, reading: u32) -> Case {
        let mut case = Case {
            input: FrameInput {
                reading,
                ..made.input()
            },
            wrong_length: None,
            written: Some(made.plan.excesses()),
            done: vec![],
        };
        case.silence();
        case
    }

    /// A silent base of as many channels as are said to be lent.
    fn silence(&mut self) {
        let channels = self.input.base_channels.min(3);
        self.input.base_raw = vec![vec![[0.0; 32]; 36]; channels];
        self.input.base_scaled = self.input.base_raw.clone();
    }

    /// The lists of step counts to be lent, and the lengths of the buffers.
    pub fn flat(&self) -> (Flat, [usize; 7]) {
        let mut flat = Flat::of(&self.input);
        let mut lengths = BUFFERS.map(|(_, length)| length);
        match self.wrong_length {
            Some((7, length)) => flat.nb_steps.resize(length, 0),
            Some((8, length)) => flat.base_nb_steps.resize(length, 0),
            Some((buffer, length)) => lengths[buffer] = length,
            None => {}
        }
        (flat, lengths)
    }

    /// A wrong length for one slice.
    fn wrong_length(&mut self, random: &mut Random) {
        let slice = random.below(SLICES as u32) as usize;
        let right = match slice {
            7 => 96,
            8 => Flat::of(&self.input).base_nb_steps.len(),
            _ => BUFFERS[slice].1,
        };
        self.wrong_length = Some((slice, spoil::wrong_length(random, right, MARGIN)));
    }
}

/// The ways in the order in which they are combined: bits first, then counts, then the rest.
const SPOILS: [Way<Case>; 18] = [
    Way::Input(spoil::HEAD_BIT),
    Way::Input(spoil::PAYLOAD_BIT),
    Way::Input(spoil::PAYLOAD_FIELD),
    Way::Input(spoil::CROSSTALK_CODE),
    Way::Input(spoil::LAYER_THREE),
    Way::Input(spoil::CENTRE_CODE_2),
    Way::Input(spoil::SCALEFACTOR_63),
    Way::Input(spoil::PAYLOAD_NOISE),
    Way::Input(spoil::HEAD_PADDED),
    Way::Input(spoil::PAYLOAD_PADDED),
    Way::Input(spoil::HEAD_CUT),
    Way::Input(spoil::PAYLOAD_CUT),
    Way::Input(spoil::SCFSI_CUT),
    Way::Input(spoil::ALLOCATION),
    Way::Input(("wrong string", |random, _, input| {
        all(|| wrong_string(random, input))
    })),
    Way::Input(("wrong rate or number", |random, _, input| {
        all(|| wrong_number(random, input))
    })),
    Way::Case(("wrong base count", |random, _, case| {
        let other = 3 - case.input.base_channels;
        case.input.base_channels = random.pick(&[0, 3, 255, other, other]);
        all(|| case.silence())
    })),
    Way::Case(("wrong length", |random, _, case| {
        all(|| case.wrong_length(random))
    })),
];

/// Spoils a case in one to three ways.
pub fn spoil(random: &mut Random, made: &Made, case: &mut Case) {
    case.done = spoil::spoil(random, made, case, |case| &mut case.input, &SPOILS);
    case.written = None;
}

/// A string that is too long, one of the most bytes, or a bit count past its bytes.
fn wrong_string(random: &mut Random, input: &mut FrameInput) {
    let (bytes, bits) = either(random, input);
    match random.below(4) {
        0 => bytes.resize(8193, 0xFF),
        1 => {
            bytes.resize(8192, 0xFF);
            *bits = random.pick(&[*bits, 65_536]);
        }
        _ => *bits = bits_past(random, bytes),
    }
}

/// A rate, an LFE allocation, a reading or a base step count that there is not.
fn wrong_number(random: &mut Random, input: &mut FrameInput) {
    match random.below(4) {
        0 => input.sample_rate = random.pick(&[0, 22_050, 24_000, 44_101, 96_000, u32::MAX]),
        1 => input.lfe_allocation = random.pick(&[16, 17, 255]),
        2 => input.reading = random.pick(&WRONG_READINGS),
        _ => {
            let row = random.below(input.base_channels as u32) as usize;
            let subband = random.below(32) as usize;
            input.base_nb_steps[row][subband] = unknown_steps(random);
        }
    }
}
