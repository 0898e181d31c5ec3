//! One frame of the list.

use super::BLOCK;
use super::values::Values;
use crate::generator::layout::STEPS;
use crate::generator::{Plan, Written};
use crate::input::{DESKS, FrameInput, Slots};
use crate::scope::State;

/// The size of a frame's opening.
pub const OPENING: usize = 320;

/// Where the step counts and the head stand in the opening.
const BASE_CLASSES: usize = 96;
const CLASSES: usize = 160;
const HEAD: usize = 256;

/// What a frame is to answer and to leave behind.
#[derive(Debug, Clone, Copy, Default, PartialEq, Eq)]
pub struct Expected {
    pub answer: u64,
    /// Hashes of raw, work, output and lfe.
    pub buffers: [u64; 4],
    pub state: u64,
}

#[derive(Debug, Clone, PartialEq, Eq)]
pub struct Record {
    /// The 64 bytes that are kept; as many as `head_len` are lent.
    pub head: Vec<u8>,
    pub head_len: u16,
    pub head_bits: u32,
    /// The bytes that are kept, whole blocks of 64.
    pub payload: Vec<u8>,
    pub payload_len: u16,
    pub payload_bits: u32,
    pub rate: u32,
    pub base_channels: u8,
    /// Whether the second base channel is lent.
    pub right: bool,
    pub lfe_allocation: u8,
    /// Layout count of a new state, whose layout is not known, and the tally of each of its desks.
    pub start: Option<(u8, u32)>,
    /// The kind, 0 for none, and the place of a wild value.
    pub wild: (u8, u16),
    pub seed: u64,
    pub reading: u32,
    pub desk: u32,
    /// Step counts by class: 0 none, 1 to 17 the classes, 18 a step count of 4.
    pub base_classes: [u8; 64],
    pub classes: [u8; 96],
    pub expected: Expected,
}

/// The step count of a class byte.
fn steps_of(class: u8) -> u32 {
    match class {
        0 => 0,
        1..=17 => STEPS[usize::from(class) - 1],
        _ => 4,
    }
}

fn class_of(steps: u32) -> u8 {
    let known = STEPS.iter().position(|&class| class == steps);
    known.map_or(0, |k| k as u8 + 1)
}

/// A value that no frame may have.
fn wild_value(kind: u8) -> f64 {
    let above = 4_194_305.0 / 1_048_576.0;
    [above, -above, f64::INFINITY, f64::NEG_INFINITY, f64::NAN][usize::from(kind) - 1]
}

impl Record {
    /// An accepted frame that goes on from the state before it, under the plan's reading and for desk 0.
    /// Its base values come from the seed.
    pub fn of(plan: &Plan, head: &Written, payload: &Written, seed: u64) -> Record {
        let classes = |steps: &[u32], k: usize| steps.get(k).map_or(0, |&steps| class_of(steps));
        Record {
            head: padded(&head.bytes),
            head_len: head.bytes.len() as u16,
            head_bits: head.bits as u32,
            payload: padded(&payload.bytes),
            payload_len: payload.bytes.len() as u16,
            payload_bits: payload.bits as u32,
            rate: plan.sample_rate,
            base_channels: plan.base_channels as u8,
            right: plan.base_channels == 2,
            lfe_allocation: plan.payload.lfe_allocation as u8,
            start: None,
            wild: (0, 0),
            seed,
            reading: plan.reading,
            desk: 0,
            base_classes: std::array::from_fn(|k| classes(plan.base.steps.as_flattened(), k)),
            classes: std::array::from_fn(|k| classes(plan.payload.steps.as_flattened(), k)),
            expected: Expected::default(),
        }
    }

    /// The frame as it is lent, and the state where it starts a new one.
    pub fn lent(&self) -> (FrameInput, Option<State>) {
        let right = if self.right { 1152 } else { 0 };
        let history = if self.start.is_some() { 576 } else { 0 };
        let mut values = Values::new(self.seed);
        let mut drawn = [1152, right, 1152, right, history].map(|count| values.many(count));
        if self.wild.0 != 0 {
            let place = usize::from(self.wild.1);
            drawn[place / 1152][place % 1152] = wild_value(self.wild.0);
        }
        let [raw_left, raw_right, scaled_left, scaled_right, history] = drawn;
        let steps = |classes: &[u8], row: usize| {
            std::array::from_fn(|subband| steps_of(classes[32 * row + subband]))
        };
        let input = FrameInput {
            head: resized(&self.head, self.head_len),
            head_bits: self.head_bits.into(),
            payload: resized(&self.payload, self.payload_len),
            payload_bits: self.payload_bits.into(),
            reading: self.reading,
            desk: self.desk,
            sample_rate: self.rate,
            base_channels: self.base_channels.into(),
            base_raw: channels([raw_left, raw_right]),
            base_scaled: channels([scaled_left, scaled_right]),
            base_nb_steps: std::array::from_fn(|row| steps(&self.base_classes, row)),
            lfe_allocation: self.lfe_allocation.into(),
            nb_steps: std::array::from_fn(|row| steps(&self.classes, row)),
        };
        let state = self.start.map(|(count, tally)| State {
            history,
            count: count.into(),
            layout: 0,
            accepted: [tally; DESKS],
        });
        (input, state)
    }

    pub fn write(&self, bytes: &mut Vec<u8>) {
        let blocks = self.payload.len() / BLOCK;
        let (count, tally) = self.start.unwrap_or_default();
        bytes.extend(self.head_len.to_le_bytes());
        bytes.extend(self.payload_len.to_le_bytes());
        bytes.extend(self.head_bits.to_le_bytes());
        bytes.extend(self.payload_bits.to_le_bytes());
        bytes.extend(self.rate.to_le_bytes());
        bytes.extend([self.base_channels, self.right.into(), self.lfe_allocation]);
        bytes.extend([self.start.is_some().into(), count, self.wild.0]);
        bytes.extend(self.wild.1.to_le_bytes());
        bytes.extend(tally.to_le_bytes());
        bytes.extend((blocks as u32).to_le_bytes());
        bytes.extend(self.seed.to_le_bytes());
        bytes.extend(self.expected.answer.to_le_bytes());
        bytes.extend(
            self.expected
                .buffers
                .iter()
                .flat_map(|hash| hash.to_le_bytes()),
        );
        bytes.extend(self.expected.state.to_le_bytes());
        bytes.extend(self.reading.to_le_bytes());
        bytes.extend(self.desk.to_le_bytes());
        bytes.extend(self.base_classes);
        bytes.extend(self.classes);
        bytes.extend(&self.head);
        bytes.extend(&self.payload);
    }

    /// Takes a frame off the list.
    pub fn read(bytes: &mut &[u8]) -> Option<Record> {
        let opening = bytes.split_off(..OPENING)?;
        let number = |at: usize, size: usize| {
            let bytes = opening[at..at + size].iter().rev();
            bytes.fold(0u64, |number, byte| number << 8 | u64::from(*byte))
        };
        let payload = bytes.split_off(..BLOCK * number(28, 4) as usize)?;
        Some(Record {
            head: opening[HEAD..].to_vec(),
            head_len: number(0, 2) as u16,
            head_bits: number(4, 4) as u32,
            payload: payload.to_vec(),
            payload_len: number(2, 2) as u16,
            payload_bits: number(8, 4) as u32,
            rate: number(12, 4) as u32,
            base_channels: opening[16],
            right: opening[17] == 1,
            lfe_allocation: opening[18],
            start: (opening[19] == 1).then_some((opening[20], number(24, 4) as u32)),
            wild: (opening[21], number(22, 2) as u16),
            seed: number(32, 8),
            reading: number(88, 4) as u32,
            desk: number(92, 4) as u32,
            base_classes: opening[BASE_CLASSES..CLASSES].try_into().ok()?,
            classes: opening[CLASSES..HEAD].try_into().ok()?,
            expected: Expected {
                answer: number(40, 8),
                buffers: [48, 56, 64, 72].map(|at| number(at, 8)),
                state: number(80, 8),
            },
        })
    }
}

/// Whole blocks, with zeros at the end.
fn padded(bytes: &[u8]) -> Vec<u8> {
    let mut bytes = bytes.to_vec();
    bytes.resize(bytes.len().next_multiple_of(BLOCK), 0);
    bytes
}

/// As many bytes as are lent; those that are not kept are 0, and no answer depends on them.
fn resized(kept: &[u8], length: u16) -> Vec<u8> {
    let mut bytes = kept.to_vec();
    bytes.resize(length.into(), 0);
    bytes
}

/// One or two channels of 36 slots.
fn channels(sides: [Vec<f64>; 2]) -> Vec<Slots> {
    let lent = sides.iter().filter(|values| !values.is_empty());
    lent.map(|values| {
        let slots = values.chunks_exact(32);
        slots
            .map(|slot| slot.try_into().expect("32 values"))
            .collect()
    })
    .collect()
}
