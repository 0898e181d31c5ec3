//! The scope's side of a frame, with readings and desks: flat buffers, the state with
//! its layout and its tallies, carrying, conversion, and the five refusals that the published code does
//! not have. Those (6, 7, 8, 13 and 14), and refusal 5 of a layout that changes without its number of
//! channels, are written here by hand; every other refusal and every value is the reference's, under
//! either reading and for every desk. Where reading 2 lifts the phantom limit, the reference is asked
//! about the frame with another centre code, and refusal 8 goes by the places of that frame.

use crate::bitalloc::class_of_quantization;
use crate::generator::writer::put;
use crate::input::{DESKS, FrameInput, READINGS, Slots};
use crate::mc::{McChannel, McDecodeState, McError};
use crate::output::{CentreField, FrameOutput, HeadOutput};
use crate::{layouts, reference_centre, reference_frame, reference_head, reference_places};
use std::borrow::Cow;

/// A refusal by its number; group and code are 0 except under 2.
#[derive(Debug, Clone, Copy, PartialEq, Eq, Hash)]
pub struct Refusal {
    pub number: u32,
    pub group: u32,
    pub code: u32,
}

impl Refusal {
    pub const fn plain(number: u32) -> Refusal {
        Refusal {
            number,
            group: 0,
            code: 0,
        }
    }
}

impl From<McError> for Refusal {
    fn from(error: McError) -> Refusal {
        match error {
            McError::UnexpectedEnd => Refusal::plain(1),
            McError::ForbiddenDynCrossMode { sbgr, mode } => Refusal {
                number: 2,
                group: sbgr as u32,
                code: u32::from(mode),
            },
            McError::MlLayer3Unsupported => Refusal::plain(3),
            McError::ReservedScalefactor => Refusal::plain(4),
            McError::ConfigChanged => Refusal::plain(5),
            other => unreachable!("the span does not say: {other}"),
        }
    }
}

/// The decoder's state.
#[derive(Debug, Clone, PartialEq)]
pub struct State {
    /// 576 values, at `(base * 32 + subband) * 9 + k`.
    pub history: Vec<f64>,
    /// Channels of the layout, 0 for none yet.
    pub count: u32,
    /// The layout itself by its number in [`layouts`], 0 where it is not known.
    pub layout: u32,
    /// Accepted frames of each desk.
    pub accepted: [u32; DESKS],
}

impl State {
    pub fn fresh() -> State {
        State {
            history: vec![0.0; 576],
            count: 0,
            layout: 0,
            accepted: [0; DESKS],
        }
    }

    /// Conversion of a state of before there were desks: desk 0 has its tally and the others none, and
    /// all else is kept. A history of another length than 576 is refusal 6, and so is a wrong count or
    /// layout, as in carrying.
    pub fn convert(history: &[f64], count: u32, layout: u32, tally: u32) -> Result<State, Refusal> {
        let mut accepted = [0; DESKS];
        accepted[0] = tally;
        let state = State {
            history: history.to_vec(),
            count,
            layout,
            accepted,
        };
        let fits = history.len() == 576 && state.rightly_held();
        fits.then_some(state).ok_or(Refusal::plain(6))
    }

    /// Carrying: of a layout the count alone stays, and all else as it was. A wrong count or layout is
    /// refusal 6, and leaves the state.
    pub fn carry(&mut self) -> Result<(), Refusal> {
        if !self.rightly_held() {
            return Err(Refusal::plain(6));
        }
        self.layout = 0;
        Ok(())
    }

    /// No reason for refusal 6 in count and layout: at most five channels, and those of the layout where
    /// it is known.
    fn rightly_held(&self) -> bool {
        match self.layout {
            0 => self.count <= 5,
            layout => layouts::channels(layout)
                .is_some_and(|channels| channels.len() == self.count as usize),
        }
    }

    /// No reason for refusal 7 in the history.
    pub fn history_in_range(&self) -> bool {
        self.history.iter().all(in_range)
    }

    /// Follows a frame of these channels that the reference accepts after the state's count. Under
    /// reading 2 a known layout has to be the frame's, which is refusal 5 otherwise, and the frame's is
    /// stored. It counts for its desk alone, whose tally stays at its top.
    fn follow(&mut self, input: &FrameInput, channels: &[McChannel]) -> Result<(), Refusal> {
        if input.reading == 2 {
            if layouts::channels(self.layout).is_some_and(|held| held != channels) {
                return Err(Refusal::plain(5));
            }
            self.layout = layouts::number(channels);
        }
        self.count = channels.len() as u32;
        let tally = &mut self.accepted[input.desk as usize];
        *tally = tally.saturating_add(1);
        Ok(())
    }
}

/// What an accepted frame writes. A refused frame writes none of it.
#[derive(Debug, Clone, PartialEq)]
pub struct Buffers {
    /// 3,456 values, at `(channel * 36 + slot) * 32 + subband`.
    pub raw: Vec<f64>,
    /// The same number.
    pub work: Vec<f64>,
    /// 5,760 values.
    pub output: Vec<f64>,
    /// 12 values.
    pub lfe: Vec<f64>,
}

impl Buffers {
    pub fn of(frame: &FrameOutput) -> Buffers {
        Buffers {
            raw: flat(&frame.payload.raw_mc, 3),
            work: flat(&frame.span.scaled_mc, 3),
            output: flat(&frame.span.out_sub, 5),
            lfe: frame.span.lfe_samples.clone(),
        }
    }
}

/// Channels one after another, +0 in those that are not there.
fn flat(channels: &[Slots], count: usize) -> Vec<f64> {
    let slots = channels.iter().flatten();
    let mut values: Vec<f64> = slots.flatten().copied().collect();
    values.resize(count * 36 * 32, 0.0);
    values
}

/// A frame by the scope: its refusal or its values, and the state afterwards. The head is
/// that of the string as lent.
pub fn judge(input: &FrameInput, state: &mut State) -> Result<FrameOutput, Refusal> {
    if !rightly_lent(input, state) {
        return Err(Refusal::plain(6));
    }
    if !is_desk(input.desk) {
        return Err(Refusal::plain(14));
    }
    if !values_in_range(input, state) {
        return Err(Refusal::plain(7));
    }
    if undefined_centre(input.reading, &input.head, input.head_bits) {
        return Err(Refusal::plain(13));
    }
    let head = reference_head(&input.head, input.head_bits, input.base_channels)?;
    let asked = asked(input);
    if !rightly_allocated(&asked, &head)? {
        return Err(Refusal::plain(8));
    }
    let held = (state.count != 0).then_some(state.count as usize);
    let mut decoder = McDecodeState::with(&state.history, held);
    let answer = reference_frame(&asked, &mut decoder);
    state.history = decoder.history();
    let frame = FrameOutput { head, ..answer? };
    state.follow(input, &frame.span.layout)?;
    Ok(frame)
}

/// No reason for refusal 6.
fn rightly_lent(input: &FrameInput, state: &State) -> bool {
    let string = |bytes: &[u8], bits| bytes.len() <= 8192 && bits <= 8 * bytes.len() as u64;
    let shaped = |channels: &[Slots]| {
        channels.len() == input.base_channels && channels.iter().all(|slots| slots.len() == 36)
    };
    string(&input.head, input.head_bits)
        && string(&input.payload, input.payload_bits)
        && READINGS.contains(&input.reading)
        && matches!(input.sample_rate, 32_000 | 44_100 | 48_000)
        && matches!(input.base_channels, 1 | 2)
        && shaped(&input.base_raw)
        && shaped(&input.base_scaled)
        && input.lfe_allocation <= 15
        && input.base_nb_steps[..input.base_channels]
            .iter()
            .flatten()
            .all(|&steps| known(steps))
        && state.history.len() == 576
        && state.rightly_held()
}

/// No reason for refusal 14.
pub fn is_desk(desk: u32) -> bool {
    (desk as usize) < DESKS
}

/// 0 or one of the 17 step counts.
fn known(steps: u32) -> bool {
    steps == 0 || class_of_quantization(steps).is_some()
}

/// No reason for refusal 7.
fn values_in_range(input: &FrameInput, state: &State) -> bool {
    let base = input.base_raw.iter().chain(&input.base_scaled);
    base.flatten().flatten().all(in_range) && state.history_in_range()
}

/// A value that refusal 7 lets pass.
pub fn in_range(value: &f64) -> bool {
    (-4.0..=4.0).contains(value)
}

/// The reason for refusal 13: under reading 2 a whole header with centre code 2, whatever follows it.
pub fn undefined_centre(reading: u32, head: &[u8], head_bits: u64) -> bool {
    reading == 2 && reference_centre(head, head_bits).is_ok_and(|centre| centre.code == 2)
}

/// Whether the reference is asked about another head than the one that is lent, of a frame that is not
/// refused with 6, 14 or 7.
pub fn amended(input: &FrameInput) -> bool {
    unlimited_centre(input).is_some()
}

/// The centre field of a phantom centre that bars nothing: under reading 2 one bars for a front of
/// three only, which one base channel does not have.
fn unlimited_centre(input: &FrameInput) -> Option<CentreField> {
    if input.reading != 2 || input.base_channels != 1 {
        return None;
    }
    let centre = reference_centre(&input.head, input.head_bits).ok()?;
    (centre.code == 3).then_some(centre)
}

/// The frame as the reference, which knows reading 1 alone, is asked about it: a phantom centre that
/// bars nothing has code 1, which over one base channel differs from 3 in the limit alone.
fn asked(input: &FrameInput) -> Cow<'_, FrameInput> {
    let Some(centre) = unlimited_centre(input) else {
        return Cow::Borrowed(input);
    };
    let mut amended = input.clone();
    put(&mut amended.head, centre.at, 2, 1);
    Cow::Owned(amended)
}

/// No reason for refusal 8, of a frame as the reference is asked about it, whose head was read.
fn rightly_allocated(asked: &FrameInput, head: &HeadOutput) -> Result<bool, McError> {
    let places = reference_places(asked)?;
    let lfe = head.mc_header.lfe || asked.lfe_allocation == 0;
    let step_counts = (0..96).all(|k| {
        let steps = asked.nb_steps[k / 32][k % 32];
        known(steps) && (steps == 0 || places.transmitted(k / 32, k % 32))
    });
    Ok(lfe && step_counts)
}
