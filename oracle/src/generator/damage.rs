//! Ways to spoil a frame: cuts, flips, noise, and loans that the scope refuses.

use super::layout::{Layout, STEPS};
use super::plan::{Plan, Source};
use super::random::Random;
use super::writer::{Field, put};
use crate::input::FrameInput;
use crate::scope::State;

/// One of the two strings.
#[derive(Debug, Clone, Copy, PartialEq, Eq, Hash)]
pub enum Part {
    Head,
    Payload,
}

/// A string and its bit count.
pub fn string(input: &mut FrameInput, part: Part) -> (&mut Vec<u8>, &mut u64) {
    match part {
        Part::Head => (&mut input.head, &mut input.head_bits),
        Part::Payload => (&mut input.payload, &mut input.payload_bits),
    }
}

/// Lowers the bit count; with `shorten` the bytes that hold no bit any more go too.
pub fn cut(input: &mut FrameInput, part: Part, bits: u64, shorten: bool) {
    let (bytes, count) = string(input, part);
    *count = bits;
    if shorten {
        bytes.truncate(bits.div_ceil(8) as usize);
    }
}

/// Turns one bit over.
pub fn flip(input: &mut FrameInput, part: Part, at: u64) {
    string(input, part).0[(at / 8) as usize] ^= 0x80 >> (at % 8);
}

/// Writes another number over a field.
pub fn overwrite(input: &mut FrameInput, part: Part, field: Field, value: u32) {
    put(string(input, part).0, field.at, field.width, value);
}

/// Random bits after the used ones, some of them past the new bit count; none of them matters.
pub fn pad(random: &mut Random, input: &mut FrameInput, part: Part) {
    let (bytes, bits) = string(input, part);
    let used = *bits;
    bytes.extend((0..random.below(9)).map(|_| random.below(256) as u8));
    for at in used..8 * bytes.len() as u64 {
        put(bytes, at, 1, random.below(2));
    }
    let spare = 8 * bytes.len() as u64 - used;
    *bits += u64::from(random.below(spare as u32 + 1));
}

/// Random bytes in the place of a string, of the same bit count.
pub fn noise(random: &mut Random, input: &mut FrameInput, part: Part) {
    for byte in string(input, part).0 {
        *byte = random.below(256) as u8;
    }
}

/// Readings of refusal 6, some with 1 or 2 in their lowest byte.
pub const WRONG_READINGS: [u32; 6] = [0, 3, 257, 258, 65_537, u32::MAX];

/// Desks of refusal 14, some with a right one in their lowest byte.
pub const WRONG_DESKS: [u32; 6] = [8, 9, 255, 256, 257, u32::MAX];

/// A loan of refusal 6; its reading and its desk stay.
pub fn wrong_loan(random: &mut Random, input: &mut FrameInput, state: &mut State) {
    let part = random.pick(&[Part::Head, Part::Payload]);
    match random.below(7) {
        0 => input.sample_rate = random.pick(&[0, 22_050, 24_000, 44_101, 96_000]),
        1 => input.lfe_allocation = random.pick(&[16, 17, u32::MAX]),
        2 => wrong_held(random, &mut state.count, &mut state.layout),
        3 => {
            let channel = random.below(input.base_channels as u32) as usize;
            input.base_nb_steps[channel][place(random, 32)] = unknown_steps(random);
        }
        4 => {
            let (bytes, bits) = string(input, part);
            *bits = 8 * bytes.len() as u64 + 1 + u64::from(random.below(9));
        }
        5 => string(input, part).0.resize(8193, 0),
        _ => drop_slot(random, input),
    }
}

/// Another count and layout: that of any header, at times unknown and at times with a wrong count.
pub fn other_layout(random: &mut Random, state: &mut State) {
    let layout = Layout::random(random);
    let (own, any) = (layout.outputs() as u32, random.below(6));
    state.layout = random.pick(&[0, layout.number(), layout.number()]);
    state.count = random.pick(&[own, own, own, any]);
}

/// What a state of refusal 6 holds: a count above 5, a layout that no header gives, or a count that is
/// not its layout's.
pub fn wrong_held(random: &mut Random, count: &mut u32, layout: &mut u32) {
    match random.below(3) {
        0 => *count = random.pick(&[6, 7, 255]),
        1 => *layout = wrong_layout(random),
        _ => {
            let any = Layout::random(random);
            *layout = any.number();
            *count = (any.outputs() as u32 + 1 + random.below(5)) % 6;
        }
    }
}

/// A layout that no header gives: by its front, 0 or above 3, or by its surround code, above 3.
pub fn wrong_layout(random: &mut Random) -> u32 {
    let near = 10 * random.below(4) + 4 + random.below(6);
    let above = 40 + random.below(216);
    random.pick(&[1, 2, 3, near, near, above])
}

/// Any floats in a history, one place in four: each kind of NaN, infinities, zeros and the rest.
pub fn wild_history(random: &mut Random, history: &mut [f64]) {
    for value in history {
        if random.chance(1, 4) {
            *value = any_float(random);
        }
    }
}

/// Any bits; a NaN with any of them or with the lowest alone; an infinity; a zero. Either sign.
fn any_float(random: &mut Random) -> f64 {
    let (bits, infinity) = (random.bits64(), f64::INFINITY.to_bits());
    let sign = bits & 1 << 63;
    let kinds = [
        bits,
        bits | infinity,
        sign | infinity | 1,
        sign | infinity,
        sign,
    ];
    f64::from_bits(random.pick(&kinds))
}

/// One slot fewer in a base channel.
fn drop_slot(random: &mut Random, input: &mut FrameInput) {
    let channel = random.below(input.base_channels as u32) as usize;
    let side = match random.flag() {
        true => &mut input.base_raw,
        false => &mut input.base_scaled,
    };
    side[channel].pop();
}

/// A value of refusal 7 in the base or the history.
pub fn wild_value(random: &mut Random, input: &mut FrameInput, state: &mut State) {
    let above = f64::from_bits(4.0f64.to_bits() + 1);
    let wild = [
        above,
        -above,
        f64::NAN,
        f64::INFINITY,
        -f64::INFINITY,
        1e300,
    ];
    let value = random.pick(&wild);
    let channel = random.below(input.base_channels as u32) as usize;
    let (slot, subband) = (place(random, 36), place(random, 32));
    match random.below(3) {
        0 => input.base_raw[channel][slot][subband] = value,
        1 => input.base_scaled[channel][slot][subband] = value,
        _ => state.history[place(random, 576)] = value,
    }
}

/// A place below `n`; half of the time the first or the last.
fn place(random: &mut Random, n: u32) -> usize {
    let any = random.below(n);
    random.pick(&[0, n - 1, any, any]) as usize
}

/// An allocation of refusal 8, for the frame of a plan under its reading: a step count that no class
/// has, one at a place that is not transmitted, or an LFE allocation without LFE.
pub fn wrong_allocation(random: &mut Random, plan: &Plan, input: &mut FrameInput) {
    if !plan.head.lfe && random.chance(1, 4) {
        input.lfe_allocation = 1 + random.below(15);
        return;
    }
    let (channel, subband) = (random.below(3) as usize, place(random, 32));
    let transmitted = plan.source(channel, subband) == Source::Transmitted;
    input.nb_steps[channel][subband] = match transmitted || random.chance(1, 4) {
        true => unknown_steps(random),
        false => random.pick(&STEPS),
    };
}

/// A step count that no class has.
pub fn unknown_steps(random: &mut Random) -> u32 {
    let near = random.pick(&STEPS) + random.pick(&[1, 0x1_0000, 0x8000_0000]);
    let steps = random.pick(&[1, 2, near, u32::MAX]);
    if STEPS.contains(&steps) { 1 } else { steps }
}
