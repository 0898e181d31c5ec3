//! Ways to spoil what is lent for a frame, each with its name, and the choice of some of them.

use super::damage::{self, Part};
use super::plan::Made;
use super::random::Random;
use super::state;
use super::writer::{Field, Kind};
use crate::input::FrameInput;

/// A name and a way to spoil `T`, which answers false where the frame gives no hold for it.
pub type Named<T> = (&'static str, fn(&mut Random, &Made, &mut T) -> bool);

/// A way to spoil a case: its input alone, or any of it.
pub enum Way<Case> {
    Input(Named<FrameInput>),
    Case(Named<Case>),
}

/// Spoils a case in one to three of these ways, in their order; the names of those that had a hold.
pub fn spoil<Case>(
    random: &mut Random,
    made: &Made,
    case: &mut Case,
    input: fn(&mut Case) -> &mut FrameInput,
    ways: &[Way<Case>],
) -> Vec<&'static str> {
    let number = random.pick(&[1, 1, 1, 2, 2, 3]);
    let mut way = || random.below(ways.len() as u32) as usize;
    let mut chosen: Vec<usize> = (0..number).map(|_| way()).collect();
    chosen.sort_unstable();
    chosen.dedup();
    let mut done = vec![];
    for way in chosen {
        let (name, held) = match ways[way] {
            Way::Input((name, spoil)) => (name, spoil(random, made, input(case))),
            Way::Case((name, spoil)) => (name, spoil(random, made, case)),
        };
        if held {
            done.push(name);
        }
    }
    done
}

pub const HEAD_BIT: Named<FrameInput> = ("head bit flipped", |random, made, input| {
    flip(random, made, input, Part::Head)
});

pub const PAYLOAD_BIT: Named<FrameInput> = ("payload bit flipped", |random, made, input| {
    flip(random, made, input, Part::Payload)
});

pub const HEAD_FIELD: Named<FrameInput> = ("head field changed", |random, made, input| {
    let fields = &made.head.fields;
    change(random, fields, input, Part::Head, Random::below)
});

pub const PAYLOAD_FIELD: Named<FrameInput> = ("payload field changed", |random, made, input| {
    let fields = &made.payload.fields;
    change(random, fields, input, Part::Payload, Random::below)
});

/// One of the last codes of the width.
pub const CROSSTALK_CODE: Named<FrameInput> = ("crosstalk code changed", |random, made, input| {
    let fields: Vec<Field> = made.head.all(Kind::Crosstalk).collect();
    change(random, &fields, input, Part::Head, |random, end| {
        end - 1 - random.below(end.min(4))
    })
});

pub const LAYER_THREE: Named<FrameInput> = ("Layer III flag set", |random, made, input| {
    let fields: Vec<Field> = made.head.all(Kind::LayerThree).collect();
    change(random, &fields, input, Part::Head, |_, _| 1)
});

pub const CENTRE_CODE_2: Named<FrameInput> = ("centre code 2", |random, made, input| {
    let fields: Vec<Field> = made.head.all(Kind::Centre).collect();
    change(random, &fields, input, Part::Head, |_, _| 2)
});

pub const SCALEFACTOR_63: Named<FrameInput> = ("scalefactor 63", |random, made, input| {
    let mut fields: Vec<Field> = made.payload.all(Kind::Scalefactor).collect();
    fields.extend(made.payload.all(Kind::LfeScalefactor));
    change(random, &fields, input, Part::Payload, |_, _| 63)
});

pub const HEAD_NOISE: Named<FrameInput> = ("head noise", |random, _, input| {
    all(|| damage::noise(random, input, Part::Head))
});

pub const PAYLOAD_NOISE: Named<FrameInput> = ("payload noise", |random, _, input| {
    all(|| damage::noise(random, input, Part::Payload))
});

pub const HEAD_PADDED: Named<FrameInput> = ("head padded", |random, _, input| {
    all(|| damage::pad(random, input, Part::Head))
});

pub const PAYLOAD_PADDED: Named<FrameInput> = ("payload padded", |random, _, input| {
    all(|| damage::pad(random, input, Part::Payload))
});

pub const HEAD_CUT: Named<FrameInput> = ("head cut", |random, made, input| {
    cut(random, made, input, Part::Head)
});

pub const PAYLOAD_CUT: Named<FrameInput> = ("payload cut", |random, made, input| {
    cut(random, made, input, Part::Payload)
});

/// The scfsi codes are the first of a payload.
pub const SCFSI_CUT: Named<FrameInput> = ("payload cut in scfsi", |random, made, input| {
    let bits = 2 * made.payload.all(Kind::Scfsi).count() as u64;
    bits > 0 && all(|| input.payload_bits = random.bits64() % bits)
});

pub const ALLOCATION: Named<FrameInput> = ("wrong allocation", |random, made, input| {
    all(|| damage::wrong_allocation(random, &made.plan, input))
});

pub const WRONG_READING: Named<FrameInput> = ("wrong reading", |random, _, input| {
    all(|| input.reading = random.pick(&damage::WRONG_READINGS))
});

pub const OTHER_DESK: Named<FrameInput> = ("other desk", |random, _, input| {
    all(|| input.desk = state::desk(random))
});

pub const WRONG_DESK: Named<FrameInput> = ("wrong desk", |random, _, input| {
    all(|| input.desk = random.pick(&damage::WRONG_DESKS))
});

/// A change that every frame gives a hold for.
pub fn all(change: impl FnOnce()) -> bool {
    change();
    true
}

/// One of the two strings and its bit count.
pub fn either<'a>(
    random: &mut Random,
    input: &'a mut FrameInput,
) -> (&'a mut Vec<u8>, &'a mut u64) {
    damage::string(input, random.pick(&[Part::Payload, Part::Head]))
}

/// A bit count past the end of a string.
pub fn bits_past(random: &mut Random, bytes: &[u8]) -> u64 {
    let end = 8 * bytes.len() as u64;
    random.pick(&[end + 1, end + 8, u64::MAX, 1 << 32, 1 << 63])
}

/// A wrong length for a slice whose right one is not 1: at most `margin` too long, unless the slice is
/// to be empty.
pub fn wrong_length(random: &mut Random, right: usize, margin: usize) -> usize {
    match right {
        0 => random.pick(&[1, 32, 1152]),
        _ => random.pick(&[0, 1, right / 2, right - 1, right + 1, right + margin]),
    }
}

fn flip(random: &mut Random, made: &Made, input: &mut FrameInput, part: Part) -> bool {
    let bits = made.written(part).bits;
    bits > 0 && all(|| damage::flip(input, part, random.bits64() % bits))
}

/// Gives one of the fields another value, below the end of its width.
fn change(
    random: &mut Random,
    fields: &[Field],
    input: &mut FrameInput,
    part: Part,
    value: impl FnOnce(&mut Random, u32) -> u32,
) -> bool {
    if fields.is_empty() {
        return false;
    }
    let field = random.pick(fields);
    let value = value(random, 1 << field.width);
    all(|| damage::overwrite(input, part, field, value))
}

/// Cuts inside the used bits: anywhere, inside a field, near the beginning or just before the end.
fn cut(random: &mut Random, made: &Made, input: &mut FrameInput, part: Part) -> bool {
    let written = made.written(part);
    if written.bits == 0 {
        return false;
    }
    let field = random.pick(&written.fields);
    let bits = match random.below(4) {
        0 => written.bits - 1,
        1 => field.at + u64::from(random.below(field.width)),
        2 => random.bits64() % (written.bits / 8 + 1),
        _ => random.bits64() % written.bits,
    };
    all(|| damage::cut(input, part, bits, random.flag()))
}
