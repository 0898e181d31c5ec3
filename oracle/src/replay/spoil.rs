//! Frames of the list that are refused, and frames at a bound that are not.

use super::record::Record;
use crate::generator::damage::{WRONG_DESKS, WRONG_READINGS};
use crate::generator::writer::put;
use crate::generator::{Kind, Made, Random, Source, Written};

/// A way to change a frame; false where the frame gives no hold for it.
pub type Spoil = fn(&mut Random, &Made, &mut Record) -> bool;

/// The answer, 0 for acceptance, and the ways that lead to it together. Those of the last rows break
/// two rules, and the answer is that of the first in the order of refusals.
pub const SPOILS: [(u64, &[Spoil]); 48] = [
    (0, &[longest_payload]),
    (0, &[bits_after_the_head]),
    (1, &[head_cut]),
    (1, &[head_cut_by_one]),
    (1, &[payload_cut]),
    (1, &[payload_cut_by_one]),
    (2, &[unlisted_code]),
    (3, &[layer_three]),
    (4, &[reserved_scalefactor]),
    (5, &[other_count]),
    (5, &[under_reading_2]),
    (6, &[rate]),
    (6, &[base_count]),
    (6, &[other_base_count]),
    (6, &[lfe_beyond_15]),
    (6, &[head_bit_count]),
    (6, &[payload_bit_count]),
    (6, &[head_of_8193_bytes]),
    (6, &[payload_of_8193_bytes]),
    (6, &[base_steps]),
    (6, &[state_count]),
    (6, &[reading]),
    (7, &[wild_base]),
    (7, &[wild_base, not_a_number]),
    (7, &[wild_history]),
    (8, &[allocation]),
    (8, &[lfe_without_lfe]),
    (8, &[barred_under_reading_1]),
    (13, &[undefined_centre]),
    (14, &[desk]),
    (6, &[rate, wild_base]),
    (6, &[rate, desk]),
    (6, &[reading, desk]),
    (14, &[desk, wild_base]),
    (14, &[desk, head_cut]),
    (14, &[desk, undefined_centre]),
    (14, &[desk, other_count]),
    (7, &[wild_base, undefined_centre]),
    (1, &[undefined_centre, header_cut]),
    (13, &[undefined_centre, header_alone]),
    (7, &[wild_base, head_cut]),
    (1, &[head_cut, allocation]),
    (2, &[unlisted_code, lfe_without_lfe]),
    (8, &[allocation, layer_three]),
    (1, &[layer_three, scfsi_cut]),
    (3, &[layer_three, reserved_scalefactor]),
    (1, &[reserved_scalefactor_cut]),
    (4, &[reserved_scalefactor, other_count]),
];

fn longest_payload(_: &mut Random, _: &Made, record: &mut Record) -> bool {
    (record.payload_len, record.payload_bits) = (8192, 65_536);
    true
}

/// Ones after the used bits of the head, some within its bit count.
fn bits_after_the_head(random: &mut Random, _: &Made, record: &mut Record) -> bool {
    for at in record.head_bits..8 * record.head.len() as u32 {
        put(&mut record.head, at.into(), 1, 1);
    }
    record.head_len += 1;
    record.head_bits += 1 + random.below(8);
    true
}

fn head_cut(random: &mut Random, _: &Made, record: &mut Record) -> bool {
    record.head_bits = random.below(record.head_bits);
    true
}

fn head_cut_by_one(_: &mut Random, _: &Made, record: &mut Record) -> bool {
    record.head_bits -= 1;
    record.head_len = record.head_bits.div_ceil(8) as u16;
    true
}

fn payload_cut(random: &mut Random, _: &Made, record: &mut Record) -> bool {
    record.payload_bits = random.below(record.payload_bits);
    true
}

fn payload_cut_by_one(_: &mut Random, frame: &Made, record: &mut Record) -> bool {
    record.payload_bits = record.payload_bits.saturating_sub(1);
    record.payload_len = record.payload_bits.div_ceil(8) as u16;
    frame.payload.bits > 0
}

/// Place and width of one of the fields of these kinds.
fn pick(random: &mut Random, written: &Written, kinds: &[Kind]) -> Option<(u64, u32)> {
    let fields = written
        .fields
        .iter()
        .filter(|field| kinds.contains(&field.kind));
    let fields: Vec<_> = fields.map(|field| (field.at, field.width)).collect();
    (!fields.is_empty()).then(|| random.pick(&fields))
}

/// The last code of the width, which a field of one bit always lists.
fn unlisted_code(random: &mut Random, frame: &Made, record: &mut Record) -> bool {
    let field = pick(random, &frame.head, &[Kind::Crosstalk]);
    field.is_some_and(|(at, width)| {
        put(&mut record.head, at, width, (1 << width) - 1);
        width > 1
    })
}

fn layer_three(random: &mut Random, frame: &Made, record: &mut Record) -> bool {
    let field = pick(random, &frame.head, &[Kind::LayerThree]);
    field.is_some_and(|(at, width)| {
        put(&mut record.head, at, width, 1);
        true
    })
}

fn reserved_scalefactor(random: &mut Random, frame: &Made, record: &mut Record) -> bool {
    let kinds = [Kind::Scalefactor, Kind::LfeScalefactor];
    pick(random, &frame.payload, &kinds).is_some_and(|(at, width)| {
        put(&mut record.payload, at, width, 63);
        true
    })
}

/// Cut inside the scalefactor that is reserved.
fn reserved_scalefactor_cut(random: &mut Random, frame: &Made, record: &mut Record) -> bool {
    pick(random, &frame.payload, &[Kind::Scalefactor]).is_some_and(|(at, width)| {
        put(&mut record.payload, at, width, 63);
        record.payload_bits = at as u32 + 1 + random.below(width - 1);
        true
    })
}

fn scfsi_cut(random: &mut Random, frame: &Made, record: &mut Record) -> bool {
    pick(random, &frame.payload, &[Kind::Scfsi]).is_some_and(|(at, _)| {
        record.payload_bits = at as u32 + 1;
        true
    })
}

fn other_count(random: &mut Random, frame: &Made, record: &mut Record) -> bool {
    let count = 1 + random.below(5);
    record.start = Some((count as u8, 7));
    count as usize != frame.plan.layout().outputs()
}

/// Where the state holds another layout of the frame's count.
fn under_reading_2(_: &mut Random, _: &Made, record: &mut Record) -> bool {
    record.reading = 2;
    true
}

fn barred_under_reading_1(_: &mut Random, frame: &Made, record: &mut Record) -> bool {
    record.reading = 1;
    frame.plan.barred_under(1)
}

/// Centre code 2 under reading 2.
fn undefined_centre(random: &mut Random, frame: &Made, record: &mut Record) -> bool {
    record.reading = 2;
    pick(random, &frame.head, &[Kind::Centre]).is_some_and(|(at, width)| {
        put(&mut record.head, at, width, 2);
        true
    })
}

fn header_alone(_: &mut Random, frame: &Made, record: &mut Record) -> bool {
    record.head_bits = frame.plan.head.header_bits() as u32;
    true
}

fn header_cut(random: &mut Random, frame: &Made, record: &mut Record) -> bool {
    record.head_bits = random.below(frame.plan.head.header_bits() as u32);
    true
}

fn reading(random: &mut Random, _: &Made, record: &mut Record) -> bool {
    record.reading = random.pick(&WRONG_READINGS);
    true
}

fn desk(random: &mut Random, _: &Made, record: &mut Record) -> bool {
    record.desk = random.pick(&WRONG_DESKS);
    true
}

fn rate(random: &mut Random, _: &Made, record: &mut Record) -> bool {
    record.rate = random.pick(&[0, 22_050, 44_101, 96_000]);
    true
}

fn base_count(random: &mut Random, _: &Made, record: &mut Record) -> bool {
    record.base_channels = random.pick(&[0, 3, 255]);
    true
}

/// One channel lent where two are said, or the other way round.
fn other_base_count(_: &mut Random, _: &Made, record: &mut Record) -> bool {
    record.base_channels = 3 - record.base_channels;
    true
}

fn lfe_beyond_15(random: &mut Random, _: &Made, record: &mut Record) -> bool {
    record.lfe_allocation = random.pick(&[16, 255]);
    true
}

fn head_bit_count(_: &mut Random, _: &Made, record: &mut Record) -> bool {
    record.head_bits = 8 * u32::from(record.head_len) + 1;
    true
}

fn payload_bit_count(random: &mut Random, _: &Made, record: &mut Record) -> bool {
    let end = 8 * u32::from(record.payload_len);
    record.payload_bits = random.pick(&[end + 1, u32::MAX]);
    true
}

fn head_of_8193_bytes(_: &mut Random, _: &Made, record: &mut Record) -> bool {
    record.head_len = 8193;
    true
}

fn payload_of_8193_bytes(_: &mut Random, _: &Made, record: &mut Record) -> bool {
    record.payload_len = 8193;
    true
}

fn base_steps(random: &mut Random, _: &Made, record: &mut Record) -> bool {
    let last = 32 * usize::from(record.base_channels) - 1;
    let any = random.below(32) as usize;
    record.base_classes[random.pick(&[any, last])] = 18;
    true
}

fn state_count(random: &mut Random, _: &Made, record: &mut Record) -> bool {
    record.start = Some((random.pick(&[6, 255]), 0));
    true
}

/// A wild value in the lent base; of a mono base only the left is.
fn wild_base(random: &mut Random, _: &Made, record: &mut Record) -> bool {
    let first = if random.flag() { 0 } else { 2304 };
    let end = if record.right { 2304 } else { 1152 };
    let any = random.below(end);
    let place = first + random.pick(&[any, end - 1]);
    record.wild = (1 + random.below(5) as u8, place as u16);
    true
}

fn not_a_number(_: &mut Random, _: &Made, record: &mut Record) -> bool {
    record.wild.0 = 5;
    true
}

fn wild_history(random: &mut Random, _: &Made, record: &mut Record) -> bool {
    record.start = Some((0, 0));
    let any = random.below(576);
    let place = 4608 + random.pick(&[any, 575]);
    record.wild = (1 + random.below(5) as u8, place as u16);
    true
}

/// A step count that no class has, or one at a place that is not transmitted.
fn allocation(random: &mut Random, frame: &Made, record: &mut Record) -> bool {
    let place = random.below(96) as usize;
    let transmitted = frame.plan.source(place / 32, place % 32) == Source::Transmitted;
    let class = 1 + random.below(17) as u8;
    record.classes[place] = if transmitted { 18 } else { class };
    true
}

fn lfe_without_lfe(random: &mut Random, frame: &Made, record: &mut Record) -> bool {
    record.lfe_allocation = 1 + random.below(15) as u8;
    !frame.plan.head.lfe
}
