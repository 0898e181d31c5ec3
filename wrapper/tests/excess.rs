//! Group codes: how many have an excess, and that these write the samples of the code less the cube.

mod lent;

use koftabasin::{Answer, McState, Used};
use lent::{Lent, first};
use std::array::from_fn;
use std::iter::repeat_n;

/// The classes with group codes: their steps, a code's bits, and the cube of the steps.
const GROUPED: [(u32, u32, u32); 3] = [(3, 5, 27), (5, 7, 125), (9, 10, 729)];

/// Fields by value and width, first bit highest; the last byte is filled up with ones.
fn bytes(fields: impl IntoIterator<Item = (u32, u32)>) -> Vec<u8> {
    let bits_of = |(value, width): (u32, u32)| (0..width).rev().map(move |bit| value >> bit & 1);
    let mut bits: Vec<u32> = fields.into_iter().flat_map(bits_of).collect();
    bits.resize(bits.len().next_multiple_of(8), 1);
    let byte_of = |bits: &[u32]| bits.iter().fold(0, |byte, &bit| byte << 1 | bit as u8);
    bits.chunks(8).map(byte_of).collect()
}

/// A 2/1 frame whose surround has these steps in subband 0: scfsi 2, scalefactor 0, and these codes.
fn surround(steps: u32, width: u32, codes: [u32; 12]) -> Lent {
    let mut lent = Lent::of_layout(21, 1);
    lent.nb_steps[0] = steps;
    let codes = codes.map(|code| (code, width));
    lent.payload = bytes([(2, 2), (0, 6)].into_iter().chain(codes));
    lent
}

/// The frame is accepted on a fresh state with this answer, in one number and taken apart.
fn accepted(mut lent: Lent, [head_bits, payload_bits, excess_codes]: [u32; 3]) -> Lent {
    let used = Used {
        head_bits,
        payload_bits,
        excess_codes,
    };
    let [head, payload, excess] = [head_bits, payload_bits, excess_codes].map(u64::from);
    let answer = lent.decode_packed(&mut McState::new());
    assert_eq!(answer, Answer(excess << 52 | payload << 32 | head << 8));
    assert_eq!(lent.decode(&mut McState::new()), Ok(used));
    lent
}

/// Each code of each class among codes 0, in every granule in turn.
#[test]
fn codes_from_the_cube_on_are_counted() {
    for (steps, width, cube) in GROUPED {
        for code in 0..1 << width {
            let mut codes = [0; 12];
            codes[code as usize % 12] = code;
            let lent = surround(steps, width, codes);
            accepted(lent, [37, 8 + 12 * width, u32::from(code >= cube)]);
        }
    }
}

/// Codes from the cube to the greatest, and the same less the cube, fill the buffers alike in all bits.
#[test]
fn samples_are_those_of_the_code_less_the_cube() {
    for (steps, width, cube) in GROUPED {
        let most = (1 << width) - 1 - cube;
        let less: [u32; 12] = from_fn(|granule| most * granule as u32 / 11);
        let codes = less.map(|code| code + cube);
        let [with, without] = [(codes, 12), (less, 0)].map(|(codes, count)| {
            let lent = surround(steps, width, codes);
            let lent = accepted(lent, [37, 8 + 12 * width, count]);
            let bits = lent.written.iter().flatten().map(|value| value.to_bits());
            bits.collect::<Vec<_>>()
        });
        assert!(with == without);
    }
}

/// Digits 0, 1 and 2 of 3 steps are values of about -2/3, 0 and 2/3.
#[test]
fn digits_of_three_steps() {
    let mut codes = [0; 12];
    codes[..4].copy_from_slice(&[5, 26, 27, 31]);
    let lent = accepted(surround(3, 5, codes), [37, 68, 2]);
    let digit = |slot: usize| (1.5 * lent.written[0][32 * slot]).round() + 1.0;
    let digits = from_fn(|granule| from_fn(|sample| digit(3 * granule + sample)));
    let expected = [[2.0, 1.0, 0.0], [2.0; 3], [0.0; 3], [1.0, 1.0, 0.0]];
    assert_eq!(digits, expected);
}

/// A class of 7 steps has a code for each sample, whose greatest is no excess.
#[test]
fn codes_of_one_sample_are_not_counted() {
    let mut lent = Lent::of_layout(21, 1);
    lent.nb_steps[0] = 7;
    lent.payload = bytes([(2, 2), (0, 6)].into_iter().chain([(7, 3); 36]));
    accepted(lent, [37, 116, 0]);
}

/// 3/2 with crosstalk code 8, by which the third channel copies the second. In subband 0 each has an
/// scfsi code and a scalefactor, and the codes of the second are read once.
#[test]
fn copied_codes_are_counted_once() {
    let header = [(0, 1), (1, 2), (2, 2), (0, 11), (0, 16)];
    let status = [(0b110, 3), (0, 3), (0, 1)];
    let mut lent = Lent::of_layout(32, 1);
    lent.head = bytes(header.into_iter().chain(status).chain([(8, 4); 12]));
    lent.head_bits = 87;
    lent.nb_steps[32] = 3;
    let factors = [(2, 2), (2, 2), (0, 6), (0, 6)];
    lent.payload = bytes(factors.into_iter().chain([(29, 5); 12]));
    let lent = accepted(lent, [87, 76, 12]);
    let (second, third) = lent.written[1][1152..].split_at(1152);
    assert!(second == third && second[0] != 0.0);
}

/// 9 steps at every place of a frame at 44,100 Hz, with code 1023 throughout.
#[test]
fn most_codes_of_a_frame() {
    for reading in [1, 2] {
        let mut lent = Lent::of_layout(32, reading);
        lent.rate = 44_100;
        for channel in lent.nb_steps.chunks_mut(32) {
            channel[..30].fill(9);
        }
        let factors = repeat_n((2, 2), 90).chain(repeat_n((0, 6), 90));
        lent.payload = bytes(factors.chain(repeat_n((1023, 10), 1080)));
        accepted(lent, [38, 11_520, 1_080]);
    }
}

/// The answer is the refusal's number alone, also where codes with an excess were read before.
#[test]
fn refused_frames_have_no_count() {
    let whole = surround(9, 10, [1023; 12]);
    let mut short = whole.clone();
    short.payload.pop();
    let mut layer_3 = whole.clone();
    layer_3.head[1] = 4;
    let mut reserved = whole.clone();
    reserved.payload = bytes([(2, 2), (63, 6)].into_iter().chain([(1023, 10); 12]));
    let frames = [
        (short, 3, 1),
        (layer_3, 3, 3),
        (reserved, 3, 4),
        (whole, 5, 5),
    ];
    for (mut lent, layout_len, number) in frames {
        let mut state = McState::with([0.5; 576], layout_len, 0, first(3));
        assert_eq!(lent.decode_packed(&mut state), Answer(number));
        assert!(lent.untouched());
        assert_eq!(state.accepted(), &first(3));
    }
}
