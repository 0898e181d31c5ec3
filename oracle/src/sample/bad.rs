//! Bytes that are no frame file, made from one that is.

use super::{File, Version};
use crate::generator::Random;

/// A number of a frame: its place, its bytes and wrong values.
type Number = (usize, usize, &'static [u32]);

/// Call, and whether the state is carried.
const OF_THE_SECOND: [Number; 2] = [(0, 1, &[2, 0, 255]), (1, 1, &[2, 255])];

/// Base channels, head bytes and payload bytes, placed among the numbers that both versions have.
const OF_BOTH: [Number; 3] = [
    (4, 1, &[0, 3, 5, 255]),
    (6, 4, &[8193, 9000, u32::MAX]),
    (14, 4, &[8193, 9000, u32::MAX]),
];

/// The bytes of a file, spoiled in one way.
pub fn bad(random: &mut Random, file: &File) -> Vec<u8> {
    let mut bytes = file.write();
    match random.below(10) {
        0 => bytes[random.below(8) as usize] ^= 1 << random.below(8),
        1 => bytes[12] = random.pick(&[2, 255]),
        2 => bytes.push(random.below(256) as u8),
        3 => bytes[8] = random.pick(&[bytes[8] - 1, bytes[8] + 1]),
        4..6 => cut(random, &mut bytes),
        6 if file.version == Version::First && bytes[12] == 1 => {
            bytes[13] = random.pick(&[6, 7, 255]);
        }
        _ => wrong_numbers(random, file, &mut bytes),
    }
    bytes
}

/// Leaves nothing, or cuts inside the letters, the opening or a state, anywhere, or just before the end.
fn cut(random: &mut Random, bytes: &mut Vec<u8>) {
    let end = bytes.len() - 1;
    let any = random.bits64() as usize % end;
    let ends = [0, 1 + any % 7, 8 + any % 5, 13 + any % 4613, any, end];
    bytes.truncate(random.pick(&ends));
}

/// One to three wrong numbers in a frame, so that their order shows.
fn wrong_numbers(random: &mut Random, file: &File, bytes: &mut [u8]) {
    let k = random.below(file.frames.len() as u32) as usize;
    let before = File {
        frames: file.frames[..k].to_vec(),
        ..file.clone()
    };
    let at = before.write().len();
    let shared = |(place, size, values)| (file.version.shared_at() + place, size, values);
    let mut numbers = OF_BOTH.map(shared).to_vec();
    if file.version == Version::Second {
        numbers.extend(OF_THE_SECOND);
    }
    for _ in 0..1 + random.below(3) {
        let (place, size, values) = random.pick(&numbers);
        let value = random.pick(values).to_le_bytes();
        bytes[at + place..][..size].copy_from_slice(&value[..size]);
    }
}
