//! A frame in the shapes of the library's call: flat slices, and the answer in one number.

use crate::input::{FrameInput, Slots};
use crate::output::FrameOutput;
use crate::scope::Refusal;

/// What is lent by slices of floats and of step counts.
#[derive(Debug, Clone, PartialEq)]
pub struct Flat {
    /// Raw left, raw right, scaled left, scaled right; those on the right are empty for one channel.
    pub base: [Vec<f64>; 4],
    /// 32 for each base channel.
    pub base_nb_steps: Vec<u32>,
    /// Three channels of 32.
    pub nb_steps: Vec<u32>,
}

impl Flat {
    pub fn of(input: &FrameInput) -> Flat {
        let side = |channels: &[Slots], k: usize| {
            let slots = channels.get(k).map_or(&[][..], |slots| &slots[..]);
            slots.as_flattened().to_vec()
        };
        let rows = input.base_raw.len().min(2);
        Flat {
            base: [
                side(&input.base_raw, 0),
                side(&input.base_raw, 1),
                side(&input.base_scaled, 0),
                side(&input.base_scaled, 1),
            ],
            base_nb_steps: input.base_nb_steps[..rows].as_flattened().to_vec(),
            nb_steps: input.nb_steps.as_flattened().to_vec(),
        }
    }
}

/// An answer as the library packs it. Accepted: used head bits in bits 8 to 31, used payload bits in bits
/// 32 to 51, group codes with an excess in bits 52 to 63. Refused: the number in bits 0 to 7, the group in
/// bits 8 to 31, the code in bits 32 to 63.
pub fn packed(answer: &Result<FrameOutput, Refusal>) -> u64 {
    match answer {
        Ok(frame) => {
            let (head, payload) = (frame.span.head_used, frame.span.payload_used);
            head << 8 | payload << 32 | u64::from(frame.excesses.codes()) << 52
        }
        Err(refusal) => {
            let [number, group, code] =
                [refusal.number, refusal.group, refusal.code].map(u64::from);
            number | group << 8 | code << 32
        }
    }
}
