//! The published Rust as a judge: the span of `decode_mc_frame_with` from the header bits to
//! `out_sub`, cut out of the published files at build time, with a generator of frames beside it.
//! README.md says how it is made and what differs from the published text.

// The published files say `oxideav_core::bits`, which is the stand-in here.
extern crate self as oxideav_core;

include!(concat!(env!("OUT_DIR"), "/published.rs"));

pub mod bits;
pub mod desks;
pub mod excess;
pub mod flat;
pub mod generator;
pub mod held;
pub mod input;
pub mod layouts;
pub mod leaf;
#[cfg(feature = "frame")]
pub mod library;
pub mod output;
pub mod phantom;
pub mod replay;
pub mod sample;
pub mod scope;
pub mod trail;

use excess::Excesses;

pub use input::FrameInput;
pub use mc::{
    McDecodeState, McError, reference_centre, reference_head, reference_payload, reference_places,
    reference_span,
};
pub use output::{FrameOutput, HeadOutput, PayloadOutput, Places, SpanOutput};

/// Reads a frame: its head and its payload by themselves, so that every value on the way is at hand,
/// and the whole span; and the excesses of its group codes, which the published code drops. A refusal by
/// any part is the span's refusal. At `ConfigChanged` the state has this frame's history, as in the
/// published code; at any other refusal it is as it was.
pub fn reference_frame(
    input: &FrameInput,
    state: &mut McDecodeState,
) -> Result<FrameOutput, McError> {
    let head = reference_head(&input.head, input.head_bits, input.base_channels)?;
    let payload = reference_payload(input)?;
    let excesses = Excesses::read(input, &reference_places(input)?, payload.used);
    let span = reference_span(input, state)?;
    Ok(FrameOutput {
        head,
        payload,
        span,
        excesses,
    })
}
