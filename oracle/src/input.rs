//! What is lent to a frame, in the shapes that the published code has.

use crate::bitalloc::NUM_SUBBANDS;
use crate::header::{Emphasis, FrameHeader, Mode, ModeExtension};

/// Subband values of one channel: 36 slots of 32 subbands.
pub type Slots = Vec<[f64; NUM_SUBBANDS]>;

/// The readings of the transfer guide. The published code has the first alone.
pub const READINGS: [u32; 2] = [1, 2];

/// The number of desks, which are counted from 0.
pub const DESKS: usize = 8;

/// Everything that is lent but the state. The shapes are the caller's care: each base channel has
/// 36 slots, and there are as many channels as `base_channels` says, one or two.
#[derive(Debug, Clone, PartialEq)]
pub struct FrameInput {
    /// Header, check word and composite status, first bit highest.
    pub head: Vec<u8>,
    pub head_bits: u64,
    /// From the scfsi codes on.
    pub payload: Vec<u8>,
    pub payload_bits: u64,
    /// One of [`READINGS`]; the reference does not look at it.
    pub reading: u32,
    /// Below [`DESKS`]; the reference does not look at it either.
    pub desk: u32,
    pub sample_rate: u32,
    pub base_channels: usize,
    /// Requantised base values, by channel, slot and subband.
    pub base_raw: Vec<Slots>,
    /// The same, scaled.
    pub base_scaled: Vec<Slots>,
    /// Step counts of the base; the second row of a mono base is not read.
    pub base_nb_steps: [[u32; NUM_SUBBANDS]; 2],
    /// 0 to 15.
    pub lfe_allocation: u32,
    /// Step counts of the transmitted places; those of other places are not read.
    pub nb_steps: [[u32; NUM_SUBBANDS]; 3],
}

/// What the span calls `base`: the published `BaseSubbands` with its values borrowed.
pub(crate) struct Base<'a> {
    pub(crate) header: FrameHeader,
    pub(crate) raw: &'a [Slots],
    pub(crate) scaled: &'a [Slots],
    pub(crate) nb_steps: [[u32; NUM_SUBBANDS]; 2],
}

impl Base<'_> {
    /// A base of which the header alone is wanted.
    pub(crate) fn without_values(sample_rate: u32, base_channels: usize) -> Self {
        Base {
            header: base_header(sample_rate, base_channels),
            raw: &[],
            scaled: &[],
            nb_steps: [[0; NUM_SUBBANDS]; 2],
        }
    }
}

impl FrameInput {
    pub(crate) fn base(&self) -> Base<'_> {
        Base {
            header: base_header(self.sample_rate, self.base_channels),
            raw: &self.base_raw,
            scaled: &self.base_scaled,
            nb_steps: self.base_nb_steps,
        }
    }

    /// The input in words, without its base, for whoever has to look into a difference.
    pub fn words(&self) -> String {
        let bytes = self.head.iter().take(40);
        let head: String = bytes.map(|byte| format!("{byte:02x}")).collect();
        format!(
            "reading {}, desk {}, base channels {}, rate {}, LFE allocation {}\n\
             head of {} bytes and {} bits: {head}\npayload of {} bytes and {} bits",
            self.reading,
            self.desk,
            self.base_channels,
            self.sample_rate,
            self.lfe_allocation,
            self.head.len(),
            self.head_bits,
            self.payload.len(),
            self.payload_bits,
        )
    }
}

/// The span reads the rate and the mode of a base header, and the latter only for whether it is mono.
fn base_header(sample_rate: u32, base_channels: usize) -> FrameHeader {
    FrameHeader {
        lsf: false,
        bit_rate: 0,
        sample_rate,
        padding: false,
        private_bit: false,
        mode: match base_channels {
            1 => Mode::SingleChannel,
            _ => Mode::Stereo,
        },
        mode_extension: ModeExtension::Bound4,
        copyright: false,
        original: false,
        emphasis: Emphasis::None,
        protection_bit: true,
    }
}
