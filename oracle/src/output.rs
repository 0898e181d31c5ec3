//! What the reference hands back, part by part, in the shapes and under the names that the span has.

use crate::audio_data::Scfsi;
use crate::bitalloc::NUM_SUBBANDS;
use crate::excess::Excesses;
use crate::input::Slots;
use crate::mc::{McChannel, McConfig, McHeader};

/// An array by extension channel and subband, as the span has them.
pub type ByPlace<T> = [[T; NUM_SUBBANDS]; 5];

/// The two bits of a header that are its centre field.
#[derive(Debug, Clone, Copy, PartialEq, Eq)]
pub struct CentreField {
    /// The first of them.
    pub at: u64,
    pub code: u32,
}

/// A head that was read.
#[derive(Debug, Clone, PartialEq)]
pub struct HeadOutput {
    pub mc_header: McHeader,
    /// The centre field as read: the header calls code 2 `Centre::None`.
    pub centre_code: u32,
    pub check_word: u16,
    pub config: McConfig,
    pub status: Status,
    /// Sources by group and main channel: `T`, `B`, a channel's digit, or a hyphen for no channel.
    pub sources: [[u8; 3]; 12],
    pub layout: Vec<McChannel>,
    /// Bits read.
    pub used: u64,
}

/// The composite status.
#[derive(Debug, Clone, PartialEq, Eq)]
pub struct Status {
    pub tc_sbgr_select: bool,
    pub dyn_cross_on: bool,
    pub mc_prediction_on: bool,
    pub tc_allocation: [u8; 12],
    pub dyn_cross_lr: bool,
    pub dyn_cross_mode: [u8; 12],
    pub dyn_second_stereo: [bool; 12],
    pub mc_prediction: [bool; 8],
    pub predsi: [[u8; 6]; 8],
}

/// What becomes of each place of the extension channels.
#[derive(Debug, Clone, PartialEq, Eq)]
pub struct Places {
    pub msblimit: usize,
    pub nmch: usize,
    /// Crossed: step count and samples come from elsewhere.
    pub dyn_cross: ByPlace<bool>,
    /// Barred by the phantom centre.
    pub centre_limited: ByPlace<bool>,
}

impl Places {
    /// Whether a step count is transmitted for this place.
    pub fn transmitted(&self, mch: usize, sb: usize) -> bool {
        let inside = mch < self.nmch && sb < self.msblimit;
        inside && !self.dyn_cross[mch][sb] && !self.centre_limited[mch][sb]
    }
}

/// A payload that was read.
#[derive(Debug, Clone, PartialEq)]
pub struct PayloadOutput {
    /// Bits read.
    pub used: u64,
    /// Step counts, those of crossed places among them.
    pub nb_steps: ByPlace<u32>,
    pub scfsi: ByPlace<Scfsi>,
    pub delay_comp: [[u32; 6]; 8],
    pub pred_coef: [[[f64; 3]; 6]; 8],
    pub lf_scalefactor: usize,
    pub scalefactor: ByPlace<[u8; 3]>,
    /// Samples of the transmitted places alone: crossed ones are copied later.
    pub raw_mc: Vec<Slots>,
    /// Twelve, zero without an LFE allocation.
    pub lfe_samples: Vec<f64>,
}

/// What the span leaves behind, moved out without a copy.
#[derive(Debug, Clone, PartialEq)]
pub struct SpanOutput {
    pub head_used: u64,
    pub payload_used: u64,
    pub lfe_samples: Vec<f64>,
    /// Samples with crossed places filled in.
    pub raw_mc: Vec<Slots>,
    /// Scaled and predicted values.
    pub scaled_mc: Vec<Slots>,
    pub out_sub: Vec<Slots>,
    pub layout: Vec<McChannel>,
}

/// An accepted frame.
#[derive(Debug, Clone, PartialEq)]
pub struct FrameOutput {
    pub head: HeadOutput,
    pub payload: PayloadOutput,
    pub span: SpanOutput,
    /// Not the span's, which drops them.
    pub excesses: Excesses,
}
