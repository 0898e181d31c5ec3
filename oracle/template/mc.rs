//! The published mc.rs, cut to what a frame needs. The build puts a part of the published text in the
//! place of each mark, a comment with an at sign; build/main.rs says which part goes where, and
//! README.md lists what differs from the published text.

use crate::audio_data::Scfsi;
use crate::bitalloc::{BitAllocTable, NUM_SUBBANDS, class_of_quantization};
use crate::bits::BitReader;
use crate::header::{HeaderError, Mode};
use crate::input::{Base, FrameInput};
use crate::output::{CentreField, HeadOutput, PayloadOutput, Places, SpanOutput, Status};
use crate::requant::{degroup, requantize_code};
use crate::tables::SCALEFACTORS;

/*@types*/

/// Stands in for the synthesis filterbank, which the span does not reach.
#[derive(Debug)]
struct SynthesisFilterbank;

impl SynthesisFilterbank {
    fn reset(&mut self) {}
}

/*@state*/

impl McDecodeState {
    /// The state with this history, at `(base * 32 + subband) * 9 + k`, and this layout length.
    pub fn with(history: &[f64], layout_len: Option<usize>) -> Self {
        let mut state = McDecodeState::new();
        state.layout_len = layout_len;
        for (k, value) in history.iter().enumerate() {
            let (line, k) = (k / PRED_HISTORY, k % PRED_HISTORY);
            state.pred_hist[line / NUM_SUBBANDS][line % NUM_SUBBANDS][k] = *value;
        }
        state
    }

    /// The history, at `(base * 32 + subband) * 9 + k`.
    pub fn history(&self) -> Vec<f64> {
        let lines = self.pred_hist.iter().flatten();
        lines.flatten().copied().collect()
    }

    /// The number of channels of the layout, where one is held.
    pub fn layout_len(&self) -> Option<usize> {
        self.layout_len
    }
}

/*@composite*/

/*@formulas*/

/// Reads the head: header, check word, composite status.
pub fn reference_head(
    head: &[u8],
    head_bits: u64,
    base_channels: usize,
) -> Result<HeadOutput, McError> {
    let base = Base::without_values(0, base_channels);
    let total_bits = head_bits;
    let mut hdr_reader = BitReader::new(head);
    /*@header*/
    let (packed, mc_bits) = (head, head_bits);
    /*@status*/
    Ok(HeadOutput {
        centre_code: centre_field(head, hdr_bits)?.code,
        check_word: wire_mc_crc,
        sources: core::array::from_fn(|sbgr| letters(&sources[sbgr])),
        status: Status {
            tc_sbgr_select,
            dyn_cross_on,
            mc_prediction_on,
            tc_allocation: comp.tc_allocation,
            dyn_cross_lr: comp.dyn_cross_lr,
            dyn_cross_mode: comp.dyn_cross_mode,
            dyn_second_stereo: comp.dyn_second_stereo,
            mc_prediction: comp.mc_prediction,
            predsi: comp.predsi,
        },
        layout: config.layout(),
        mc_header,
        config,
        used: r.bit_position(),
    })
}

/// Reads the header alone: its centre field.
pub fn reference_centre(head: &[u8], head_bits: u64) -> Result<CentreField, McError> {
    let total_bits = head_bits;
    let mut hdr_reader = BitReader::new(head);
    /*@header*/
    centre_field(head, hdr_reader.bit_position())
}

/// The centre field as it was read, which the published header keeps only by its meaning: the first
/// two of the 15 bits that end the header.
fn centre_field(head: &[u8], hdr_bits: u64) -> Result<CentreField, McError> {
    let at = hdr_bits - 15;
    let mut r = BitReader::new(head);
    r.skip(at as u32).map_err(|_| McError::UnexpectedEnd)?;
    let code = read_u32(&mut r, 2, hdr_bits)?;
    Ok(CentreField { at, code })
}

/// Sources as the scope writes them, a hyphen where there is no main channel.
fn letters(sources: &[TcSource]) -> [u8; 3] {
    core::array::from_fn(|mch| match sources.get(mch) {
        Some(TcSource::Transmitted) => b'T',
        Some(TcSource::FromBase) => b'B',
        Some(TcSource::FromTc(i)) => b'0' + *i as u8,
        None => b'-',
    })
}

/// Which places a head leaves to be transmitted, crossed or barred.
pub fn reference_places(input: &FrameInput) -> Result<Places, McError> {
    let base = input.base();
    let (total_bits, head) = (input.head_bits, &input.head[..]);
    let mut hdr_reader = BitReader::new(head);
    /*@header*/
    let (packed, mc_bits) = (head, total_bits);
    /*@status*/
    /*@places*/
    Ok(Places {
        msblimit,
        nmch,
        dyn_cross,
        centre_limited,
    })
}

/// Reads the head and the payload, up to the samples; base values and state have no part in it.
pub fn reference_payload(input: &FrameInput) -> Result<PayloadOutput, McError> {
    let base = input.base();
    let (total_bits, head) = (input.head_bits, &input.head[..]);
    let mut hdr_reader = BitReader::new(head);
    /*@header*/
    let (packed, mc_bits) = (head, total_bits);
    /*@status*/
    /*@places*/
    let (mut r, limit) = (BitReader::new(&input.payload), input.payload_bits);
    /*@allocation*/
    /*@scfsi*/
    /*@record*/
    Ok(PayloadOutput {
        used: r.bit_position(),
        nb_steps: alloc,
        scfsi,
        delay_comp,
        pred_coef,
        lf_scalefactor,
        scalefactor,
        raw_mc,
        lfe_samples,
    })
}

/// The whole span, from the header bits to `out_sub`.
pub fn reference_span(
    input: &FrameInput,
    state: &mut McDecodeState,
) -> Result<SpanOutput, McError> {
    let base = input.base();
    let (total_bits, head) = (input.head_bits, &input.head[..]);
    let mut hdr_reader = BitReader::new(head);
    /*@header*/
    let (packed, mc_bits) = (head, total_bits);
    /*@status*/
    /*@places*/
    let head_used = r.bit_position();
    let (mut r, limit) = (BitReader::new(&input.payload), input.payload_bits);
    /*@allocation*/
    /*@scfsi*/
    /*@record*/
    /*@finish*/
    Ok(SpanOutput {
        head_used,
        payload_used: r.bit_position(),
        lfe_samples,
        raw_mc,
        scaled_mc,
        out_sub,
        layout,
    })
}

/// The LFE's requantiser, for codes of `nb` bits, 2 to 16.
pub fn reference_requantize_lfe(code: u32, nb: u32) -> f64 {
    requantize_lfe(code, nb)
}

/// An LFE sample as the span computes it, for an allocation of 1 to 15.
pub fn reference_lfe_sample(lfe_allocation: usize, lf_scalefactor: usize, code: u32) -> f64 {
    let lfe_bits = /*@lfe_bits*/;
    /*@lfe_sample*/
}

/// A coefficient as the span computes it from its byte.
pub fn reference_pred_coef(byte: u32) -> f64 {
    let v = byte as f64;
    /*@coefficient*/
}
