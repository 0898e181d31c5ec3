//! The published Rust's side of a payload: its record in flat tables, and the answer in one number.

use oracle::audio_data::Scfsi;
use oracle::flat;
use oracle::scope::{Refusal, State, judge};
use oracle::{FrameInput, FrameOutput};

/// The record in the shapes of the call's buffers.
pub struct Record {
    /// Scfsi codes by subband and channel; delays by group and predictor; scalefactor indices by
    /// subband, channel and part.
    pub bytes: [Vec<u8>; 3],
    /// By subband, channel and granule; not the published Rust's.
    pub excesses: Vec<u16>,
    /// Coefficients by group and predictor; raw values by channel, slot and subband; LFE values.
    pub floats: [Vec<f64>; 3],
}

impl Record {
    /// Places without a step count have no field, and the call's tables hold 0 for them.
    pub fn of(frame: &FrameOutput) -> Record {
        let payload = &frame.payload;
        let places = (0..96).map(|k| (k % 3, k / 3));
        let (mut scfsi, mut scalefactors) = (vec![0; 96], vec![0; 288]);
        for (place, (channel, subband)) in places.enumerate() {
            if payload.nb_steps[channel][subband] != 0 {
                scfsi[place] = code(payload.scfsi[channel][subband]);
                let indices = &payload.scalefactor[channel][subband];
                scalefactors[3 * place..3 * place + 3].copy_from_slice(indices);
            }
        }
        let delays = payload.delay_comp.as_flattened();
        let coefs = payload.pred_coef.as_flattened().as_flattened();
        let raw = payload.raw_mc.iter().flatten().flatten();
        let mut raw: Vec<f64> = raw.copied().collect();
        raw.resize(3456, 0.0);
        Record {
            bytes: [
                scfsi,
                delays.iter().map(|delay| *delay as u8).collect(),
                scalefactors,
            ],
            excesses: frame.excesses.table.clone(),
            floats: [coefs.to_vec(), raw, payload.lfe_samples.clone()],
        }
    }
}

/// The code of two bits that the Rust has read.
fn code(scfsi: Scfsi) -> u8 {
    match scfsi {
        Scfsi::ThreePerGranule => 0,
        Scfsi::Share01Then2 => 1,
        Scfsi::ShareAll => 2,
        Scfsi::Share0Then12 => 3,
    }
}

/// What the scope and the Rust say of what is lent. Refusals 5 and 7 come from a state and from
/// base values; the state is a fresh one, and the base is silent.
pub fn judged(input: &FrameInput) -> Result<FrameOutput, Refusal> {
    let answer = judge(input, &mut State::fresh());
    if let Err(refusal) = &answer {
        assert!(!matches!(refusal.number, 5 | 7), "{refusal:?}");
    }
    answer
}

/// The answer as the call packs it.
pub fn packed(answer: &Result<FrameOutput, Refusal>) -> u64 {
    match answer {
        Ok(frame) => {
            let payload = &frame.payload;
            let index = payload.lf_scalefactor as u64;
            payload.used << 8 | index << 32 | u64::from(frame.excesses.codes()) << 40
        }
        Err(_) => flat::packed(answer),
    }
}
