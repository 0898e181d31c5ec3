//! Payloads: what stands from the scfsi codes on, at random and written down. The codes are kept as
//! they go on the wire.

use super::layout::{STEPS, code_width, grouped};
use super::random::Random;

/// The fields of a payload, by channel and subband. Those of places that have none are kept too, and
/// do not reach the wire.
#[derive(Debug, Clone, PartialEq, Eq)]
pub struct Payload {
    pub lfe_allocation: u32,
    /// Step counts of the transmitted places, 0 elsewhere.
    pub steps: [[u32; 32]; 3],
    pub scfsi: [[u32; 32]; 3],
    pub delays: [[u32; 6]; 8],
    /// Coefficient bytes.
    pub coefficients: [[[u32; 3]; 6]; 8],
    pub lfe_scalefactor: u32,
    /// Scalefactors by part of the frame; where parts share one, the first of them is written.
    pub scalefactors: [[[u32; 3]; 32]; 3],
    pub lfe_codes: [u32; 12],
    /// By granule, channel and subband: three sample codes, or a group code in the first.
    pub codes: Vec<[[[u32; 3]; 32]; 3]>,
}

impl Payload {
    /// No allocations, and zeros elsewhere.
    pub fn empty() -> Payload {
        Payload {
            lfe_allocation: 0,
            steps: [[0; 32]; 3],
            scfsi: [[0; 32]; 3],
            delays: [[0; 6]; 8],
            coefficients: [[[0; 3]; 6]; 8],
            lfe_scalefactor: 0,
            scalefactors: [[[0; 3]; 32]; 3],
            lfe_codes: [0; 12],
            codes: vec![[[[0; 3]; 32]; 3]; 12],
        }
    }

    /// Random step counts for the places of which `transmitted` is true, and random codes for them
    /// and for all else. Excess group codes are among them.
    pub fn random(
        random: &mut Random,
        lfe: bool,
        transmitted: impl Fn(usize, usize) -> bool,
    ) -> Payload {
        let mut payload = Payload::empty();
        if lfe {
            payload.lfe_allocation = random.below(16);
        }
        let pool = StepPool::random(random);
        for channel in 0..3 {
            for subband in 0..32 {
                if transmitted(channel, subband) {
                    payload.steps[channel][subband] = pool.pick(random);
                }
            }
        }
        payload.scfsi = [(); 3].map(|_| [(); 32].map(|_| random.below(4)));
        payload.delays = [(); 8].map(|_| [(); 6].map(|_| random.below(8)));
        payload.coefficients = [(); 8].map(|_| [(); 6].map(|_| [(); 3].map(|_| byte(random))));
        payload.lfe_scalefactor = random.below(63);
        payload.scalefactors = [(); 3].map(|_| [(); 32].map(|_| [(); 3].map(|_| random.below(63))));
        payload.lfe_codes = [(); 12].map(|_| random.below(2 << payload.lfe_allocation));
        for granule in 0..12 {
            for channel in 0..3 {
                for subband in 0..32 {
                    let steps = payload.steps[channel][subband];
                    payload.codes[granule][channel][subband] = codes(random, steps);
                }
            }
        }
        payload
    }
}

/// From which step counts are drawn, and how many of 16 places have one.
pub struct StepPool {
    steps: &'static [u32],
    filled: u32,
}

impl StepPool {
    pub fn random(random: &mut Random) -> StepPool {
        let one = random.below(17) as usize;
        let pools = [&STEPS[..], &STEPS[..4], &STEPS[one..=one], &STEPS[10..]];
        StepPool {
            steps: random.pick(&pools),
            filled: random.pick(&[0, 1, 4, 8, 12, 15, 16, 16]),
        }
    }

    /// 0 or a step count.
    pub fn pick(&self, random: &mut Random) -> u32 {
        if random.chance(self.filled, 16) {
            random.pick(self.steps)
        } else {
            0
        }
    }
}

/// A coefficient byte; the ends and the one of value 0 are frequent.
fn byte(random: &mut Random) -> u32 {
    match random.below(8) {
        0 => random.pick(&[0, 126, 127, 128, 255]),
        _ => random.below(256),
    }
}

/// Three codes of the class's width, or one group code; the lowest and highest are frequent.
fn codes(random: &mut Random, steps: u32) -> [u32; 3] {
    if steps == 0 {
        return [0; 3];
    }
    let end = 1 << code_width(steps);
    let mut code = || match random.below(16) {
        0 => 0,
        1 => end - 1,
        2 => end / 2,
        _ => random.below(end),
    };
    match grouped(steps) {
        true => [code(), 0, 0],
        false => [code(), code(), code()],
    }
}
