//! Base values, base step counts and histories.

use super::payload::StepPool;
use super::random::Random;
use crate::input::Slots;

/// What the base lends: values and step counts by channel.
#[derive(Debug, Clone, PartialEq)]
pub struct Base {
    pub raw: Vec<Slots>,
    pub scaled: Vec<Slots>,
    pub steps: [[u32; 32]; 2],
}

impl Base {
    /// All values +0 and no allocations.
    pub fn silent(channels: usize) -> Base {
        Base {
            raw: vec![vec![[0.0; 32]; 36]; channels],
            scaled: vec![vec![[0.0; 32]; 36]; channels],
            steps: [[0; 32]; 2],
        }
    }

    /// Raw and scaled values are drawn apart; step counts stand in all 32 subbands.
    pub fn random(random: &mut Random, channels: usize) -> Base {
        let pool = StepPool::random(random);
        let mut base = Base::silent(channels);
        let (raw, scaled) = (base.raw.iter_mut(), base.scaled.iter_mut());
        for slot in raw.chain(scaled).flatten() {
            *slot = [(); 32].map(|_| value(random));
        }
        for steps in &mut base.steps[..channels] {
            *steps = [(); 32].map(|_| pool.pick(random));
        }
        base
    }
}

/// A value from -4 to 4. One in four is special: a zero of either sign, a bound, a subnormal number
/// or one next to these; of the others half are spread evenly and half over many exponents.
pub fn value(random: &mut Random) -> f64 {
    const SPECIAL: [f64; 8] = [
        0.0,
        -0.0,
        4.0,
        -4.0,
        f64::MIN_POSITIVE,
        1.0,
        -1.0,
        f64::EPSILON,
    ];
    let sign = (random.bits64() >> 63) << 63;
    let fraction = random.bits64() >> 12;
    match random.below(16) {
        0..=1 => random.pick(&SPECIAL),
        2 => f64::from_bits(sign | fraction),
        3 => f64::from_bits(sign | (random.pick(&SPECIAL).abs().to_bits().max(1) - 1)),
        4..=9 => ((random.bits64() >> 11) as f64 / (1u64 << 53) as f64 - 0.5) * 8.0,
        _ => {
            let exponent = u64::from(1024 - random.below(64));
            f64::from_bits(sign | (exponent << 52) | fraction)
        }
    }
}

/// A history of 576 values.
pub fn history(random: &mut Random) -> Vec<f64> {
    (0..576).map(|_| value(random)).collect()
}
