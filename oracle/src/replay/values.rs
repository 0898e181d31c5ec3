//! Base values and histories from a seed, and hashes of floats, each in a few steps on 64-bit numbers.

use crate::scope::{Buffers, State};

/// Draws values: xorshift64, from a seed that is not 0.
#[derive(Debug, Clone)]
pub struct Values(u64);

impl Values {
    pub fn new(seed: u64) -> Values {
        Values(seed)
    }

    /// A multiple of 2^-20 from -4 to 4: one in 16 is a zero, one in 16 a bound, half are negative.
    pub fn draw(&mut self) -> f64 {
        self.0 ^= self.0 << 13;
        self.0 ^= self.0 >> 7;
        self.0 ^= self.0 << 17;
        let k = match self.0 & 15 {
            0 => 0,
            1 => 4_194_304,
            _ => (self.0 >> 8) % 4_194_305,
        };
        let value = k as f64 / 1_048_576.0;
        if self.0 >> 4 & 1 == 1 { -value } else { value }
    }

    pub fn many(&mut self, count: usize) -> Vec<f64> {
        (0..count).map(|_| self.draw()).collect()
    }
}

/// FNV-1a over the bytes of 64-bit numbers, lowest byte first.
#[derive(Debug, Clone, Copy)]
pub struct Hash(pub u64);

impl Hash {
    pub fn new() -> Hash {
        Hash(0xCBF2_9CE4_8422_2325)
    }

    pub fn number(mut self, number: u64) -> Hash {
        for byte in number.to_le_bytes() {
            self.0 = (self.0 ^ u64::from(byte)).wrapping_mul(0x100_0000_01B3);
        }
        self
    }

    /// Bit patterns in order; any NaN counts as the one of this pattern.
    pub fn floats(self, values: &[f64]) -> Hash {
        let bits = values.iter().map(|value| match value.is_nan() {
            true => 0x7FF8_0000_0000_0000,
            false => value.to_bits(),
        });
        bits.fold(self, Hash::number)
    }
}

impl Default for Hash {
    fn default() -> Hash {
        Hash::new()
    }
}

/// The hashes of raw, work, output and lfe.
pub fn buffer_hashes(buffers: &Buffers) -> [u64; 4] {
    let Buffers {
        raw,
        work,
        output,
        lfe,
    } = buffers;
    [raw, work, output, lfe].map(|values| Hash::new().floats(values).0)
}

/// The hash of a state: its history, its layout count, its layout and its tallies.
pub fn state_hash(state: &State) -> u64 {
    let history = Hash::new().floats(&state.history);
    let numbers = [state.count, state.layout]
        .into_iter()
        .chain(state.accepted);
    numbers.map(u64::from).fold(history, Hash::number).0
}
