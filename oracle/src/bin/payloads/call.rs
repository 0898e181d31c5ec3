//! The proved side of a payload: buffers with a pattern in and around them, the call, and what it
//! left behind.

use crate::record::Record;
use oracle::FrameInput;
use oracle::flat::Flat;

mod proved {
    unsafe extern "C" {
        /// Reads the head, then unpacks the payload under it into the seven buffers. The answer has
        /// the refusal's number in bits 0 to 7. Accepted: used payload bits in bits 8 to 31, the
        /// LFE's scalefactor index in bits 32 to 39, the number of group codes with an excess in bits
        /// 40 to 63. Refused: the group in bits 8 to 31, the code in bits 32 to 63.
        pub fn mc_part_unpack(
            head: *const u8,
            head_len: usize,
            head_bits: usize,
            payload: *const u8,
            payload_len: usize,
            payload_bits: usize,
            reading: u32,
            rate: u32,
            base_channels: u8,
            lfe_allocation: u8,
            nb_steps: *const u32,
            nb_steps_len: usize,
            base_nb_steps: *const u32,
            base_nb_steps_len: usize,
            scfsi: *mut u8,
            scfsi_len: usize,
            delays: *mut u8,
            delays_len: usize,
            coefs: *mut f64,
            coefs_len: usize,
            scalefactors: *mut u8,
            scalefactors_len: usize,
            excesses: *mut u16,
            excesses_len: usize,
            raw: *mut f64,
            raw_len: usize,
            lfe: *mut f64,
            lfe_len: usize,
        ) -> u64;
    }
}

/// The buffers, those of bytes first, then that of excesses, and their lengths.
pub const BUFFERS: [(&str, usize); 7] = [
    ("scfsi", 96),
    ("delays", 48),
    ("scalefactors", 288),
    ("excesses", 1152),
    ("coefficients", 144),
    ("raw", 3456),
    ("lfe", 12),
];

/// Elements before and after each buffer, which no call may write.
pub const MARGIN: usize = 8;

/// What lies in a buffer of bytes before a call: no scalefactor index, scfsi code or delay.
fn byte(at: usize) -> u8 {
    0x80 | at as u8
}

/// What lies in the buffer of excesses before a call: no excess.
fn excess(at: usize) -> u16 {
    0x8000 | at as u16
}

/// What lies in a buffer of floats before a call.
fn float(at: usize) -> f64 {
    f64::from_bits(0x4321_0000_0000_0000 + at as u64)
}

/// The seven buffers, each with its margins.
pub struct Buffers {
    bytes: [Vec<u8>; 3],
    excesses: Vec<u16>,
    floats: [Vec<f64>; 3],
}

impl Buffers {
    pub fn new() -> Buffers {
        let room = |k: usize| 0..BUFFERS[k].1 + 3 * MARGIN;
        Buffers {
            bytes: [0, 1, 2].map(|k| room(k).map(byte).collect()),
            excesses: room(3).map(excess).collect(),
            floats: [4, 5, 6].map(|k| room(k).map(float).collect()),
        }
    }

    /// Calls the library, with buffers of these lengths, at most a margin above the right ones.
    pub fn call(&mut self, input: &FrameInput, flat: &Flat, lengths: [usize; 7]) -> u64 {
        let start = |k: usize| MARGIN..MARGIN + lengths[k];
        let [scfsi, delays, scalefactors] = &mut self.bytes;
        let [coefs, raw, lfe] = &mut self.floats;
        let (scfsi, delays) = (&mut scfsi[start(0)], &mut delays[start(1)]);
        let scalefactors = &mut scalefactors[start(2)];
        let excesses = &mut self.excesses[start(3)];
        let (coefs, raw, lfe) = (&mut coefs[start(4)], &mut raw[start(5)], &mut lfe[start(6)]);
        // SAFETY: each pointer comes with the length of its slice, and the function takes any.
        unsafe {
            proved::mc_part_unpack(
                input.head.as_ptr(),
                input.head.len(),
                input.head_bits as usize,
                input.payload.as_ptr(),
                input.payload.len(),
                input.payload_bits as usize,
                input.reading,
                input.sample_rate,
                input.base_channels as u8,
                input.lfe_allocation as u8,
                flat.nb_steps.as_ptr(),
                flat.nb_steps.len(),
                flat.base_nb_steps.as_ptr(),
                flat.base_nb_steps.len(),
                scfsi.as_mut_ptr(),
                scfsi.len(),
                delays.as_mut_ptr(),
                delays.len(),
                coefs.as_mut_ptr(),
                coefs.len(),
                scalefactors.as_mut_ptr(),
                scalefactors.len(),
                excesses.as_mut_ptr(),
                excesses.len(),
                raw.as_mut_ptr(),
                raw.len(),
                lfe.as_mut_ptr(),
                lfe.len(),
            )
        }
    }

    /// The buffers hold this record, or without one are untouched, and so are their margins. Then the
    /// pattern is put back.
    pub fn compare(&mut self, wanted: Option<&Record>) -> Result<(), String> {
        for (k, buffer) in self.bytes.iter_mut().enumerate() {
            let values = wanted.map(|record| record.bytes[k].as_slice());
            same(BUFFERS[k].0, buffer, values, byte, u64::from)?;
        }
        let values = wanted.map(|record| record.excesses.as_slice());
        same(BUFFERS[3].0, &mut self.excesses, values, excess, u64::from)?;
        for (k, buffer) in self.floats.iter_mut().enumerate() {
            let values = wanted.map(|record| record.floats[k].as_slice());
            same(BUFFERS[4 + k].0, buffer, values, float, f64::to_bits)?;
        }
        Ok(())
    }
}

/// A buffer holds these values in all bits, else the pattern, and the pattern in its margins.
fn same<T: Copy + std::fmt::Debug>(
    name: &str,
    buffer: &mut [T],
    wanted: Option<&[T]>,
    pattern: fn(usize) -> T,
    bits: fn(T) -> u64,
) -> Result<(), String> {
    let values = wanted.unwrap_or(&[]);
    for (at, held) in buffer.iter_mut().enumerate() {
        let value = at.checked_sub(MARGIN).and_then(|k| values.get(k));
        let wanted = value.copied().unwrap_or(pattern(at));
        if bits(*held) != bits(wanted) {
            let place = at as i64 - MARGIN as i64;
            let untouched = if value.is_none() { " (untouched)" } else { "" };
            return Err(format!(
                "{name}[{place}]: found {held:?}, wanted {wanted:?}{untouched}"
            ));
        }
        *held = pattern(at);
    }
    Ok(())
}
