//! A small frame with all that is lent for it, wrong ones, layouts, histories, and what is asked of a
//! state.

#![allow(dead_code)] // A file of tests uses a part of it.

use koftabasin::{
    Answer, Buffers, Frame, LFE, McError, McState, OUTPUT, RAW, Used, decode, decode_packed,
};

/// Owns what is lent. A stereo base at 48,000 Hz with no centre and no surround: 35 head bits, no
/// payload.
#[derive(Clone)]
pub struct Lent {
    pub head: Vec<u8>,
    pub head_bits: usize,
    pub payload: Vec<u8>,
    pub reading: u32,
    pub desk: u32,
    pub rate: u32,
    pub base_channels: u8,
    pub base: [Vec<f64>; 4],
    pub base_nb_steps: Vec<u32>,
    pub lfe_allocation: u8,
    pub nb_steps: Vec<u32>,
    pub written: [Vec<f64>; 4],
}

impl Lent {
    pub fn smallest() -> Lent {
        Lent {
            head: vec![0; 5],
            head_bits: 35,
            payload: vec![],
            reading: 1,
            desk: 0,
            rate: 48_000,
            base_channels: 2,
            base: [0.25, 0.5, -1.0, 2.0].map(|value| vec![value; 1152]),
            base_nb_steps: vec![0; 64],
            lfe_allocation: 0,
            nb_steps: vec![0; 96],
            written: [RAW, RAW, OUTPUT, LFE].map(|length| vec![7.0; length]),
        }
    }

    /// A frame of this layout under this reading, with one tc.
    pub fn of_layout(layout: u8, reading: u32) -> Lent {
        let (front, surround) = (layout / 10, layout % 10);
        let mut lent = Lent::smallest();
        lent.head[0] = u8::from(front == 3) << 5 | surround << 3;
        lent.head[4] = 0x80;
        lent.head_bits += match (front, surround) {
            (3, 1 | 2) => 3,
            (3, _) | (2, 1 | 2) => 2,
            _ => 0,
        };
        lent.reading = reading;
        if front == 1 { lent.mono() } else { lent }
    }

    /// The same over one base channel.
    pub fn mono(mut self) -> Lent {
        self.base_channels = 1;
        self.base[1].clear();
        self.base[3].clear();
        self.base_nb_steps.truncate(32);
        self
    }

    /// The same of this desk.
    pub fn of_desk(mut self, desk: u32) -> Lent {
        self.desk = desk;
        self
    }

    pub fn decode(&mut self, state: &mut McState) -> Result<Used, McError> {
        self.lend(|frame, buffers| decode(state, frame, buffers))
    }

    pub fn decode_packed(&mut self, state: &mut McState) -> Answer {
        self.lend(|frame, buffers| decode_packed(state, frame, buffers))
    }

    fn lend<T>(&mut self, call: impl FnOnce(&Frame, &mut Buffers) -> T) -> T {
        let frame = Frame {
            head: &self.head,
            head_bits: self.head_bits,
            payload: &self.payload,
            payload_bits: 8 * self.payload.len(),
            reading: self.reading,
            desk: self.desk,
            rate: self.rate,
            base_channels: self.base_channels,
            raw_left: &self.base[0],
            raw_right: &self.base[1],
            scaled_left: &self.base[2],
            scaled_right: &self.base[3],
            base_nb_steps: &self.base_nb_steps,
            lfe_allocation: self.lfe_allocation,
            nb_steps: &self.nb_steps,
        };
        let [raw, work, output, lfe] = &mut self.written;
        let mut buffers = Buffers {
            raw,
            work,
            output,
            lfe,
        };
        call(&frame, &mut buffers)
    }

    /// No element of the buffers has changed.
    pub fn untouched(&self) -> bool {
        self.written.iter().flatten().all(|&value| value == 7.0)
    }
}

/// Changes a frame.
pub type Change = fn(&mut Lent);

/// Each makes a wrong loan of the smallest frame. Reading 257 has 1 in its lowest byte.
pub const WRONG_LOANS: [Change; 18] = [
    |lent| lent.head_bits = 41,
    |lent| lent.head = vec![0; 8193],
    |lent| lent.reading = 0,
    |lent| lent.reading = 3,
    |lent| lent.reading = 257,
    |lent| lent.reading = u32::MAX,
    |lent| lent.rate = 22_050,
    |lent| lent.base_channels = 3,
    |lent| lent.base_channels = 1,
    |lent| lent.lfe_allocation = 16,
    |lent| lent.base_nb_steps[63] = 4,
    |lent| lent.base_nb_steps.truncate(63),
    |lent| lent.nb_steps.push(0),
    |lent| lent.base[3].truncate(1151),
    |lent| lent.written[0].truncate(3455),
    |lent| lent.written[1].truncate(0),
    |lent| lent.written[2].push(7.0),
    |lent| lent.written[3].truncate(11),
];

/// Each layout with the number of its channels.
pub const LAYOUTS: [(u8, u8); 12] = [
    (10, 1),
    (11, 2),
    (12, 3),
    (13, 3),
    (20, 2),
    (21, 3),
    (22, 4),
    (23, 4),
    (30, 3),
    (31, 4),
    (32, 5),
    (33, 5),
];

/// Every layout length and layout, with whether a state may hold them: nothing, a lone length, or a
/// layout with its own.
pub fn every_held() -> impl Iterator<Item = (u8, u8, bool)> {
    let pairs = (0..=255).flat_map(|layout_len| (0..=255).map(move |layout| (layout_len, layout)));
    pairs.map(|(layout_len, layout)| {
        let right = match layout {
            0 => layout_len <= 5,
            _ => LAYOUTS.contains(&(layout, layout_len)),
        };
        (layout_len, layout, right)
    })
}

/// NaN of either sign, quiet and signalling, with payloads of one bit and of many; infinities; zeros of
/// both signs; a value within the bounds, and one beyond them.
const PATTERNS: [u64; 14] = [
    0x7FF8_0000_0000_0000,
    0xFFF8_0000_0000_0000,
    0x7FF0_0000_0000_0001,
    0xFFF0_0000_0000_0001,
    0x7FF7_FFFF_FFFF_FFFF,
    0xFFF4_0000_DEAD_BEEF,
    0x7FFF_FFFF_FFFF_FFFF,
    0xFFF8_1234_5678_9ABC,
    0x7FF0_0000_0000_0000,
    0xFFF0_0000_0000_0000,
    0x8000_0000_0000_0000,
    0x0000_0000_0000_0000,
    0xBFE0_0000_0000_0000,
    0x7E37_E43C_8800_759C,
];

/// Each pattern in turn, over a whole history.
pub fn pattern_bits() -> [u64; 576] {
    std::array::from_fn(|k| PATTERNS[k % PATTERNS.len()])
}

/// Desk 0 has this tally, the others none.
pub const fn first(accepted: u32) -> [u32; 8] {
    [accepted, 0, 0, 0, 0, 0, 0, 0]
}

/// Layout length, layout and desk 0's tally; the other desks have none.
pub fn held(state: &McState) -> (u8, u8, u32) {
    let tally = state.accepted()[0];
    assert_eq!(state.accepted(), &first(tally));
    (state.layout_len(), state.layout(), tally)
}

pub fn history_bits(state: &McState) -> [u64; 576] {
    state.history().map(f64::to_bits)
}
