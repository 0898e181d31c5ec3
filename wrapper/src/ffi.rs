//! The library's four functions, as include/koftabasin.h declares them. What they promise stands there.

/// What passes from frame to frame.
#[repr(C)]
#[derive(Debug, Clone, PartialEq)]
pub struct McDecodeState {
    pub pred_hist: [f64; 576],
    pub layout_len: u8,
    pub layout: u8,
    pub accepted: [u32; 8],
}

unsafe extern "C" {
    pub fn mc_fresh_state_desks(state: *mut McDecodeState) -> u32;

    pub fn mc_carry_state_desks(state: *mut McDecodeState) -> u32;

    pub fn mc_convert_state(
        state: *mut McDecodeState,
        pred_hist: *const f64,
        pred_hist_len: usize,
        layout_len: u8,
        layout: u8,
        accepted: u32,
    ) -> u32;

    pub fn mc_decode_frame_excess(
        state: *mut McDecodeState,
        head: *const u8,
        head_len: usize,
        head_bits: usize,
        payload: *const u8,
        payload_len: usize,
        payload_bits: usize,
        reading: u32,
        desk: u32,
        rate: u32,
        base_channels: u8,
        raw_left: *const f64,
        raw_left_len: usize,
        raw_right: *const f64,
        raw_right_len: usize,
        scaled_left: *const f64,
        scaled_left_len: usize,
        scaled_right: *const f64,
        scaled_right_len: usize,
        base_nb_steps: *const u32,
        base_nb_steps_len: usize,
        lfe_allocation: u8,
        nb_steps: *const u32,
        nb_steps_len: usize,
        raw: *mut f64,
        raw_len: usize,
        work: *mut f64,
        work_len: usize,
        output: *mut f64,
        output_len: usize,
        lfe: *mut f64,
        lfe_len: usize,
    ) -> u64;
}

#[cfg(test)]
mod tests {
    use super::{McDecodeState, mc_carry_state_desks, mc_convert_state, mc_fresh_state_desks};
    use core::array::from_fn;
    use core::mem::offset_of;

    /// As many bytes as a state has, aligned as one.
    type Bytes = [u64; 581];

    const TALLIES: [u32; 8] = [
        0x0102_0304,
        1,
        0xFFFF_FFFF,
        0x0506_0708,
        0,
        0x8000_0000,
        0x090A_0B0C,
        0xFFFF_FFFE,
    ];

    /// The bytes of a state with its fields at these offsets. The two bytes before the tallies and the
    /// four after them, which belong to no field, have a pattern.
    fn bytes(history: [u64; 576], layout_len: u8, layout: u8, accepted: [u32; 8]) -> Bytes {
        let mut last = [[0x5A; 4]; 10];
        last[0][..2].copy_from_slice(&[layout_len, layout]);
        for (tally, number) in last[1..].iter_mut().zip(accepted) {
            *tally = number.to_ne_bytes();
        }
        let mut bytes = [0; 581];
        bytes[..576].copy_from_slice(&history);
        let words = last.as_flattened().chunks_exact(8);
        for (place, word) in bytes[576..].iter_mut().zip(words) {
            *place = u64::from_ne_bytes(word.try_into().unwrap());
        }
        bytes
    }

    /// The same with 0 in those six bytes.
    fn fields(mut bytes: Bytes) -> Bytes {
        bytes[576] &= u64::from_ne_bytes([255, 255, 0, 0, 255, 255, 255, 255]);
        bytes[580] &= u64::from_ne_bytes([255, 255, 255, 255, 0, 0, 0, 0]);
        bytes
    }

    /// Signalling NaN, another in every place.
    fn signalling() -> [u64; 576] {
        from_fn(|place| 0x7FF0_0000_0000_0001 + place as u64)
    }

    fn carry(state: &mut Bytes) -> u32 {
        // SAFETY: the bytes are as many as a state has, and aligned as one.
        unsafe { mc_carry_state_desks(state.as_mut_ptr().cast()) }
    }

    fn convert(state: &mut Bytes, history: &[u64], (layout_len, layout): (u8, u8)) -> u32 {
        let (to, from) = (state.as_mut_ptr().cast(), history.as_ptr().cast());
        // SAFETY: the bytes are as many as a state has, and aligned as one; the history has this length
        // and lies elsewhere.
        unsafe { mc_convert_state(to, from, history.len(), layout_len, layout, 0x0D0E_0F10) }
    }

    #[test]
    fn size_and_offsets() {
        assert_eq!(size_of::<McDecodeState>(), 4648);
        assert_eq!(size_of::<McDecodeState>(), size_of::<Bytes>());
        assert_eq!(align_of::<McDecodeState>(), 8);
        assert_eq!(offset_of!(McDecodeState, pred_hist), 0);
        assert_eq!(offset_of!(McDecodeState, layout_len), 4608);
        assert_eq!(offset_of!(McDecodeState, layout), 4609);
        assert_eq!(offset_of!(McDecodeState, accepted), 4612);
    }

    /// It clears every field, and carrying clears the layout alone, whatever the bits of the history.
    #[test]
    fn library_has_the_same_offsets() {
        let mut state = bytes([u64::MAX; 576], 255, 255, [u32::MAX; 8]);
        // SAFETY: the bytes are as many as a state has, and aligned as one.
        let answer = unsafe { mc_fresh_state_desks(state.as_mut_ptr().cast()) };
        assert_eq!((answer, fields(state)), (0, [0; 581]));
        for history in [signalling(), [0xFFF8_1234_5678_9ABC; 576], [1 << 63; 576]] {
            let mut state = bytes(history, 4, 31, TALLIES);
            assert_eq!(carry(&mut state), 0);
            let carried = bytes(history, 4, 0, TALLIES);
            assert_eq!(fields(state), fields(carried));
        }
    }

    #[test]
    fn refused_carrying_leaves_every_byte() {
        for (layout_len, layout) in [(6, 0), (255, 31), (4, 34), (0, 10), (5, 31)] {
            let before = bytes(signalling(), layout_len, layout, TALLIES);
            let mut state = before;
            assert_eq!(carry(&mut state), 6);
            assert_eq!(state, before);
        }
    }

    /// In place of any state, even one that is itself refused; desk 0 alone has the tally.
    #[test]
    fn converted_state_is_that_of_its_fields() {
        for history in [signalling(), [0xFFF8_1234_5678_9ABC; 576], [1 << 63; 576]] {
            for held in [(0, 0), (5, 0), (4, 31), (3, 13)] {
                let mut state = bytes([u64::MAX; 576], 255, 255, TALLIES);
                assert_eq!(convert(&mut state, &history, held), 0);
                let tallies = [0x0D0E_0F10, 0, 0, 0, 0, 0, 0, 0];
                let converted = bytes(history, held.0, held.1, tallies);
                assert_eq!(fields(state), fields(converted));
            }
        }
    }

    #[test]
    fn refused_conversion_leaves_every_byte() {
        let before = bytes(signalling(), 2, 20, TALLIES);
        let mut state = before;
        for held in [(6, 0), (255, 31), (4, 34), (0, 10), (5, 31)] {
            assert_eq!(convert(&mut state, &[1; 576], held), 6);
            assert_eq!(state, before);
        }
        for length in [0, 575, 577] {
            assert_eq!(convert(&mut state, &[1; 577][..length], (2, 20)), 6);
            assert_eq!(state, before);
        }
    }
}
