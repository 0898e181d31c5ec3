//! The proved reader of Layer II multichannel extension frames (ISO/IEC 13818-3), for Rust.
//!
//! Everything is lent by slices whose lengths are handed over with them; a wrong length is refused like
//! any other wrong argument. A call allocates nothing. include/koftabasin.h says the same for C.
//!
//! ```
//! use koftabasin::{Buffers, Frame, McState, OUTPUT, RAW, decode};
//!
//! let (mut raw, mut work) = ([0.0; RAW], [0.0; RAW]);
//! let (mut output, mut lfe) = ([0.0; OUTPUT], [0.0; 12]);
//! let base = [0.25; 1152];
//! // A mono base and no extension channel: 16 header bits, 16 of the check word, 3 status flags.
//! let frame = Frame {
//!     head: &[0; 5],
//!     head_bits: 35,
//!     payload: &[],
//!     payload_bits: 0,
//!     reading: 1,
//!     desk: 3,
//!     rate: 48_000,
//!     base_channels: 1,
//!     raw_left: &base,
//!     raw_right: &[],
//!     scaled_left: &base,
//!     scaled_right: &[],
//!     base_nb_steps: &[0; 32],
//!     lfe_allocation: 0,
//!     nb_steps: &[0; 96],
//! };
//! let mut buffers = Buffers {
//!     raw: &mut raw,
//!     work: &mut work,
//!     output: &mut output,
//!     lfe: &mut lfe,
//! };
//! let mut state = McState::new();
//! let used = decode(&mut state, &frame, &mut buffers)?;
//! assert_eq!((used.head_bits, used.payload_bits, used.excess_codes), (35, 0, 0));
//! assert_eq!(state.accepted(), &[0, 0, 0, 1, 0, 0, 0, 0]);
//! assert_eq!(output[0], 0.25);
//! # Ok::<(), koftabasin::McError>(())
//! ```

#![no_std]

mod answer;
mod ffi;

pub use answer::{Answer, McError, Used};

/// The length of `Buffers::raw` and of `Buffers::work`.
pub const RAW: usize = 3456;
/// The length of `Buffers::output`.
pub const OUTPUT: usize = 5760;
/// The length of `Buffers::lfe`.
pub const LFE: usize = 12;

/// What passes from frame to frame: the base's last nine slots, the number of output channels, their
/// layout where it is known, and each desk's number of accepted frames. All but the last is common to the
/// desks. A state may be lent under another reading than before, as it is or after [`McState::carry`].
#[derive(Debug, Clone, PartialEq)]
pub struct McState(ffi::McDecodeState);

impl McState {
    /// The state before the first frame of a stream.
    pub fn new() -> McState {
        let mut state = McState::with([0.0; 576], 0, 0, [0; 8]);
        state.reset();
        state
    }

    /// A state as it was: history, layout length, layout and accepted frames by desk. The reader refuses
    /// a history value beyond -4 to 4, a layout length beyond 5, a layout that no header gives, and a
    /// layout with another length than its own.
    pub const fn with(
        pred_hist: [f64; 576],
        layout_len: u8,
        layout: u8,
        accepted: [u32; 8],
    ) -> McState {
        McState(ffi::McDecodeState {
            pred_hist,
            layout_len,
            layout,
            accepted,
        })
    }

    /// A state of before there were desks, by its fields: keeps the history, 576 values, bit for bit,
    /// whatever they are, the layout length and the layout, and gives desk 0 the accepted frames, the
    /// others none. Where states held no layout yet, it is 0.
    ///
    /// The one refusal is [`McError::InvalidArgument`], of a history of another length and of what
    /// [`McState::carry`] refuses.
    pub fn convert(
        pred_hist: &[f64],
        layout_len: u8,
        layout: u8,
        accepted: u32,
    ) -> Result<McState, McError> {
        let mut state = McState::new();
        let (values, length) = (pred_hist.as_ptr(), pred_hist.len());
        // SAFETY: the reference is to a whole state, with the fields where the library has them; the
        // pointer comes with the length of its slice, which the new state does not overlap.
        let answer = unsafe {
            ffi::mc_convert_state(&mut state.0, values, length, layout_len, layout, accepted)
        };
        Answer(answer.into()).result().map(|_| state)
    }

    /// Makes the state that of a new stream.
    pub fn reset(&mut self) {
        // SAFETY: the reference is to a whole state, with the fields where the library has them.
        unsafe {
            ffi::mc_fresh_state_desks(&mut self.0);
        }
    }

    /// Carries the state: keeps the history bit for bit, whatever its values, the layout length and the
    /// accepted frames of all desks, and forgets the layout. It is called when a stream goes on under
    /// reading 2 with what reading 1, or an earlier layout, left: the next frame may then have any layout
    /// of that length, and any at all where the length is 0. A state may also be lent under another
    /// reading without it; a known layout then stays what reading 2 compares.
    ///
    /// The one refusal is [`McError::InvalidArgument`], of a layout length beyond 5, a layout that no
    /// header gives, or a layout with another length than its own; the state is then as it was.
    pub fn carry(&mut self) -> Result<(), McError> {
        // SAFETY: the reference is to a whole state, with the fields where the library has them.
        let answer = unsafe { ffi::mc_carry_state_desks(&mut self.0) };
        Answer(answer.into()).result().map(|_| ())
    }

    /// The base's last nine scaled slots, at `(base * 32 + subband) * 9 + k`, oldest first.
    pub fn history(&self) -> &[f64; 576] {
        &self.0.pred_hist
    }

    /// The number of output channels of the stream, 0 before its first frame.
    pub fn layout_len(&self) -> u8 {
        self.0.layout_len
    }

    /// The layout of the stream, 0 where it is not known, else 10 * front + surround code: front is 1 for
    /// a mono base, 3 with a centre and 2 without, the surround code is the header's, 3 for a second
    /// stereo programme. An accepted frame stores its layout under reading 2 and leaves this as it was
    /// under reading 1.
    pub fn layout(&self) -> u8 {
        self.0.layout
    }

    /// Accepted frames by desk, each staying at its greatest number.
    pub fn accepted(&self) -> &[u32; 8] {
        &self.0.accepted
    }
}

impl Default for McState {
    fn default() -> McState {
        McState::new()
    }
}

/// What is lent to a frame and only read.
#[derive(Debug, Clone, Copy)]
pub struct Frame<'a> {
    /// Header, check word (not verified) and composite status, first bit highest; at most 8,192 bytes.
    pub head: &'a [u8],
    /// At most eight times the bytes.
    pub head_bits: usize,
    /// From the scfsi codes on; at most 8,192 bytes.
    pub payload: &'a [u8],
    /// At most eight times the bytes.
    pub payload_bits: usize,
    /// The reading of the transfer guide, 1 or 2. Reading 1 is the standard's text as the published
    /// Rust takes it. Under reading 2 a header with centre code 2 is refused, and centre code 3 bars no
    /// place over one base channel, where reading 1 bars second left from subband 12 on. Reading 1
    /// compares the number of output channels with the state's and leaves the state's layout as it was;
    /// reading 2 compares the layout where the state knows it, else the number, and an accepted frame
    /// stores its layout.
    pub reading: u32,
    /// The desk that the frame is of, 0 to 7. It decides whose accepted frames rise, and nothing else.
    pub desk: u32,
    /// 32,000, 44,100 or 48,000.
    pub rate: u32,
    /// 1 or 2; with one the right-hand slices are empty.
    pub base_channels: u8,
    /// Requantised base values, 36 slots of 32 subbands, from -4 to 4.
    pub raw_left: &'a [f64],
    pub raw_right: &'a [f64],
    /// The same, scaled.
    pub scaled_left: &'a [f64],
    pub scaled_right: &'a [f64],
    /// Step counts of the base, 32 for each channel.
    pub base_nb_steps: &'a [u32],
    /// 0 to 15.
    pub lfe_allocation: u8,
    /// Step counts of the three extension channels, 32 each, 0 where none is transmitted.
    pub nb_steps: &'a [u32],
}

/// What an accepted frame writes, every element of it, and a refused one leaves alone.
#[derive(Debug)]
pub struct Buffers<'a> {
    /// Transmitted samples, at `(36 * channel + slot) * 32 + subband`; [`RAW`] values.
    pub raw: &'a mut [f64],
    /// Scaled and predicted values, likewise.
    pub work: &'a mut [f64],
    /// Subbands of the output channels, likewise; [`OUTPUT`] values.
    pub output: &'a mut [f64],
    /// [`LFE`] samples.
    pub lfe: &'a mut [f64],
}

/// Reads one frame. A refusal leaves the buffers and the state as they were, but that
/// [`McError::ConfigChanged`] has stored the base's last nine slots in the history.
pub fn decode(
    state: &mut McState,
    frame: &Frame<'_>,
    buffers: &mut Buffers<'_>,
) -> Result<Used, McError> {
    decode_packed(state, frame, buffers).result()
}

/// [`decode`] with its answer in one number.
pub fn decode_packed(state: &mut McState, frame: &Frame<'_>, buffers: &mut Buffers<'_>) -> Answer {
    // SAFETY: each pointer comes with the length of the slice that it is from, what is written is
    // borrowed mutably and so overlaps nothing, and the library takes any lengths and numbers.
    #[rustfmt::skip]
    let answer = unsafe {
        ffi::mc_decode_frame_excess(
            &mut state.0,
            frame.head.as_ptr(), frame.head.len(), frame.head_bits,
            frame.payload.as_ptr(), frame.payload.len(), frame.payload_bits,
            frame.reading,
            frame.desk,
            frame.rate,
            frame.base_channels,
            frame.raw_left.as_ptr(), frame.raw_left.len(),
            frame.raw_right.as_ptr(), frame.raw_right.len(),
            frame.scaled_left.as_ptr(), frame.scaled_left.len(),
            frame.scaled_right.as_ptr(), frame.scaled_right.len(),
            frame.base_nb_steps.as_ptr(), frame.base_nb_steps.len(),
            frame.lfe_allocation,
            frame.nb_steps.as_ptr(), frame.nb_steps.len(),
            buffers.raw.as_mut_ptr(), buffers.raw.len(),
            buffers.work.as_mut_ptr(), buffers.work.len(),
            buffers.output.as_mut_ptr(), buffers.output.len(),
            buffers.lfe.as_mut_ptr(), buffers.lfe.len(),
        )
    };
    Answer(answer)
}
