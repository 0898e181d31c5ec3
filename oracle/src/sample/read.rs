//! Reads a frame file from its beginning up to its end or its first fault.

use super::{CALL, FileFrame, Version};
use crate::input::{DESKS, FrameInput, Slots};
use crate::scope::State;
use std::fmt;

/// What makes a file no frame file; of a frame its number, from 1 on, and what it has.
#[derive(Debug, Clone, Copy, PartialEq, Eq)]
pub enum Fault {
    Empty,
    Letters,
    OpeningCut,
    Flag,
    StateCut,
    /// The state of a first version is not converted.
    LayoutCount(u32),
    FrameCut(u64),
    Call(u64, u8),
    Carried(u64, u8),
    BaseChannels(u64, u8),
    HeadBytes(u64, u32),
    PayloadBytes(u64, u32),
    LeftOver,
}

impl fmt::Display for Fault {
    fn fmt(&self, f: &mut fmt::Formatter<'_>) -> fmt::Result {
        let neither = "which is neither";
        match self {
            Fault::Empty => f.write_str("the input is empty"),
            Fault::Letters => f.write_str("it does not begin with MCFRAMES or MCFRAME2"),
            Fault::OpeningCut => f.write_str("it ends inside the opening"),
            Fault::Flag => {
                f.write_str("byte 12, which says whether a state follows, is neither 0 nor 1")
            }
            Fault::StateCut => f.write_str("it ends inside the state"),
            Fault::LayoutCount(n) => write!(f, "its state has layout count {n}, above 5"),
            Fault::FrameCut(k) => write!(f, "frame {k} is cut"),
            Fault::Call(k, n) => write!(f, "frame {k} is for call {n}, which is not known"),
            Fault::Carried(k, n) => write!(
                f,
                "frame {k} has {n} for whether the state is carried, {neither} 0 nor 1"
            ),
            Fault::BaseChannels(k, n) => {
                write!(f, "frame {k} has base channel count {n}, {neither} 1 nor 2")
            }
            Fault::HeadBytes(k, n) => write!(f, "frame {k} has head bytes {n}, above 8192"),
            Fault::PayloadBytes(k, n) => write!(f, "frame {k} has payload bytes {n}, above 8192"),
            Fault::LeftOver => f.write_str("bytes are left over after the last frame"),
        }
    }
}

/// A file that is read, frame after frame.
pub struct Reader<'a> {
    pub version: Version,
    pub state: State,
    /// Frames so far, and those that there are to be.
    number: u64,
    frames: u64,
    rest: Bytes<'a>,
}

impl<'a> Reader<'a> {
    /// Reads the opening and the state.
    pub fn open(bytes: &'a [u8]) -> Result<Reader<'a>, Fault> {
        if bytes.is_empty() {
            return Err(Fault::Empty);
        }
        let mut rest = Bytes(bytes);
        let name = rest.take(8);
        let versions = [Version::First, Version::Second];
        let mut named = versions.into_iter().filter(|v| name == Some(v.name()));
        let version = named.next().ok_or(Fault::Letters)?;
        let frames = rest.u32().ok_or(Fault::OpeningCut)?;
        let state = match rest.u8().ok_or(Fault::OpeningCut)? {
            0 => State::fresh(),
            1 => rest.state(version)?,
            _ => return Err(Fault::Flag),
        };
        Ok(Reader {
            version,
            state,
            number: 0,
            frames: frames.into(),
            rest,
        })
    }

    /// The next frame; none where the file ends with the one before.
    pub fn frame(&mut self) -> Result<Option<FileFrame>, Fault> {
        if self.number == self.frames {
            return match self.rest.0 {
                [] => Ok(None),
                _ => Err(Fault::LeftOver),
            };
        }
        self.number += 1;
        let numbers = self.rest.numbers(self.version);
        let numbers = numbers.ok_or(Fault::FrameCut(self.number))?;
        numbers.right(self.number)?;
        let frame = self.rest.frame(&numbers);
        frame.map(Some).ok_or(Fault::FrameCut(self.number))
    }
}

/// The numbers of a frame, of a first version too, which does not say the first four.
struct Numbers {
    call: u8,
    carried: u8,
    reading: u32,
    desk: u32,
    rate: u32,
    base_channels: u8,
    lfe_allocation: u8,
    /// Bytes and bits of each string.
    head: (u32, u32),
    payload: (u32, u32),
}

impl Numbers {
    /// The rest of the frame can be read.
    fn right(&self, number: u64) -> Result<(), Fault> {
        let (head_bytes, payload_bytes) = (self.head.0, self.payload.0);
        match () {
            _ if self.call != CALL => Err(Fault::Call(number, self.call)),
            _ if self.carried > 1 => Err(Fault::Carried(number, self.carried)),
            _ if !matches!(self.base_channels, 1 | 2) => {
                Err(Fault::BaseChannels(number, self.base_channels))
            }
            _ if head_bytes > 8192 => Err(Fault::HeadBytes(number, head_bytes)),
            _ if payload_bytes > 8192 => Err(Fault::PayloadBytes(number, payload_bytes)),
            _ => Ok(()),
        }
    }
}

/// What is left of a file.
struct Bytes<'a>(&'a [u8]);

impl<'a> Bytes<'a> {
    fn take(&mut self, count: usize) -> Option<&'a [u8]> {
        let (taken, rest) = self.0.split_at_checked(count)?;
        self.0 = rest;
        Some(taken)
    }

    fn u8(&mut self) -> Option<u8> {
        Some(self.take(1)?[0])
    }

    fn u32(&mut self) -> Option<u32> {
        Some(u32::from_le_bytes(self.take(4)?.try_into().ok()?))
    }

    fn values(&mut self, count: usize) -> Option<Vec<f64>> {
        let values = self.take(8 * count)?.chunks_exact(8);
        let value = |bytes: &[u8]| Some(f64::from_le_bytes(bytes.try_into().ok()?));
        values.map(value).collect()
    }

    /// So many numbers of four bytes.
    fn numbers_of_four<const N: usize>(&mut self) -> Option<[u32; N]> {
        let mut numbers = [0; N];
        for number in &mut numbers {
            *number = self.u32()?;
        }
        Some(numbers)
    }

    fn steps(&mut self) -> Option<[u32; 32]> {
        self.numbers_of_four()
    }

    /// One channel of the base.
    fn slots(&mut self) -> Option<Slots> {
        let values = self.values(1152)?;
        let slots = values.chunks_exact(32);
        slots.map(|slot| slot.try_into().ok()).collect()
    }

    /// The state of a file; that of a first version is converted.
    fn state(&mut self, version: Version) -> Result<State, Fault> {
        match version {
            Version::First => {
                let (count, tally, history) = self.older().ok_or(Fault::StateCut)?;
                let state = State::convert(&history, count, 0, tally);
                state.map_err(|_| Fault::LayoutCount(count))
            }
            Version::Second => self.state_with_desks().ok_or(Fault::StateCut),
        }
    }

    fn older(&mut self) -> Option<(u32, u32, Vec<f64>)> {
        Some((self.u8()?.into(), self.u32()?, self.values(576)?))
    }

    fn state_with_desks(&mut self) -> Option<State> {
        Some(State {
            accepted: self.numbers_of_four::<DESKS>()?,
            count: self.u8()?.into(),
            layout: self.u8()?.into(),
            history: self.values(576)?,
        })
    }

    fn numbers(&mut self, version: Version) -> Option<Numbers> {
        let (call, carried, reading, desk) = match version {
            Version::First => (CALL, 0, 1, 0),
            Version::Second => (self.u8()?, self.u8()?, self.u32()?, self.u32()?),
        };
        Some(Numbers {
            call,
            carried,
            reading,
            desk,
            rate: self.u32()?,
            base_channels: self.u8()?,
            lfe_allocation: self.u8()?,
            head: (self.u32()?, self.u32()?),
            payload: (self.u32()?, self.u32()?),
        })
    }

    /// What follows right numbers.
    fn frame(&mut self, numbers: &Numbers) -> Option<FileFrame> {
        let channels = numbers.base_channels;
        let mut base_nb_steps = [[0; 32]; 2];
        for steps in &mut base_nb_steps[..usize::from(channels)] {
            *steps = self.steps()?;
        }
        let nb_steps = [self.steps()?, self.steps()?, self.steps()?];
        let head = self.take(numbers.head.0 as usize)?.to_vec();
        let payload = self.take(numbers.payload.0 as usize)?.to_vec();
        let base_raw = (0..channels).map(|_| self.slots()).collect::<Option<_>>()?;
        let base_scaled = (0..channels).map(|_| self.slots()).collect::<Option<_>>()?;
        Some(FileFrame {
            carried: numbers.carried == 1,
            input: FrameInput {
                head,
                head_bits: numbers.head.1.into(),
                payload,
                payload_bits: numbers.payload.1.into(),
                reading: numbers.reading,
                desk: numbers.desk,
                sample_rate: numbers.rate,
                base_channels: channels.into(),
                base_raw,
                base_scaled,
                base_nb_steps,
                lfe_allocation: numbers.lfe_allocation.into(),
                nb_steps,
            },
        })
    }
}
