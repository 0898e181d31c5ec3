//! What a call answers: used bits and excess codes, or the refusal.

use core::fmt;

/// What an accepted frame used of its strings, and how many of its group codes have an excess.
#[derive(Debug, Clone, Copy, PartialEq, Eq, Hash)]
pub struct Used {
    pub head_bits: u32,
    pub payload_bits: u32,
    /// At most 1,080. A class of 3, 5 or 9 steps has one group code for three samples; from the cube of
    /// the steps on it holds more than their digits, an excess, and writes the same samples as the code
    /// less the cube.
    pub excess_codes: u32,
}

/// Why a frame is refused.
#[derive(Debug, Clone, Copy, PartialEq, Eq, Hash)]
pub enum McError {
    /// A field passes its string's bit count.
    UnexpectedEnd,
    /// A crosstalk code that the layout does not list, in the lowest subband group that has one.
    ForbiddenDynCrossMode { sbgr: u32, mode: u32 },
    /// The header says Layer III multilingual channels.
    MlLayer3Unsupported,
    /// A scalefactor has code 63.
    ReservedScalefactor,
    /// The stream so far has another number of output channels, or, under reading 2 and where the state
    /// knows it, another layout.
    ConfigChanged,
    /// A length, a bit count, the reading, the rate, the number of base channels, the LFE allocation, a
    /// base step count or the state's layout length is out of its bounds, or the state's layout is one
    /// that no header gives or that has another length.
    InvalidArgument,
    /// A base or history value is beyond -4 to 4 or not a number.
    ValueOutOfRange,
    /// A step count that no class has or at a place that is not transmitted, or an LFE allocation
    /// without LFE.
    InvalidAllocation,
    /// The header has centre code 2, which reading 2 leaves undefined.
    UndefinedCentre,
    /// The desk is above 7.
    InvalidDesk,
}

impl McError {
    /// The number in README's table.
    pub const fn number(self) -> u8 {
        match self {
            McError::UnexpectedEnd => 1,
            McError::ForbiddenDynCrossMode { .. } => 2,
            McError::MlLayer3Unsupported => 3,
            McError::ReservedScalefactor => 4,
            McError::ConfigChanged => 5,
            McError::InvalidArgument => 6,
            McError::ValueOutOfRange => 7,
            McError::InvalidAllocation => 8,
            McError::UndefinedCentre => 13,
            McError::InvalidDesk => 14,
        }
    }
}

impl fmt::Display for McError {
    fn fmt(&self, f: &mut fmt::Formatter<'_>) -> fmt::Result {
        f.write_str(match self {
            McError::ForbiddenDynCrossMode { sbgr, mode } => {
                return write!(
                    f,
                    "crosstalk code {mode} in subband group {sbgr} is not listed for this layout"
                );
            }
            McError::UnexpectedEnd => "a field passes the end of its string",
            McError::MlLayer3Unsupported => "Layer III multilingual channels are not supported",
            McError::ReservedScalefactor => "a scalefactor has the reserved code 63",
            McError::ConfigChanged => "the output channels changed within the stream",
            McError::InvalidArgument => {
                "a length, bit count, reading, rate, channel count, LFE allocation or base step count \
                 is out of its bounds, or the state's layout is wrong"
            }
            McError::ValueOutOfRange => "a base or history value is beyond -4 to 4 or not a number",
            McError::InvalidAllocation => {
                "a step count or the LFE allocation does not fit what the head transmits"
            }
            McError::UndefinedCentre => "centre code 2 has no meaning under reading 2",
            McError::InvalidDesk => "the desk is above 7",
        })
    }
}

impl core::error::Error for McError {}

/// The answer in one number, as include/koftabasin.h packs it.
#[derive(Debug, Clone, Copy, PartialEq, Eq, Hash)]
pub struct Answer(pub u64);

impl Answer {
    /// Takes the number apart. The library answers no refusal but these.
    pub fn result(self) -> Result<Used, McError> {
        let (low, high) = (self.0 as u32 >> 8, (self.0 >> 32) as u32);
        Err(match self.0 as u8 {
            0 => {
                return Ok(Used {
                    head_bits: low,
                    payload_bits: high & 0xF_FFFF,
                    excess_codes: high >> 20,
                });
            }
            1 => McError::UnexpectedEnd,
            2 => McError::ForbiddenDynCrossMode {
                sbgr: low,
                mode: high,
            },
            3 => McError::MlLayer3Unsupported,
            4 => McError::ReservedScalefactor,
            5 => McError::ConfigChanged,
            6 => McError::InvalidArgument,
            7 => McError::ValueOutOfRange,
            8 => McError::InvalidAllocation,
            13 => McError::UndefinedCentre,
            14 => McError::InvalidDesk,
            other => unreachable!("there is no refusal {other}"),
        })
    }
}
