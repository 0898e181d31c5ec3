//! Frame files (docs/FRAME_FILE.md) of both versions, and what the program `mcread` prints of one, from
//! the reference's values.

mod bad;
mod mixed;
mod read;
mod reel;
mod text;

pub use mixed::mixed;
pub use read::Fault;
pub use reel::reel;
pub use text::lines;

use crate::flat::Flat;
use crate::input::FrameInput;
use crate::scope::State;
use read::Reader;

#[derive(Debug, Clone, Copy, PartialEq, Eq, Hash)]
pub enum Version {
    /// Names no reading, no desk and no layout, and carries nothing.
    First,
    Second,
}

impl Version {
    /// The first bytes of a file.
    pub const fn name(self) -> &'static [u8; 8] {
        match self {
            Version::First => b"MCFRAMES",
            Version::Second => b"MCFRAME2",
        }
    }

    /// Where the numbers that both versions have begin among those of a frame.
    const fn shared_at(self) -> usize {
        match self {
            Version::First => 0,
            Version::Second => 10,
        }
    }
}

/// The call that a frame is for: the one that takes head and payload.
const CALL: u8 = 1;

/// A frame of a file.
#[derive(Debug, Clone, PartialEq)]
pub struct FileFrame {
    /// Whether the state is carried before it.
    pub carried: bool,
    pub input: FrameInput,
}

/// A state and the frames that follow on it. In a file of the first version the state has no known layout
/// and a tally of desk 0 alone, no frame is carried, and all are for desk 0 under reading 1.
#[derive(Debug, Clone, PartialEq)]
pub struct File {
    pub version: Version,
    pub state: State,
    pub frames: Vec<FileFrame>,
}

impl File {
    /// The bytes of the file; a fresh state is left out.
    pub fn write(&self) -> Vec<u8> {
        let mut out = self.version.name().to_vec();
        out.extend((self.frames.len() as u32).to_le_bytes());
        out.push(u8::from(self.state != State::fresh()));
        if self.state != State::fresh() {
            write_state(&mut out, self.version, &self.state);
        }
        for frame in &self.frames {
            write_frame(&mut out, self.version, frame);
        }
        out
    }

    /// The file of these bytes, or what is wrong with them.
    pub fn read(bytes: &[u8]) -> Result<File, Fault> {
        let mut reader = Reader::open(bytes)?;
        let (version, state) = (reader.version, reader.state.clone());
        let mut frames = vec![];
        while let Some(frame) = reader.frame()? {
            frames.push(frame);
        }
        Ok(File {
            version,
            state,
            frames,
        })
    }
}

fn write_state(out: &mut Vec<u8>, version: Version, state: &State) {
    match version {
        Version::First => {
            out.push(state.count as u8);
            out.extend(state.accepted[0].to_le_bytes());
        }
        Version::Second => {
            out.extend(state.accepted.iter().flat_map(|tally| tally.to_le_bytes()));
            out.extend([state.count as u8, state.layout as u8]);
        }
    }
    write_values(out, &state.history);
}

fn write_values(out: &mut Vec<u8>, values: &[f64]) {
    out.extend(values.iter().flat_map(|v| v.to_bits().to_le_bytes()));
}

fn write_frame(out: &mut Vec<u8>, version: Version, FileFrame { carried, input }: &FileFrame) {
    let flat = Flat::of(input);
    if version == Version::Second {
        out.extend([CALL, u8::from(*carried)]);
        out.extend(input.reading.to_le_bytes());
        out.extend(input.desk.to_le_bytes());
    }
    out.extend(input.sample_rate.to_le_bytes());
    out.push(input.base_channels as u8);
    out.push(input.lfe_allocation as u8);
    for number in [
        input.head.len() as u32,
        input.head_bits as u32,
        input.payload.len() as u32,
        input.payload_bits as u32,
    ] {
        out.extend(number.to_le_bytes());
    }
    for steps in flat.base_nb_steps.iter().chain(&flat.nb_steps) {
        out.extend(steps.to_le_bytes());
    }
    out.extend(&input.head);
    out.extend(&input.payload);
    for values in &flat.base {
        write_values(out, values);
    }
}
