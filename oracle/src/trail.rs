//! What the comparisons count of the readings of a sequence.

use crate::input::READINGS;

/// Changes of reading from one frame to the next, without and with carrying between them.
pub const CHANGES: [&str; 4] = ["1 to 2", "2 to 1", "1 to 2 carried", "2 to 1 carried"];

/// The frames of a sequence so far: those that were lent with its state, and not with another.
#[derive(Debug, Clone, Copy, Default)]
pub struct Trail {
    pub frames: u64,
    /// Whether the reading has changed.
    pub changed: bool,
    /// The last reading, where there was one.
    reading: Option<u32>,
    /// Whether the state was carried since.
    carried: bool,
}

impl Trail {
    /// Goes on with a frame under this reading. Where the reading before was the other one, the place of
    /// the change in [`CHANGES`].
    pub fn frame(&mut self, reading: u32) -> Option<usize> {
        self.frames += 1;
        if !READINGS.contains(&reading) {
            return None;
        }
        let carried = std::mem::take(&mut self.carried);
        let before = self.reading.replace(reading)?;
        let changed = before != reading;
        self.changed |= changed;
        changed.then_some(before as usize - 1 + 2 * usize::from(carried))
    }

    /// The state is carried.
    pub fn carry(&mut self) {
        self.carried = true;
    }
}
