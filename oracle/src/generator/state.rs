//! States within a stream, tallies and desks, and states of before there were desks.

use super::layout::Layout;
use super::random::Random;
use super::{base, damage};
use crate::input::DESKS;
use crate::scope::{Refusal, State};

/// One of the desks.
pub fn desk(random: &mut Random) -> u32 {
    random.below(DESKS as u32)
}

/// Tallies of all desks: one in six is at its top, one in six just below it.
pub fn tallies(random: &mut Random) -> [u32; DESKS] {
    [(); DESKS].map(|_| tally(random))
}

fn tally(random: &mut Random) -> u32 {
    let any = random.bits64() as u32;
    random.pick(&[0, 1, any, any, u32::MAX - 1, u32::MAX])
}

/// Count and layout that a state may hold: none, a lone count or a layout.
pub fn held(random: &mut Random) -> (u32, u32) {
    let layout = Layout::random(random);
    let (count, number) = (layout.outputs() as u32, layout.number());
    random.pick(&[(0, 0), (count, 0), (count, 0), (count, number)])
}

/// A state in the middle of a stream, on which every desk has a tally.
pub fn within_stream(random: &mut Random) -> State {
    let (count, layout) = held(random);
    State {
        history: base::history(random),
        count,
        layout,
        accepted: tallies(random),
    }
}

/// A state of before there were desks, by its fields.
#[derive(Debug, Clone, PartialEq)]
pub struct Older {
    pub history: Vec<f64>,
    pub count: u32,
    pub layout: u32,
    pub tally: u32,
}

impl Older {
    /// One that is converted.
    pub fn right(random: &mut Random) -> Older {
        let (count, layout) = held(random);
        Older {
            history: base::history(random),
            count,
            layout,
            tally: tally(random),
        }
    }

    /// One that is refused half of the time, for its count, its layout or the length of its history;
    /// half of the histories have any floats.
    pub fn random(random: &mut Random) -> Older {
        let mut older = Older::right(random);
        if random.flag() {
            damage::wild_history(random, &mut older.history);
        }
        match random.below(8) {
            0..3 => damage::wrong_held(random, &mut older.count, &mut older.layout),
            3 => older.history.resize(random.pick(&[0, 575, 577]), 0.5),
            _ => {}
        }
        older
    }

    pub fn converted(&self) -> Result<State, Refusal> {
        State::convert(&self.history, self.count, self.layout, self.tally)
    }
}
