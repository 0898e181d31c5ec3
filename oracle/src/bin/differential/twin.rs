//! The calls of a sequence made a second time on the library, for desks that are drawn anew: answers,
//! buffers, history, count and layout are the same, and each tally counts for its own desk.

use crate::lent::{Compared, Difference, Lent, same_but_for_tallies, same_number, same_tallies};
use koftabasin::{Frame, McState};
use oracle::generator::Random;
use oracle::generator::state::desk;
use oracle::input::DESKS;
use oracle::scope::{Buffers, State};

pub struct Twin {
    held: McState,
    /// The tallies that it is to have.
    accepted: [u32; DESKS],
    random: Random,
}

impl Twin {
    /// Begins with what the run holds.
    pub fn of(held: &McState, random: &mut Random) -> Twin {
        Twin {
            held: held.clone(),
            accepted: *held.accepted(),
            random: Random::new(random.bits64()),
        }
    }

    /// Carries, as the run has done with this refusal, 0 for none, after which it has this state.
    pub fn carry(&mut self, refusal: u64, after: &State) -> Compared {
        let found = self
            .held
            .carry()
            .map_or_else(|error| error.number(), |()| 0);
        let carried = same_number("answer", found.into(), refusal);
        carried.and_then(|()| self.holds(after)).map_err(named)
    }

    /// Calls the library on a frame for another desk. It gives what it gave the run: this answer, these
    /// buffers if it is accepted, and this state.
    pub fn compare(
        &mut self,
        lent: &mut Lent,
        (frame, lengths): (&Frame, [usize; 4]),
        (answer, buffers, after): (u64, Option<&Buffers>, &State),
    ) -> Compared {
        let desk = desk(&mut self.random);
        let found = lent.call(&mut self.held, &Frame { desk, ..*frame }, lengths);
        if buffers.is_some() {
            let tally = &mut self.accepted[desk as usize];
            *tally = tally.saturating_add(1);
        }
        let compared = same_number("answer", found.0, answer)
            .and_then(|()| lent.compare(buffers))
            .and_then(|()| self.holds(after));
        compared.map_err(named)
    }

    fn holds(&self, state: &State) -> Compared {
        same_but_for_tallies(&self.held, state)?;
        same_tallies(&self.held, &self.accepted)
    }
}

fn named(difference: Difference) -> Difference {
    Difference {
        field: format!("with desks drawn anew, {}", difference.field),
        ..difference
    }
}
