//! The group codes of a plan: their excesses, and the plan with the most of them.

use super::layout::{code_width, excess, grouped};
use super::plan::{Plan, Source};
use crate::excess::{Excesses, GROUPED};

impl Plan {
    /// The excesses of the group codes that are written.
    pub fn excesses(&self) -> Excesses {
        let mut excesses = Excesses::none();
        for (channel, subband) in self.places() {
            let steps = self.payload.steps[channel][subband];
            let transmitted = self.source(channel, subband) == Source::Transmitted;
            if !grouped(steps) || !transmitted {
                continue;
            }
            for (granule, codes) in self.payload.codes.iter().enumerate() {
                let code = codes[channel][subband][0];
                excesses.put((channel, subband, granule), steps, excess(steps, code));
            }
        }
        excesses
    }

    /// 3/2 with the highest group code in every place and granule, the classes in turn: 1,080 excesses.
    pub fn most_excesses() -> Plan {
        let mut plan = Plan::plain(2, 1, 2);
        for (channel, subband) in (0..90).map(|k| (k % 3, k / 3)) {
            let steps = GROUPED[subband % 3];
            plan.payload.steps[channel][subband] = steps;
            for codes in &mut plan.payload.codes {
                codes[channel][subband][0] = (1 << code_width(steps)) - 1;
            }
        }
        plan
    }
}
