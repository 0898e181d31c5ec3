//! A frame as a plan: all fields that go on the wire and all that is lent beside them.

use super::base::Base;
use super::damage::Part;
use super::head::Head;
use super::layout::{Layout, code_width, group_of, grouped, subband_limit};
use super::payload::Payload;
use super::random::Random;
use super::writer::{Kind, Written};
use crate::input::{FrameInput, READINGS};

/// A frame before it is written. Any plan whose fields fit their widths can be written; a random one
/// is accepted, but that reading 2 refuses centre code 2.
#[derive(Debug, Clone, PartialEq)]
pub struct Plan {
    /// The reading that decides which places are barred, and under which the frame is lent.
    pub reading: u32,
    pub base_channels: usize,
    pub sample_rate: u32,
    pub head: Head,
    pub payload: Payload,
    pub base: Base,
}

/// Where the step count and the samples of a place come from.
#[derive(Debug, Clone, Copy, PartialEq, Eq)]
pub enum Source {
    /// No channel, past the subband limit, barred, or under a code that is not listed: the step
    /// count is 0.
    Nowhere,
    Transmitted,
    Base(usize),
    Channel(usize),
}

impl Plan {
    /// Base channels, centre and surround code, rate and procedure: 2 x 4 x 4 x 3 x 4.
    pub const SHAPES: u64 = 384;

    /// Accepted under reading 1. Consecutive seeds go through the shapes in turn; the rest is random.
    pub fn random(seed: u64) -> Plan {
        Plan::random_under(1, seed)
    }

    /// The same under this reading, which may refuse the centre code.
    pub fn random_under(reading: u32, seed: u64) -> Plan {
        Plan::of_shape_under(reading, seed % Plan::SHAPES, seed)
    }

    /// A frame of zeros with this shape, one of [`Plan::SHAPES`], under reading 1.
    pub fn plain_of_shape(shape: u64) -> Plan {
        let mut rest = shape;
        let mut digit = |base: u64| {
            let digit = rest % base;
            rest /= base;
            digit as u32
        };
        let mut plan = Plan::plain(2 - digit(2) as usize, digit(4), digit(4));
        plan.head.procedure = digit(4);
        plan.sample_rate = [44_100, 48_000, 32_000][digit(3) as usize];
        plan
    }

    /// An accepted frame of this shape under reading 1; the rest is random.
    pub fn of_shape(shape: u64, seed: u64) -> Plan {
        Plan::of_shape_under(1, shape, seed)
    }

    /// The same under this reading, which may refuse the centre code.
    pub fn of_shape_under(reading: u32, shape: u64, seed: u64) -> Plan {
        let random = &mut Random::new(seed);
        let mut plan = Plan::plain_of_shape(shape);
        plan.reading = reading;
        plan.head = Head::random(random, plan.base_channels, plan.head);
        plan.base = Base::random(random, plan.base_channels);
        plan.payload = Payload::random(random, plan.head.lfe, |channel, subband| {
            plan.source(channel, subband) == Source::Transmitted
        });
        plan
    }

    /// A frame of zeros with this layout, at 44,100 Hz, under reading 1.
    pub fn plain(base_channels: usize, centre: u32, surround: u32) -> Plan {
        Plan {
            reading: 1,
            base_channels,
            sample_rate: 44_100,
            head: Head::plain(centre, surround),
            payload: Payload::empty(),
            base: Base::silent(base_channels),
        }
    }

    /// 3/2 with every field of the payload at its longest: 55,134 bits.
    pub fn longest() -> Plan {
        let mut plan = Plan::plain(2, 1, 2);
        plan.head.n_ad_bytes = Some(255);
        plan.head.lfe = true;
        plan.head.one_tc = false;
        plan.head.prediction_on = true;
        plan.head.predicted = [true; 8];
        plan.head.counts = [[3; 6]; 8];
        plan.payload.lfe_allocation = 15;
        for steps in &mut plan.payload.steps {
            steps[..30].fill(65535);
        }
        plan
    }

    pub fn layout(&self) -> Layout {
        Layout::of(self.base_channels, self.head.centre, self.head.surround)
    }

    /// Where a place gets its step count and samples from; the phantom bar comes before crosstalk.
    pub fn source(&self, channel: usize, subband: usize) -> Source {
        let (layout, limit) = (self.layout(), subband_limit(self.sample_rate));
        let barred = layout.barred(self.reading, channel, subband);
        if channel >= layout.channels() || subband >= limit || barred {
            return Source::Nowhere;
        }
        let group = group_of(subband);
        if channel >= layout.main {
            let copies = channel == layout.main + 1 && self.head.second_of(group);
            return if copies {
                Source::Channel(layout.main)
            } else {
                Source::Transmitted
            };
        }
        let Some(sources) = layout.sources().get(self.head.code_of(group) as usize) else {
            return Source::Nowhere;
        };
        let (tc, left_right) = (self.head.tc_of(group), self.head.left_right);
        match sources.as_bytes()[channel] {
            b'T' => Source::Transmitted,
            b'B' => Source::Base(layout.base_channel(tc, channel, left_right)),
            digit => Source::Channel(usize::from(digit - b'0')),
        }
    }

    /// The readings under which no step count of the plan stands at a barred place.
    pub fn readings(&self) -> Vec<u32> {
        let free = |reading: &u32| !self.barred_under(*reading);
        READINGS.into_iter().filter(free).collect()
    }

    /// Whether a step count of the plan stands at a place that is barred under this reading.
    pub fn barred_under(&self, reading: u32) -> bool {
        let layout = self.layout();
        let barred = |k: usize| layout.barred(reading, k / 32, k % 32);
        (0..96).any(|k| self.payload.steps[k / 32][k % 32] != 0 && barred(k))
    }

    /// The step count of a place, a crossed one among them.
    pub fn steps(&self, channel: usize, subband: usize) -> u32 {
        match self.source(channel, subband) {
            Source::Nowhere => 0,
            Source::Transmitted => self.payload.steps[channel][subband],
            Source::Base(base) => self.base.steps[base][subband],
            Source::Channel(from) => self.steps(from, subband),
        }
    }

    /// The places in the order of the wire: by subband, then channel.
    pub fn places(&self) -> impl Iterator<Item = (usize, usize)> {
        let channels = self.layout().channels();
        (0..32 * channels).map(move |k| (k % channels, k / channels))
    }

    pub fn head_written(&self) -> Written {
        self.head.written(&self.layout())
    }

    pub fn payload_written(&self) -> Written {
        let mut out = Written::default();
        let mut places: Vec<_> = self.places().collect();
        places.retain(|&(channel, subband)| self.steps(channel, subband) != 0);
        for &(channel, subband) in &places {
            out.field(Kind::Scfsi, 2, self.payload.scfsi[channel][subband]);
        }
        self.write_predictors(&mut out);
        if self.payload.lfe_allocation != 0 {
            out.field(Kind::LfeScalefactor, 6, self.payload.lfe_scalefactor);
        }
        self.write_scalefactors(&mut out, &places);
        places.retain(|&place| self.source(place.0, place.1) == Source::Transmitted);
        for granule in 0..12 {
            self.write_granule(&mut out, &places, granule);
        }
        out
    }

    fn write_predictors(&self, out: &mut Written) {
        let layout = self.layout();
        for group in 0..8 {
            for (px, &count) in self.head.counts_of(&layout, group).iter().enumerate() {
                if count == 0 {
                    continue;
                }
                out.field(Kind::Delay, 3, self.payload.delays[group][px]);
                for byte in &self.payload.coefficients[group][px][..count as usize] {
                    out.field(Kind::Coefficient, 8, *byte);
                }
            }
        }
    }

    /// Scalefactors of the places that have a step count.
    fn write_scalefactors(&self, out: &mut Written, places: &[(usize, usize)]) {
        for &(channel, subband) in places {
            let by_part = self.payload.scalefactors[channel][subband];
            for part in parts_written(self.payload.scfsi[channel][subband]) {
                out.field(Kind::Scalefactor, 6, by_part[*part]);
            }
        }
    }

    /// Samples of the places whose step count is transmitted.
    fn write_granule(&self, out: &mut Written, places: &[(usize, usize)], granule: usize) {
        if self.payload.lfe_allocation != 0 {
            let width = self.payload.lfe_allocation + 1;
            out.field(Kind::LfeSample, width, self.payload.lfe_codes[granule]);
        }
        for &(channel, subband) in places {
            let steps = self.payload.steps[channel][subband];
            let codes = self.payload.codes[granule][channel][subband];
            if grouped(steps) {
                out.field(Kind::GroupCode, code_width(steps), codes[0]);
            } else {
                for code in codes {
                    out.field(Kind::Sample, code_width(steps), code);
                }
            }
        }
    }

    /// The frame as it is lent, under the plan's reading and for desk 0.
    pub fn input(&self) -> FrameInput {
        self.lent(&self.head_written(), &self.payload_written())
    }

    /// The frame with these strings.
    fn lent(&self, head: &Written, payload: &Written) -> FrameInput {
        FrameInput {
            head: head.bytes.clone(),
            head_bits: head.bits,
            payload: payload.bytes.clone(),
            payload_bits: payload.bits,
            reading: self.reading,
            desk: 0,
            sample_rate: self.sample_rate,
            base_channels: self.base_channels,
            base_raw: self.base.raw.clone(),
            base_scaled: self.base.scaled.clone(),
            base_nb_steps: self.base.steps,
            lfe_allocation: self.payload.lfe_allocation,
            nb_steps: self.payload.steps,
        }
    }
}

/// A plan with its strings written.
pub struct Made {
    pub plan: Plan,
    pub head: Written,
    pub payload: Written,
}

impl Made {
    pub fn of(plan: Plan) -> Made {
        Made {
            head: plan.head_written(),
            payload: plan.payload_written(),
            plan,
        }
    }

    pub fn written(&self, part: Part) -> &Written {
        match part {
            Part::Head => &self.head,
            Part::Payload => &self.payload,
        }
    }

    /// The frame as it is lent, under the plan's reading and for desk 0.
    pub fn input(&self) -> FrameInput {
        self.plan.lent(&self.head, &self.payload)
    }
}

/// The parts of a frame whose scalefactors stand on the wire.
pub fn parts_written(scfsi: u32) -> &'static [usize] {
    [&[0, 1, 2][..], &[0, 2], &[0], &[0, 1]][scfsi as usize]
}

/// For each part of a frame, the part whose scalefactor it has.
pub fn parts_shared(scfsi: u32) -> [usize; 3] {
    [[0, 1, 2], [0, 0, 2], [0, 0, 0], [0, 1, 1]][scfsi as usize]
}
