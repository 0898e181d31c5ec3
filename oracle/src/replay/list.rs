//! Chooses the frames of the list and judges them.

use super::record::{Expected, Record};
use super::spoil::SPOILS;
use super::values::{buffer_hashes, state_hash};
use crate::flat::packed;
use crate::generator::state::desk;
use crate::generator::{Made, Plan, Random, Source};
use crate::scope::{Buffers, State, judge};
use std::collections::BTreeSet;

/// Payloads of the list have at most so many bytes, but for two frames of the longest.
const SHORT: usize = 320;

/// Plans that are tried for each shape.
const TRIED: u64 = 24;

/// What a frame shows: a kind and up to three numbers.
type Feature = (&'static str, usize, u32, u32);

/// The frames of the list so far, with the state and the buffers after them.
struct List {
    random: Random,
    state: State,
    written: Buffers,
    records: Vec<Record>,
    /// How often each way to spoil a frame was used.
    used: [u32; SPOILS.len()],
}

impl List {
    /// Judges a frame and puts it at the end.
    fn push(&mut self, mut record: Record) {
        let (input, start) = record.lent();
        if let Some(state) = start {
            self.state = state;
        }
        let answer = judge(&input, &mut self.state);
        if let Ok(frame) = &answer {
            self.written = Buffers::of(frame);
        }
        record.expected = Expected {
            answer: packed(&answer),
            buffers: buffer_hashes(&self.written),
            state: state_hash(&self.state),
        };
        self.records.push(record);
    }

    /// The frame for any desk, under any reading that takes its centre code and its step counts.
    fn record(&mut self, frame: &Made) -> Record {
        let seed = self.random.bits64() | 1;
        let mut readings = frame.plan.readings();
        readings.retain(|&reading| (reading, frame.plan.head.centre) != (2, 2));
        Record {
            reading: self.random.pick(&readings),
            desk: desk(&mut self.random),
            ..Record::of(&frame.plan, &frame.head, &frame.payload, seed)
        }
    }

    /// The frame as it is. It starts a new state where that before it is no good for it, and at times
    /// anyway: a fresh one, or one within a stream.
    fn push_whole(&mut self, frame: &Made, anyway: bool) {
        let mut record = self.record(frame);
        if anyway || refusal_alone(&record, &self.state) != 0 {
            let count = frame.plan.layout().outputs() as u8;
            let top = u32::MAX;
            let starts = [(0, 0), (0, 5), (count, 1), (count, top - 1), (count, top)];
            record.start = Some(self.random.pick(&starts));
        }
        self.push(record);
    }

    /// The frame changed in the least used way that it has a hold for.
    fn push_spoiled(&mut self, frame: &Made) {
        let mut ways: Vec<usize> = (0..SPOILS.len()).collect();
        ways.sort_by_key(|&way| self.used[way]);
        for way in ways {
            let (refusal, ways) = SPOILS[way];
            let mut record = self.record(frame);
            let random = &mut self.random;
            let spoiled = ways.iter().all(|spoil| spoil(random, frame, &mut record));
            if spoiled && refusal_alone(&record, &self.state) == refusal {
                self.used[way] += 1;
                self.push(record);
                return;
            }
        }
    }
}

/// The refusal of a frame after this state, which stays.
fn refusal_alone(record: &Record, state: &State) -> u64 {
    let (input, start) = record.lent();
    let mut state = start.unwrap_or_else(|| state.clone());
    packed(&judge(&input, &mut state)) & 0xFF
}

/// The frames of the list, the same in each run: one to three of each shape, ordered by the number of
/// output channels so that states last, each followed by a spoiled one more often than not; then what
/// predictors are left, and two of the longest. A frame without a head comes first, on a fresh state.
/// Shapes are drawn under reading 2, which bars the fewest places.
pub fn records() -> Vec<Record> {
    let mut list = List {
        random: Random::new(1),
        state: State::fresh(),
        written: super::buffers(),
        records: vec![],
        used: [0; SPOILS.len()],
    };
    let mut seen = BTreeSet::new();
    for (k, (shape, turn)) in shapes().into_iter().enumerate() {
        let frame = chosen(shape, turn, &mut seen);
        if k == 0 {
            let head_bits = 0;
            let record = list.record(&frame);
            list.push(Record {
                head_bits,
                ..record
            });
        }
        list.push_whole(&frame, k % 16 == 15);
        if k % 3 != 0 {
            list.push_spoiled(&frame);
        }
    }
    for frame in missing_predictors(&mut seen) {
        list.push_whole(&frame, false);
    }
    for seed in 0..2 {
        list.push_whole(&longest(seed), false);
    }
    list.records
}

/// Shapes by the number of output channels, those with two or three main channels as often; then by rate
/// and layout, so that some frames of a layout follow each other, and then some of another.
fn shapes() -> Vec<(u64, u64)> {
    let plan = Plan::plain_of_shape;
    let turns =
        |shape: u64| (0..plan(shape).layout().main.max(1) as u64).map(move |turn| (shape, turn));
    let mut shapes: Vec<_> = (0..Plan::SHAPES).flat_map(turns).collect();
    shapes.sort_by_key(|&(shape, turn)| {
        let (layout, rate) = (plan(shape).layout(), plan(shape).sample_rate);
        (layout.outputs(), turn, rate, layout.number())
    });
    shapes
}

/// Frames of 3/2 that show the predictors, groups and counts that are left.
fn missing_predictors(seen: &mut BTreeSet<Feature>) -> Vec<Made> {
    let shapes = (0..Plan::SHAPES).filter(|&k| Plan::plain_of_shape(k).layout().main == 3);
    let shapes: Vec<u64> = shapes.collect();
    let predictors = |features: &BTreeSet<Feature>| {
        let kinds = features.iter().filter(|feature| feature.0 == "predictor");
        kinds.count()
    };
    let mut frames = vec![];
    let mut seed = 0;
    while predictors(seen) < 8 * 6 * 4 {
        let shape = shapes[seed as usize % shapes.len()];
        let frame = Made::of(Plan::of_shape(shape, seed));
        let fresh: BTreeSet<Feature> = features(&frame.plan).difference(seen).copied().collect();
        if predictors(&fresh) > 0 && frame.payload.bytes.len() <= SHORT {
            seen.extend(fresh);
            frames.push(frame);
        }
        seed += 1;
    }
    frames
}

/// Of the plans that are tried for a shape, the one that shows most that was not seen before.
fn chosen(shape: u64, turn: u64, seen: &mut BTreeSet<Feature>) -> Made {
    let seeds = (0..TRIED).map(|k| 1000 * shape + 100 * turn + k);
    let plans = seeds.map(|seed| Plan::of_shape_under(2, shape, seed));
    let frames: Vec<Made> = plans.map(Made::of).collect();
    let best = frames.into_iter().max_by_key(|frame| {
        let fresh = features(&frame.plan).difference(seen).count();
        let short = frame.payload.bytes.len() <= SHORT;
        (short, fresh)
    });
    let best = best.expect("some were tried");
    seen.extend(features(&best.plan));
    best
}

/// The longest payload and, with crosstalk, the longest head.
fn longest(seed: u64) -> Made {
    let mut plan = Plan::longest();
    let random = Plan::of_shape(0, seed);
    plan.head.crosstalk_on = seed == 1;
    plan.payload.scalefactors = random.payload.scalefactors;
    plan.payload.coefficients = random.payload.coefficients;
    plan.payload.delays = random.payload.delays;
    Made::of(plan)
}

/// What a plan shows of tcs, codes, predictors, classes and the rest.
pub fn features(plan: &Plan) -> BTreeSet<Feature> {
    let (layout, head) = (plan.layout(), &plan.head);
    let kind = 10 * usize::from(layout.front) + usize::from(layout.surround);
    let mut features = BTreeSet::from([("LFE", 0, plan.payload.lfe_allocation, 0)]);
    for group in 0..12 {
        let place = 4 * group as u32 + head.procedure;
        features.insert(("tc", kind, place, head.tc_of(group)));
        features.insert(("code", kind, head.code_of(group), group as u32));
        let second = u32::from(layout.second_stereo) + u32::from(head.second_of(group));
        features.insert(("second", group, second, 0));
    }
    for group in 0..8 {
        for (px, &count) in head.counts_of(&layout, group).iter().enumerate() {
            features.insert(("predictor", group, px as u32, count));
            features.insert(("delay", px, plan.payload.delays[group][px], count));
        }
    }
    for (channel, subband) in plan.places() {
        let steps = plan.steps(channel, subband);
        let transmitted = plan.source(channel, subband) == Source::Transmitted;
        features.insert(("class", channel, steps, transmitted.into()));
        if steps != 0 {
            features.insert(("scfsi", channel, plan.payload.scfsi[channel][subband], 0));
        }
    }
    features
}
