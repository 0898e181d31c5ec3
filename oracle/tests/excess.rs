//! The excesses of group codes: of each code, as read against as written, and against counts that are
//! wrong.

use oracle::excess::{Excesses, GROUPED, GroupCode, excess, group_codes};
use oracle::flat::packed;
use oracle::generator::damage::{self, Part};
use oracle::generator::layout::code_width;
use oracle::generator::{Kind, Plan, Random};
use oracle::input::READINGS;
use oracle::scope::{Refusal, State, judge};
use oracle::{FrameInput, FrameOutput, leaf, reference_places, replay};
use std::collections::BTreeSet;

fn accepted(plan: &Plan) -> FrameOutput {
    judge(&plan.input(), &mut State::fresh()).unwrap()
}

/// 3/2 with one place of this class; its group code in one granule is this one, in the others 0.
fn one_code(steps: u32, code: u32, (channel, subband, granule): (usize, usize, usize)) -> Plan {
    let mut plan = Plan::plain(2, 1, 2);
    plan.payload.steps[channel][subband] = steps;
    plan.payload.codes[granule][channel][subband][0] = code;
    plan
}

/// The code is the number of its digits and so many cubes as its excess says. It counts from the cube
/// on, and has the samples of the code that is a cube less.
#[test]
fn every_group_code() {
    for steps in GROUPED {
        let (class, cube) = (leaf::class_of_quantization(steps).unwrap(), steps.pow(3));
        for code in 0..1 << code_width(steps) {
            let place = (code as usize % 3, code as usize % 30, code as usize % 12);
            let frame = accepted(&one_code(steps, code, place));
            let wanted = code / steps / steps / steps;
            let mut table = vec![0; 1152];
            table[12 * (3 * place.1 + place.0) + place.2] = wanted as u16;
            assert_eq!(frame.excesses.table, table, "{code} of {steps} steps");
            let with = u32::from(code >= cube);
            assert_eq!(frame.excesses.codes(), with, "{code} of {steps} steps");
            let [low, middle, high] = leaf::degroup(&class, code).unwrap();
            let number = low + steps * middle + steps * steps * high;
            assert_eq!(number + cube * wanted, code);
            if with == 1 {
                let less = accepted(&one_code(steps, code - cube, place));
                assert_eq!(frame.payload, less.payload, "{code} of {steps} steps");
                assert_eq!(frame.span, less.span, "{code} of {steps} steps");
                assert_eq!(less.excesses, Excesses::none());
            }
        }
    }
}

#[test]
fn first_and_last_excess_codes() {
    for (steps, codes) in [
        (3, [26, 27, 31]),
        (5, [124, 125, 127]),
        (9, [728, 729, 1023]),
    ] {
        let class = leaf::class_of_quantization(steps).unwrap();
        assert_eq!(codes.map(|code| excess(&class, code)), [0, 1, 1]);
    }
}

/// The group codes of a payload by its fields: step count and code.
fn by_fields(plan: &Plan) -> Vec<(u32, u32)> {
    let written = plan.payload_written();
    let bit = |at: u64| u32::from(written.bytes[at as usize / 8] >> (7 - at % 8) & 1);
    let fields = written.all(Kind::GroupCode);
    let codes = fields.map(|field| {
        let bits = field.at..field.at + u64::from(field.width);
        let steps = GROUPED.into_iter().find(|&n| code_width(n) == field.width);
        (steps.unwrap(), bits.fold(0, |code, at| 2 * code + bit(at)))
    });
    codes.collect()
}

/// Whole frames under each reading. They have every group code with an excess.
#[test]
fn read_as_written() {
    let mut seen = BTreeSet::new();
    for (reading, seed) in (0..8 * Plan::SHAPES).map(|k| (READINGS[k as usize % 2], k / 2)) {
        let plan = Plan::random_under(reading, seed);
        if (reading, plan.head.centre) == (2, 2) {
            continue;
        }
        let excesses = accepted(&plan).excesses;
        assert_eq!(excesses, plan.excesses(), "seed {seed}");
        let mut codes = by_fields(&plan);
        codes.retain(|&(steps, code)| code >= steps.pow(3));
        let of = |steps| codes.iter().filter(|code| code.0 == steps).count() as u32;
        assert_eq!(excesses.by_class, GROUPED.map(of), "seed {seed}");
        seen.extend(codes);
    }
    assert_eq!(seen.len(), (32 - 27) + (128 - 125) + (1024 - 729));
}

/// The group codes of an accepted frame under reading 1.
fn codes(input: &FrameInput, frame: &FrameOutput) -> Vec<GroupCode> {
    group_codes(input, &reference_places(input).unwrap(), frame.payload.used)
}

/// Ways to damage a payload that move its granules or change its codes, and leave many frames accepted.
const DAMAGES: [fn(&mut Random, &Plan, &mut FrameInput); 3] = [
    |random, _, input| {
        let bits = input.payload_bits;
        damage::flip(input, Part::Payload, random.bits64() % bits);
    },
    |random, plan, input| {
        let scfsi: Vec<_> = plan.payload_written().all(Kind::Scfsi).collect();
        let (field, code) = (random.pick(&scfsi), random.below(4));
        damage::overwrite(input, Part::Payload, field, code);
    },
    |random, _, input| damage::noise(random, input, Part::Payload),
];

/// In a damaged payload the group codes are read where the reference has read them: their digits are its
/// samples, and there are twelve for each place.
#[test]
fn read_in_damaged_payloads() {
    let (mut read, mut moved) = ([0; 3], 0);
    for (way, seed) in (0..6 * Plan::SHAPES).map(|k| (k as usize % 3, k / 3)) {
        let (plan, random) = (Plan::random(seed), &mut Random::new(!seed));
        let mut input = plan.input();
        if by_fields(&plan).is_empty() {
            continue;
        }
        DAMAGES[way](random, &plan, &mut input);
        input.payload.resize(8192, random.below(256) as u8);
        input.payload_bits = 65_536;
        let Ok(frame) = judge(&input, &mut State::fresh()) else {
            continue;
        };
        let codes = codes(&input, &frame);
        let steps = input.nb_steps.as_flattened();
        let places = steps.iter().filter(|steps| GROUPED.contains(steps));
        assert_eq!(codes.len(), 12 * places.count(), "seed {seed}");
        for code in &codes {
            has_the_samples(code, &frame);
        }
        let with = codes.iter().filter(|code| has_an_excess(code));
        assert_eq!(with.count() as u32, frame.excesses.codes(), "seed {seed}");
        read[way] += 1;
        moved += u32::from(frame.payload.used != plan.payload_written().bits);
    }
    assert!(read.iter().all(|&frames| frames > 20), "{read:?}");
    assert!(moved > 100, "{moved}");
}

fn has_the_samples(code: &GroupCode, frame: &FrameOutput) {
    let digits = leaf::degroup(&code.class, code.code).unwrap();
    for (k, digit) in digits.into_iter().enumerate() {
        let slot = 3 * code.granule + k;
        let sample = frame.payload.raw_mc[code.channel][slot][code.subband];
        let wanted = leaf::requantize_code(&code.class, digit);
        assert_eq!(sample.to_bits(), wanted.to_bits(), "{code:?}");
    }
}

fn cube(code: &GroupCode) -> u32 {
    code.class.nb_steps.pow(3)
}

fn has_an_excess(code: &GroupCode) -> bool {
    code.code >= cube(code)
}

/// A place that copies another or the base has no group codes of its own.
#[test]
fn copies_do_not_count() {
    let mut plan = Plan::plain(2, 1, 2);
    plan.head.crosstalk_on = true;
    plan.base.steps = [[3; 32]; 2];
    plan.payload.codes = vec![[[[31; 3]; 32]; 3]; 12];
    for (code, transmitted) in [(8, vec![0, 1]), (14, vec![0]), (4, vec![0]), (7, vec![])] {
        plan.head.codes = [code; 12];
        plan.payload.steps = [[0; 32]; 3];
        for &channel in &transmitted {
            plan.payload.steps[channel][..30].fill(3);
        }
        let frame = accepted(&plan);
        assert!((0..3).all(|channel| frame.payload.nb_steps[channel][..30] == [3; 30]));
        let codes = 12 * 30 * transmitted.len() as u32;
        assert_eq!(frame.excesses.codes(), codes, "code {code}");
        assert_eq!(frame.excesses, plan.excesses(), "code {code}");
    }
}

/// 1,080 group codes with an excess, and in a refusal none.
#[test]
fn answer_with_the_most() {
    let plan = Plan::most_excesses();
    let frame = accepted(&plan);
    assert_eq!(frame.excesses.by_class, [360; 3]);
    assert_eq!(packed(&Ok(frame)), 38 << 8 | 9720 << 32 | 1080 << 52);
    let mut input = plan.input();
    input.payload_bits -= 1;
    assert_eq!(packed(&judge(&input, &mut State::fresh())), 1);
    let forbidden = Refusal {
        number: 2,
        group: 11,
        code: 15,
    };
    assert_eq!(packed(&Err(forbidden)), 2 | 11 << 8 | 15 << 32);
}

/// How many codes are such, as a wrong count would have it.
fn count(codes: &[GroupCode], counted: impl Fn(&GroupCode) -> bool) -> usize {
    codes.iter().filter(|code| counted(code)).count()
}

/// A name and a count.
type Named = (&'static str, fn(&[GroupCode]) -> usize);

/// Counts that are wrong.
const WRONG: [Named; 13] = [
    ("none", |_| 0),
    ("every code", |codes| codes.len()),
    ("samples", |codes| 3 * count(codes, has_an_excess)),
    ("codes below the cube", |codes| {
        count(codes, |code| !has_an_excess(code))
    }),
    ("codes above the cube", |codes| {
        count(codes, |code| code.code > cube(code))
    }),
    ("from a code before the cube on", |codes| {
        count(codes, |code| code.code >= cube(code) - 1)
    }),
    ("from the square on", |codes| {
        count(codes, |code| code.code >= code.class.nb_steps.pow(2))
    }),
    ("without 3 steps", |codes| without(codes, 3)),
    ("without 5 steps", |codes| without(codes, 5)),
    ("without 9 steps", |codes| without(codes, 9)),
    ("places", |codes| {
        let with = codes.iter().filter(|code| has_an_excess(code));
        let places: BTreeSet<_> = with.map(|code| (code.channel, code.subband)).collect();
        places.len()
    }),
    ("without the first granule", |codes| {
        count(codes, |code| has_an_excess(code) && code.granule != 0)
    }),
    ("without the last granule", |codes| {
        count(codes, |code| has_an_excess(code) && code.granule != 11)
    }),
];

fn without(codes: &[GroupCode], steps: u32) -> usize {
    count(codes, |code| {
        has_an_excess(code) && code.class.nb_steps != steps
    })
}

/// Each wrong count is another than the right one on frames of the list of `replay`, and so is one that
/// reads from a bit too early.
#[test]
fn wrong_counts_show() {
    let (mut shown, mut early) = ([0; WRONG.len()], 0);
    let mut state = State::fresh();
    for record in replay::list::records() {
        let (input, start) = record.lent();
        state = start.unwrap_or(state);
        let Ok(frame) = judge(&input, &mut state) else {
            continue;
        };
        if input.reading == 2 {
            continue;
        }
        let (codes, right) = (codes(&input, &frame), frame.excesses.codes());
        for (shown, (_, wrong)) in shown.iter_mut().zip(WRONG) {
            *shown += u32::from(wrong(&codes) as u32 != right);
        }
        if !codes.is_empty() {
            let places = reference_places(&input).unwrap();
            let read = Excesses::read(&input, &places, frame.payload.used - 1);
            early += u32::from(read.codes() != right);
        }
    }
    for (shown, (name, _)) in shown.into_iter().zip(WRONG) {
        assert!(shown >= 5, "{name}: {shown} frames");
    }
    assert!(early >= 5, "{early}");
}
