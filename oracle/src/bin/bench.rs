//! Measures the proved frame call against the published span, in one process and on the same frames.

use koftabasin::{Buffers, LFE, McState, OUTPUT, RAW, decode};
use oracle::flat::Flat;
use oracle::generator::layout::{STEPS, code_width};
use oracle::generator::{Plan, Random, Source};
use oracle::{FrameInput, McDecodeState, library, reference_span};
use std::fmt::Write;
use std::hint::black_box;
use std::time::Duration;

const NOTES: &str = "\
Microseconds of processor time a frame: median (least to greatest) of the rounds; ratio: library / Rust
of each round. Both sides read the same frames in turn, in one thread, each on one state of its own.
Library: the frame call through the crate `koftabasin`, under reading 1, refusals 6, 7 and 8 included.
Its buffers are lent once and never cleared in between; the call writes every element of them.
Rust: `reference_span`, the published span with nothing added, which allocates zeroed vectors for each
frame; freeing them is counted. It does not check for refusals 6, 7 and 8.
";

/// Frames in a set.
const FRAMES: u64 = 8;

/// Frames of one kind, in the shapes of both sides. All have the same number of output channels.
struct Set {
    name: &'static str,
    frames: Vec<(FrameInput, Flat)>,
}

impl Set {
    fn of(name: &'static str, count: u64, plan: impl Fn(u64) -> Plan) -> Set {
        let inputs = (0..count).map(|seed| plan(seed).input());
        let frames = inputs.map(|input| (input.clone(), Flat::of(&input)));
        Set {
            name,
            frames: frames.collect(),
        }
    }

    /// The mean of used payload bits.
    fn bits(&self) -> u64 {
        let bits = self.frames.iter().map(|frame| frame.0.payload_bits);
        bits.sum::<u64>() / self.frames.len() as u64
    }
}

/// 3/2 with crosstalk and prediction; the lower subbands have a step count, the higher ones often none.
fn typical(seed: u64) -> Plan {
    let shape = (0..Plan::SHAPES)
        .find(|&shape| {
            let plan = Plan::plain_of_shape(shape);
            (plan.layout().main, plan.head.centre) == (3, 1)
        })
        .expect("there is a shape of 3/2");
    let mut plan = Plan::of_shape(shape, seed);
    plan.head.lfe = true;
    plan.head.crosstalk_on = true;
    plan.head.prediction_on = true;
    plan.payload.lfe_allocation = 5;
    let random = &mut Random::new(!seed);
    for channel in 0..3 {
        for subband in 0..32 {
            let steps = match subband {
                0..4 => STEPS[5 + random.below(4) as usize],
                4..12 => STEPS[2 + random.below(4) as usize],
                12..20 if random.flag() => STEPS[random.below(3) as usize],
                _ => 0,
            };
            let transmitted = plan.source(channel, subband) == Source::Transmitted;
            plan.payload.steps[channel][subband] = if transmitted { steps } else { 0 };
        }
    }
    random_codes(&mut plan, random);
    plan
}

/// Any code of each width, for the places and the LFE as they are allocated.
fn random_codes(plan: &mut Plan, random: &mut Random) {
    let payload = &mut plan.payload;
    for granule in &mut payload.codes {
        for (codes, steps) in granule.iter_mut().zip(&payload.steps) {
            for (codes, &steps) in codes.iter_mut().zip(steps) {
                let end = if steps == 0 {
                    1
                } else {
                    1 << code_width(steps)
                };
                *codes = [(); 3].map(|_| random.below(end));
            }
        }
    }
    let end = 2 << payload.lfe_allocation;
    payload.lfe_codes = [(); 12].map(|_| random.below(end));
}

fn longest(seed: u64) -> Plan {
    let mut plan = Plan::longest();
    let random = Plan::of_shape(0, seed);
    plan.base = random.base;
    plan.payload.scalefactors = random.payload.scalefactors;
    plan.payload.coefficients = random.payload.coefficients;
    plan.payload.delays = random.payload.delays;
    random_codes(&mut plan, &mut Random::new(!seed));
    plan
}

fn sets() -> Vec<Set> {
    vec![
        Set::of("2/0, nothing transmitted", FRAMES, |seed| {
            let mut plan = Plan::plain(2, 0, 0);
            plan.base = Plan::of_shape(0, seed).base;
            plan
        }),
        Set::of("3/2, typical", FRAMES, typical),
        Set::of("3/2, longest", FRAMES, longest),
    ]
}

/// One round of the library over a set, in nanoseconds a frame.
fn library_round(set: &Set, state: &mut McState, written: &mut [Vec<f64>; 4]) -> f64 {
    let begin = processor_time();
    for (input, flat) in &set.frames {
        let [raw, work, output, lfe] = written;
        let mut buffers = Buffers {
            raw,
            work,
            output,
            lfe,
        };
        let frame = library::frame(input, flat);
        let used = decode(state, black_box(&frame), &mut buffers);
        black_box(used).expect("the frame is accepted");
        black_box(&mut buffers);
    }
    per_frame(begin, set)
}

/// One round of the Rust over a set.
fn reference_round(set: &Set, state: &mut McDecodeState) -> f64 {
    let begin = processor_time();
    for (input, _) in &set.frames {
        let output = reference_span(black_box(input), state);
        drop(black_box(output).expect("the frame is accepted"));
    }
    per_frame(begin, set)
}

fn per_frame(begin: Duration, set: &Set) -> f64 {
    let spent = processor_time() - begin;
    spent.as_nanos() as f64 / set.frames.len() as f64
}

/// The processor time of this thread, which other processes change little (Linux).
fn processor_time() -> Duration {
    #[repr(C)]
    struct Timespec {
        seconds: i64,
        nanoseconds: i64,
    }
    unsafe extern "C" {
        fn clock_gettime(clock: i32, time: *mut Timespec) -> i32;
    }
    const CLOCK_THREAD_CPUTIME_ID: i32 = 3;
    let mut time = Timespec {
        seconds: 0,
        nanoseconds: 0,
    };
    // SAFETY: the pointer is to a whole timespec of a 64-bit system.
    let status = unsafe { clock_gettime(CLOCK_THREAD_CPUTIME_ID, &mut time) };
    assert_eq!(status, 0, "no clock of processor time");
    Duration::new(time.seconds as u64, time.nanoseconds as u32)
}

/// Median, least and greatest, in words.
fn spread(mut values: Vec<f64>, unit: f64) -> String {
    values.sort_by(f64::total_cmp);
    let (least, greatest) = (values[0] / unit, values[values.len() - 1] / unit);
    let median = values[values.len() / 2] / unit;
    format!("{median:.2} ({least:.2} to {greatest:.2})")
}

/// A line of the table: rounds of both sides in turn, after one that is not counted.
fn line(set: &Set, rounds: usize) -> String {
    let mut written = [RAW, RAW, OUTPUT, LFE].map(|length| vec![0.0; length]);
    let (mut state, mut decoder) = (McState::new(), McDecodeState::new());
    let (mut library, mut rust, mut ratios) = (vec![], vec![], vec![]);
    for round in 0..=rounds {
        let ours = library_round(set, &mut state, &mut written);
        let theirs = reference_round(set, &mut decoder);
        if round > 0 {
            library.push(ours);
            rust.push(theirs);
            ratios.push(ours / theirs);
        }
    }
    format!(
        "| {} | {} | {} | {} | {} |\n",
        set.name,
        set.bits(),
        spread(library, 1000.0),
        spread(rust, 1000.0),
        spread(ratios, 1.0)
    )
}

/// Rounds, and a file to write to in the place of standard output.
fn main() -> std::io::Result<()> {
    let mut words = std::env::args().skip(1);
    let rounds = words.next().map_or(Ok(401), |word| word.parse());
    let rounds: usize = rounds.map_err(std::io::Error::other)?;
    let mut table = format!("{NOTES}Rounds: {rounds}, frames in each: {FRAMES}.\n\n");
    table += "| frames | payload bits | library | Rust | ratio |\n|---|---|---|---|---|\n";
    for set in sets() {
        write!(table, "{}", line(&set, rounds.max(1))).expect("a string takes it");
    }
    match words.next() {
        Some(file) => std::fs::write(file, table),
        None => {
            print!("{table}");
            Ok(())
        }
    }
}
