//! Sequences of frames through one state: spoiled ones, then the whole one, then the next plan. Each
//! plan is drawn, and each frame lent, under a reading drawn at random, and each frame for a desk drawn
//! at random; before some frames the state is carried. Some sequences are run a second time on the
//! library, with all desks drawn anew.

use crate::case::{Case, spoil};
use crate::run::{Run, state_words, words};
use oracle::generator::damage::{self, Part, cut};
use oracle::generator::layout::Layout;
use oracle::generator::state::{Older, desk, within_stream};
use oracle::generator::{Made, Plan, Random};
use oracle::input::READINGS;
use oracle::scope::State;
use std::sync::LazyLock;

/// Plans in a sequence.
const PLANS: u32 = 8;

/// Of so many plans one is cut at every bit, if it is short.
const CUT_ONE_OF: u32 = 1024;

/// Before one of so many frames the state is carried; before as many another one is, and before as many
/// an older one is converted.
const CARRY_ONE_OF: u32 = 8;

/// Of so many sequences the calls of one are made a second time, for other desks.
const AGAIN_ONE_OF: u32 = 4;

/// The layout of each shape.
static LAYOUTS: LazyLock<Vec<Layout>> = LazyLock::new(|| {
    let shapes = (0..Plan::SHAPES).map(Plan::plain_of_shape);
    shapes.map(|plan| plan.layout()).collect()
});

/// A failed comparison and the case in words.
pub type Stopped = (crate::lent::Difference, String);

/// Compares one case; where it differs, `place` tells where it stands.
pub fn compare(run: &mut Run, case: &Case, place: impl Fn() -> String) -> Result<(), Stopped> {
    run.compare(case)
        .map_err(|difference| (difference, format!("{}\n{}", place(), words(case))))
}

/// The sequence of this number.
pub fn sequence(run: &mut Run, seed: u64, number: u64) -> Result<(), Stopped> {
    let mut random = Random::new(Random::new(seed ^ number.rotate_left(32)).bits64());
    start(run, &mut random)?;
    if random.chance(1, AGAIN_ONE_OF) {
        run.draw_desks_anew(&mut random);
    }
    for step in 0..PLANS {
        let shape = shape(&mut random, &run.state);
        let reading = random.pick(&READINGS);
        let made = Made::of(Plan::of_shape_under(reading, shape, random.bits64()));
        for _ in 0..random.below(6) {
            carryings(run, &mut random)?;
            let mut case = drawn(&mut random, &made, &run.state, &READINGS);
            spoil(&mut random, &made, &mut case);
            compare(run, &case, || {
                format!("step {step}, shape {shape}, spoiled")
            })?;
        }
        if random.chance(1, CUT_ONE_OF) && made.payload.bits < 3000 {
            every_cut(run, &made, &mut random)?;
        }
        carryings(run, &mut random)?;
        let mut case = drawn(&mut random, &made, &run.state, &READINGS);
        case.done.push("nothing");
        compare(run, &case, || format!("step {step}, shape {shape}"))?;
    }
    run.end();
    Ok(())
}

/// A case under one of these readings, for any desk.
fn drawn(random: &mut Random, made: &Made, state: &State, readings: &[u32]) -> Case {
    Case::of(made, state, random.pick(readings), desk(random))
}

/// At times carries the state, at times one that has any count, layout and history, and at times converts
/// an older one that has any.
fn carryings(run: &mut Run, random: &mut Random) -> Result<(), Stopped> {
    let stopped =
        |difference, state: &State| (difference, format!("carrying, {}", state_words(state)));
    if random.chance(1, CARRY_ONE_OF) {
        let before = run.state.clone();
        run.carry()
            .map_err(|difference| stopped(difference, &before))?;
    }
    if random.chance(1, CARRY_ONE_OF) {
        let state = any_state(random, &run.state);
        run.carry_apart(&state)
            .map_err(|difference| stopped(difference, &state))?;
    }
    if random.chance(1, CARRY_ONE_OF) {
        let older = Older::random(random);
        run.convert(&older)
            .map_err(|difference| (difference, older_words(&older)))?;
    }
    Ok(())
}

/// An older state without its history.
fn older_words(older: &Older) -> String {
    format!(
        "converting, history of {} values, layout count {}, layout {}, tally {}",
        older.history.len(),
        older.count,
        older.layout,
        older.tally
    )
}

/// A state with a count and a layout that are wrong half of the time, and as often with a history that
/// no frame may be lent.
fn any_state(random: &mut Random, state: &State) -> State {
    let mut state = state.clone();
    match random.below(4) {
        0 => {}
        1 => damage::other_layout(random, &mut state),
        _ => damage::wrong_held(random, &mut state.count, &mut state.layout),
    }
    if random.flag() {
        damage::wild_history(random, &mut state.history);
    }
    state
}

/// A frame cut at every bit, then whole; the first is one of the longest, the second one that reading 1
/// refuses, the third one with the most excesses.
pub fn cut_frame(run: &mut Run, seed: u64, number: u64) -> Result<(), Stopped> {
    let mut random = Random::new(Random::new(seed ^ number.rotate_left(32)).bits64());
    let made = Made::of(match number {
        0 => Plan::longest(),
        1 => barred_under_1(&mut random),
        2 => Plan::most_excesses(),
        _ => Plan::random_under(random.pick(&READINGS), random.bits64()),
    });
    start(run, &mut random)?;
    every_cut(run, &made, &mut random)?;
    let case = drawn(&mut random, &made, &run.state, &made.plan.readings());
    compare(run, &case, || "whole".to_string())
}

/// A mono base with a phantom centre, and a step count of second left from the limit on.
fn barred_under_1(random: &mut Random) -> Plan {
    let mut plans = std::iter::repeat_with(|| Plan::random_under(2, random.bits64()));
    let barred = plans.find(|plan| plan.barred_under(1));
    barred.expect("one plan in about a hundred is such")
}

/// Cuts both strings at every bit, under readings that bar no step count of the plan: a step count at a
/// barred place would be refused before the payload.
pub fn every_cut(run: &mut Run, made: &Made, random: &mut Random) -> Result<(), Stopped> {
    let (shorten, readings) = (random.flag(), made.plan.readings());
    for (part, bits) in [
        (Part::Head, made.head.bits),
        (Part::Payload, made.payload.bits),
    ] {
        for at in 0..bits {
            let mut case = drawn(random, made, &run.state, &readings);
            cut(&mut case.input, part, at, shorten);
            case.done.push("cut at every bit");
            compare(run, &case, || format!("{part:?} cut to {at} bits"))?;
        }
    }
    Ok(())
}

/// A fresh state half of the time, else one in the middle of a stream, which one time in two is converted
/// from an older one: nothing held, a lone count or a layout.
fn start(run: &mut Run, random: &mut Random) -> Result<(), Stopped> {
    match random.below(4) {
        0..2 => run
            .start_fresh()
            .map_err(|difference| (difference, "fresh state".to_string())),
        2 => {
            run.start_from(within_stream(random));
            Ok(())
        }
        _ => {
            let older = Older::right(random);
            run.start_converted(&older)
                .map_err(|difference| (difference, older_words(&older)))
        }
    }
}

/// A shape with the number of output channels that is held, half of the time with the layout if that is
/// known, and one time in eight any; most have a stereo base.
fn shape(random: &mut Random, state: &State) -> u64 {
    let any = state.count == 0 || random.chance(1, 8);
    let any_of_count = state.layout == 0 || random.flag();
    loop {
        let shape = random.below(Plan::SHAPES as u32);
        let layout = &LAYOUTS[shape as usize];
        let counted = layout.outputs() as u32 == state.count;
        let held = counted && (any_of_count || layout.number() == state.layout);
        let stereo = shape.is_multiple_of(2);
        if (any || held) && (stereo || random.chance(1, 4)) {
            return u64::from(shape);
        }
    }
}
