//! Desks: a tally of its own for each, refusal 14 in its order, values that never depend on the desk, and
//! the conversion of states of before there were desks.

use oracle::desks::before_what;
use oracle::generator::damage::{self, Part, WRONG_DESKS};
use oracle::generator::state::{Older, desk, tallies, within_stream};
use oracle::generator::{Kind, Plan, Random};
use oracle::held::{CONVERTED, converted};
use oracle::input::{DESKS, READINGS};
use oracle::scope::{Refusal, State, judge};
use oracle::{FrameInput, FrameOutput};
use std::collections::BTreeSet;

/// The refusal, 0 for accepted.
fn number(answer: &Result<FrameOutput, Refusal>) -> u32 {
    answer.as_ref().map_or_else(|refusal| refusal.number, |_| 0)
}

/// An accepted frame adds one to the tally of its desk, which stays at its top, and leaves the others.
/// Refusal 5, which stores the history, adds nothing.
#[test]
fn each_desk_has_its_own_tally() {
    let (random, top) = (&mut Random::new(1), u32::MAX);
    for (desk, reading) in (0..DESKS).flat_map(|desk| READINGS.map(|reading| (desk, reading))) {
        let mut input = Plan::plain(2, 0, 0).input();
        (input.reading, input.desk) = (reading, desk as u32);
        for (before, after) in [(0, 1), (7, 8), (top - 1, top), (top, top)] {
            let mut state = State::fresh();
            state.accepted = tallies(random);
            state.accepted[desk] = before;
            let mut wanted = state.accepted;
            wanted[desk] = after;
            assert_eq!(number(&judge(&input, &mut state)), 0);
            assert_eq!(state.accepted, wanted, "desk {desk}");
            (state.count, state.layout) = (3, 0);
            assert_eq!(number(&judge(&input, &mut state)), 5);
            assert_eq!(state.accepted, wanted, "desk {desk}");
        }
    }
}

/// Mends one fault of a frame.
type Mend = fn(&Plan, &mut FrameInput, &mut State);

/// Writes 0 over a field of the head.
fn clear(plan: &Plan, input: &mut FrameInput, kind: Kind, place: usize) {
    let field = plan.head_written().all(kind).nth(place).unwrap();
    damage::overwrite(input, Part::Head, field, 0);
}

/// A frame with a fault for every refusal, which are mended in the order of the refusals; and the answer
/// for a right desk after each.
const MENDED: [(Mend, u32); 10] = [
    (|_, _, _| (), 6),
    (|_, _, state| state.count = 5, 7),
    (|_, _, state| state.history[0] = 4.0, 1),
    (
        |plan, input, _| input.head_bits = plan.input().head_bits,
        13,
    ),
    (|_, input, _| input.reading = 1, 2),
    (|plan, input, _| clear(plan, input, Kind::Crosstalk, 3), 8),
    (|_, input, _| input.nb_steps[0][31] = 0, 3),
    (|plan, input, _| clear(plan, input, Kind::LayerThree, 0), 4),
    (|_, input, _| input.payload = vec![0; 64], 5),
    (|_, _, state| state.count = 4, 0),
];

fn with_every_fault() -> (Plan, FrameInput, State) {
    let mut plan = Plan::plain(2, 2, 2);
    plan.reading = 2;
    plan.head.lfe = true;
    plan.head.layer_three = true;
    plan.head.crosstalk_on = true;
    plan.head.codes[3] = 7;
    plan.payload.lfe_allocation = 1;
    plan.payload.lfe_scalefactor = 63;
    let (mut input, mut state) = (plan.input(), within_stream(&mut Random::new(1)));
    input.head_bits = 15;
    input.nb_steps[0][31] = 3;
    (state.count, state.layout, state.history[0]) = (6, 0, 5.0);
    (plan, input, state)
}

/// A wrong desk is refused with 14 whatever else is wrong, but for refusal 6, and leaves the state.
#[test]
fn wrong_desk_comes_directly_after_6() {
    let (plan, mut input, mut state) = with_every_fault();
    for (mend, right) in MENDED {
        mend(&plan, &mut input, &mut state);
        for desk in 0..DESKS as u32 {
            input.desk = desk;
            assert_eq!(number(&judge(&input, &mut state.clone())), right);
        }
        for desk in WRONG_DESKS {
            input.desk = desk;
            assert_eq!(before_what(&input, &state), right);
            let mut after = state.clone();
            let wanted = if right == 6 { 6 } else { 14 };
            let answer = judge(&input, &mut after);
            assert_eq!(answer, Err(Refusal::plain(wanted)), "desk {desk}");
            assert_eq!(after, state, "desk {desk}");
        }
    }
}

/// A frame of any layout, seven times in eight of four channels, under any reading; some are spoiled.
fn frame(random: &mut Random) -> FrameInput {
    let any = random.chance(1, 8);
    let mut plans = std::iter::repeat_with(|| Plan::random(random.bits64()));
    let plan = plans.find(|plan| any || plan.layout().outputs() == 4);
    let plan = plan.unwrap();
    let mut input = plan.input();
    input.reading = random.pick(&READINGS);
    match random.below(8) {
        0 => damage::noise(random, &mut input, Part::Payload),
        1 => damage::wrong_allocation(random, &plan, &mut input),
        2 => damage::wild_value(random, &mut input, &mut State::fresh()),
        3 => input.sample_rate = 0,
        _ => {}
    }
    input
}

/// Two states of one stream that differ in their tallies.
fn two_states(random: &mut Random) -> [State; 2] {
    let mut state = within_stream(random);
    (state.count, state.layout) = random.pick(&[(0, 0), (4, 0), (4, 22), (4, 31)]);
    let other = State {
        accepted: tallies(random),
        ..state.clone()
    };
    [state, other]
}

/// A sequence with any desks, from any tallies, gives the same answers, values, history, count and
/// layout. Each tally is what it was and the accepted frames of its desk.
#[test]
fn never_the_desk() {
    let mut seen = BTreeSet::new();
    for seed in 0..64 {
        let random = &mut Random::new(seed);
        let mut states = two_states(random);
        let mut tallies = states.each_ref().map(|state| state.accepted);
        for _ in 0..8 {
            if random.chance(1, 4) {
                let answers = states.each_mut().map(State::carry);
                assert_eq!(answers, [Ok(()); 2]);
            }
            let mut input = frame(random);
            let answers = [0, 1].map(|k: usize| {
                input.desk = desk(random);
                let answer = judge(&input, &mut states[k]);
                let tally = &mut tallies[k][input.desk as usize];
                *tally = tally.saturating_add(answer.is_ok().into());
                answer
            });
            assert_eq!(answers[0], answers[1], "seed {seed}");
            seen.insert(number(&answers[0]));
        }
        assert_eq!(states.each_ref().map(|state| state.accepted), tallies);
        let [state, other] = states;
        let accepted = state.accepted;
        assert_eq!(state, State { accepted, ..other }, "seed {seed}");
    }
    let wanted = [0, 1, 5, 6, 7, 8, 13].into();
    assert!(seen.is_superset(&wanted), "{seen:?}");
}

fn bits(values: &[f64]) -> Vec<u64> {
    values.iter().map(|value| value.to_bits()).collect()
}

/// What is carried is converted, and no other count and layout. Desk 0 has the tally and the others none;
/// history, with every kind of NaN, count and layout are kept.
#[test]
fn conversion_of_every_count_and_layout() {
    let mut older = Older::right(&mut Random::new(1));
    damage::wild_history(&mut Random::new(1), &mut older.history);
    let mut taken = 0;
    for (count, layout) in (0..=256).flat_map(|count| (0..=256).map(move |n| (count, n))) {
        (older.count, older.layout, older.tally) = (count, layout, count << 16 | layout);
        let mut state = State::fresh();
        (state.count, state.layout) = (count, layout);
        let answer = older.converted();
        assert_eq!(answer.as_ref().err(), state.carry().as_ref().err());
        let Ok(found) = answer else { continue };
        taken += 1;
        assert_eq!((found.count, found.layout), (count, layout));
        assert_eq!(found.accepted, [older.tally, 0, 0, 0, 0, 0, 0, 0]);
        assert_eq!(bits(&found.history), bits(&older.history));
    }
    assert_eq!(taken, 6 + 12);
}

/// What the comparisons count of conversions; a history of another length comes first.
#[test]
fn conversions_by_kind() {
    for (length, count, layout, kind) in [
        (576, 0, 0, "nothing held"),
        (576, 5, 0, "a lone count"),
        (576, 5, 33, "a layout"),
        (576, 6, 0, "refused, a count above 5"),
        (576, 4, 34, "refused, a layout that no header gives"),
        (576, 5, 31, "refused, a count that is not its layout's"),
        (575, 5, 33, "refused, a history of another length"),
        (577, 0, 0, "refused, a history of another length"),
        (0, 6, 0, "refused, a history of another length"),
    ] {
        let older = Older {
            history: vec![0.5; length],
            count,
            layout,
            tally: 7,
        };
        let answer = older.converted();
        assert_eq!(CONVERTED[converted(&older, &answer)], kind);
        let refusal = kind.starts_with("refused").then(|| Refusal::plain(6));
        assert_eq!(answer.err(), refusal, "{kind}");
    }
}

/// The generator's older states have every kind, refused ones half of the time, and its tallies are at
/// their top and just below it for each desk.
#[test]
fn older_states_and_tallies_of_the_generator() {
    let (random, mut kinds, mut refused) = (&mut Random::new(1), [0; CONVERTED.len()], 0);
    let mut bounds = BTreeSet::new();
    for _ in 0..1000 {
        let older = Older::random(random);
        let answer = older.converted();
        kinds[converted(&older, &answer)] += 1;
        refused += u32::from(answer.is_err());
        bounds.extend(tallies(random).into_iter().enumerate());
    }
    assert!(!kinds.contains(&0), "{kinds:?}");
    assert!((400..600).contains(&refused), "{refused}");
    for (desk, tally) in (0..DESKS).flat_map(|desk| [0, u32::MAX - 1, u32::MAX].map(|n| (desk, n)))
    {
        assert!(bounds.contains(&(desk, tally)), "desk {desk}: {tally}");
    }
}
