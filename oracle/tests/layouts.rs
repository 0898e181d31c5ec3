//! The layouts that a state holds: their numbers, what each reading makes of them, carrying, and a change
//! of reading in a sequence.

use oracle::generator::damage::{self, Part};
use oracle::generator::layout::Layout;
use oracle::generator::state::tallies;
use oracle::generator::{Plan, Random, base};
use oracle::held::{CARRIED, HELD, carried, held};
use oracle::input::{DESKS, READINGS};
use oracle::mc::McChannel;
use oracle::scope::{Refusal, State, judge};
use oracle::trail::{CHANGES, Trail};
use oracle::{FrameInput, FrameOutput, layouts, reference_head};
use std::collections::{BTreeMap, BTreeSet};

/// Plain frames with every header that decides a layout: base channels, centre and surround code.
fn plans() -> impl Iterator<Item = Plan> {
    (0..32).map(|k| Plan::plain(1 + k as usize % 2, k / 2 % 4, k / 8))
}

/// The output channels of a plan by the published Rust.
fn channels(plan: &Plan) -> Vec<McChannel> {
    let head = plan.head_written();
    let head = reference_head(&head.bytes, head.bits, plan.base_channels);
    head.unwrap().layout
}

/// The layouts of all headers, by number.
fn twelve() -> BTreeMap<u32, Layout> {
    Layout::all()
        .map(|layout| (layout.number(), layout))
        .collect()
}

/// The numbers, and that different ones have different channels.
#[test]
fn every_header_has_the_layout_of_its_number() {
    let numbers: Vec<u32> = twelve().into_keys().collect();
    assert_eq!(numbers, [10, 11, 12, 13, 20, 21, 22, 23, 30, 31, 32, 33]);
    for plan in plans() {
        let (channels, layout) = (channels(&plan), plan.layout());
        assert_eq!(layouts::number(&channels), layout.number());
        for &number in &numbers {
            let same = layouts::channels(number) == Some(&channels[..]);
            assert_eq!(same, number == layout.number());
        }
        assert_eq!(channels.len(), layout.outputs());
    }
    for number in (0..=1000).chain([u32::MAX - 10, u32::MAX]) {
        let known = layouts::channels(number).is_some();
        assert_eq!(known, numbers.contains(&number), "{number}");
    }
}

/// The refusal, 0 for accepted.
fn number(answer: &Result<FrameOutput, Refusal>) -> u32 {
    answer.as_ref().map_or_else(|refusal| refusal.number, |_| 0)
}

/// States with nothing held, each lone count and each layout.
fn states() -> Vec<State> {
    let layouts = twelve().into_values();
    let known = layouts.map(|layout| (layout.outputs() as u32, layout.number()));
    let held = (0..=5).map(|count| (count, 0)).chain(known);
    held.map(|(count, layout)| State {
        count,
        layout,
        accepted: [7; DESKS],
        ..State::fresh()
    })
    .collect()
}

/// Every header after every state under each reading, but for centre code 2 under reading 2. All scaled
/// base values are 0.5.
fn frames_after_states() -> impl Iterator<Item = (Plan, State)> {
    let plans = plans().flat_map(|plan| {
        READINGS.map(|reading| Plan {
            reading,
            ..plan.clone()
        })
    });
    let taken = plans.filter(|plan| (plan.reading, plan.head.centre) != (2, 2));
    taken.flat_map(|mut plan| {
        plan.base.scaled.fill(vec![[0.5; 32]; 36]);
        states().into_iter().map(move |state| (plan.clone(), state))
    })
}

/// Whether a frame of the plan may follow, by the rule of its reading.
fn follows(plan: &Plan, state: &State) -> bool {
    let layout = plan.layout();
    match (plan.reading, state.layout) {
        _ if state.count == 0 => true,
        (2, 1..) => state.layout == layout.number(),
        _ => state.count == layout.outputs() as u32,
    }
}

/// The answer, and count, layout and tally after it. The history is stored in any case.
#[test]
fn frames_by_what_is_held() {
    let mut seen = [[0; 2]; HELD.len()];
    for (plan, state) in frames_after_states() {
        let (layout, place) = (plan.layout(), held(&state, &channels(&plan)));
        let mut after = state.clone();
        let answer = judge(&plan.input(), &mut after);
        let wanted = match follows(&plan, &state) {
            true if plan.reading == 2 => (0, layout.outputs() as u32, layout.number(), 8),
            true => (0, layout.outputs() as u32, state.layout, 8),
            false => (5, state.count, state.layout, 7),
        };
        let tally = after.accepted[0];
        let found = (number(&answer), after.count, after.layout, tally);
        assert_eq!(found, wanted, "reading {}, {state:?}", plan.reading);
        assert_eq!(after.history, [0.5; 576]);
        let reading = plan.reading as usize - 1;
        assert_eq!(HELD[place].1[reading], wanted.0);
        seen[place][reading] += 1;
    }
    assert!(!seen.as_flattened().contains(&0), "{seen:?}");
}

fn history_bits(state: &State) -> Vec<u64> {
    state.history.iter().map(|value| value.to_bits()).collect()
}

/// Any history, with every kind of NaN, and all tallies stay in all bits; of a layout the count stays.
#[test]
fn carrying_keeps_all_but_the_layout() {
    let random = &mut Random::new(1);
    for before in states() {
        let mut before = State {
            accepted: tallies(random),
            ..before
        };
        damage::wild_history(random, &mut before.history);
        let mut after = before.clone();
        let answer = after.carry();
        assert_eq!(answer, Ok(()));
        assert_eq!(history_bits(&after), history_bits(&before));
        let wanted = (before.count, 0, before.accepted);
        assert_eq!((after.count, after.layout, after.accepted), wanted);
        let kind = match (before.count, before.layout) {
            (0, _) => "nothing held",
            (_, 0) => "a lone count",
            _ => "a layout",
        };
        assert_eq!(CARRIED[carried(&before, &answer)], kind);
    }
}

#[test]
fn wrong_states_are_not_carried() {
    for (count, layout, kind) in [
        (6, 0, "refused, a count above 5"),
        (6, 33, "refused, a count above 5"),
        (4, 34, "refused, a layout that no header gives"),
        (0, 3, "refused, a layout that no header gives"),
        (5, 31, "refused, a count that is not its layout's"),
        (0, 10, "refused, a count that is not its layout's"),
    ] {
        let before = State {
            count,
            layout,
            accepted: [7; DESKS],
            ..State::fresh()
        };
        let mut after = before.clone();
        let answer = after.carry();
        assert_eq!(answer, Err(Refusal::plain(6)));
        assert_eq!(after, before);
        assert_eq!(CARRIED[carried(&before, &answer)], kind);
    }
}

/// A frame for a sequence of so many output channels: seven times in eight it has them, and one time in
/// four its bits are spoiled.
fn frame(random: &mut Random, outputs: usize) -> FrameInput {
    let any = random.chance(1, 8);
    let mut plans = std::iter::repeat_with(|| Plan::random(random.bits64()));
    let plan = plans
        .find(|plan| any || plan.layout().outputs() == outputs)
        .unwrap();
    let mut input = plan.input();
    match random.below(8) {
        0 => damage::noise(random, &mut input, Part::Payload),
        1 => damage::wrong_allocation(random, &plan, &mut input),
        _ => {}
    }
    input
}

/// A state that a sequence under reading 1 leaves, and the number of its output channels.
fn after_reading_1(random: &mut Random) -> (State, usize) {
    let states = states();
    let mut state = states[random.below(states.len() as u32) as usize].clone();
    state.history = base::history(random);
    let outputs = match state.count {
        0 => 4,
        count => count as usize,
    };
    for _ in 0..random.below(4) {
        let _ = judge(&frame(random, outputs), &mut state);
    }
    (state, outputs)
}

/// After a sequence under reading 1 and carrying, frames under reading 2 give what they give from that
/// history and count alone, whatever the tallies.
#[test]
fn one_change_in_a_sequence() {
    let (mut seen, mut known) = (BTreeSet::new(), 0);
    for seed in 0..48 {
        let random = &mut Random::new(seed);
        let (mut state, outputs) = after_reading_1(random);
        let mut other = State {
            history: state.history.clone(),
            count: state.count,
            accepted: tallies(random),
            ..State::fresh()
        };
        known += u32::from(state.layout != 0);
        state.carry().unwrap();
        for _ in 0..6 {
            let mut input = frame(random, outputs);
            input.reading = 2;
            let before = [state.accepted, other.accepted];
            let answers = [&mut state, &mut other].map(|state| judge(&input, state));
            assert_eq!(answers[0], answers[1], "seed {seed}");
            let accepted = u32::from(answers[0].is_ok());
            let counted = before.map(|mut tallies| {
                tallies[0] = tallies[0].saturating_add(accepted);
                tallies
            });
            assert_eq!([state.accepted, other.accepted], counted);
            let mut recounted = state.clone();
            recounted.accepted = other.accepted;
            assert_eq!(recounted, other, "seed {seed}");
            seen.insert(number(&answers[0]));
        }
    }
    assert!(known > 0);
    assert!(seen.is_superset(&[0, 1, 5, 8, 13].into()), "{seen:?}");
}

/// What the comparisons count of the readings of a sequence: whether the state is carried before a frame,
/// its reading, and the change with it.
#[test]
fn changes_of_reading() {
    let steps = [
        (true, 1, None),
        (false, 1, None),
        (true, 2, Some("1 to 2 carried")),
        (false, 1, Some("2 to 1")),
        (true, 3, None),
        (false, 2, Some("1 to 2 carried")),
        (true, 2, None),
        (true, 1, Some("2 to 1 carried")),
        (false, 2, Some("1 to 2")),
    ];
    let mut trail = Trail::default();
    for (step, (carried, reading, wanted)) in steps.into_iter().enumerate() {
        if carried {
            trail.carry();
        }
        let change = trail.frame(reading).map(|place| CHANGES[place]);
        assert_eq!(change, wanted, "step {step}");
        assert_eq!(trail.changed, step >= 2);
    }
    assert_eq!(trail.frames, steps.len() as u64);
}
