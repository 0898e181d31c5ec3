//! The refusals that the scope adds, and the order of all.

use oracle::FrameInput;
use oracle::generator::damage::{self, Part, WRONG_DESKS, WRONG_READINGS};
use oracle::generator::layout::Layout;
use oracle::generator::{Kind, Plan, Random, base};
use oracle::input::READINGS;
use oracle::scope::{Refusal, State, judge};
use std::collections::BTreeSet;

/// A plan with a history, by its seed.
fn lent(seed: u64) -> (Plan, State, Random) {
    let random = &mut Random::new(!seed);
    let mut state = State::fresh();
    state.history = base::history(random);
    (Plan::random(seed), state, random.clone())
}

type Spoil = fn(&mut Random, &mut FrameInput, &mut State);

/// Refusals that come before a string is read, and ways to them.
const FIRST: [(u32, Spoil); 3] = [
    (6, damage::wrong_loan),
    (14, |random, input, _| {
        input.desk = random.pick(&WRONG_DESKS)
    }),
    (7, damage::wild_value),
];

#[test]
fn wrong_loans_desks_and_wild_values_come_first() {
    for seed in 0..4 * Plan::SHAPES {
        let (plan, before, mut random) = lent(seed);
        for (number, spoil) in FIRST {
            let (mut input, mut state) = (plan.input(), before.clone());
            damage::noise(&mut random, &mut input, Part::Head);
            damage::noise(&mut random, &mut input, Part::Payload);
            spoil(&mut random, &mut input, &mut state);
            let answer = judge(&input, &mut state);
            assert_eq!(answer.unwrap_err().number, number, "seed {seed}");
        }
    }
}

#[test]
fn wrong_allocations_come_after_the_head_and_before_the_payload() {
    for seed in 0..16 * Plan::SHAPES {
        let (plan, mut state, mut random) = lent(seed);
        let mut input = plan.input();
        damage::wrong_allocation(&mut random, &plan, &mut input);
        damage::cut(&mut input, Part::Payload, 0, true);
        let answer = judge(&input, &mut state);
        assert_eq!(answer.unwrap_err().number, 8, "seed {seed}");
        let bits = input.head_bits - 1;
        damage::cut(&mut input, Part::Head, bits, true);
        let answer = judge(&input, &mut state);
        assert_eq!(answer.unwrap_err().number, 1, "seed {seed}");
    }
}

/// The number of the answer of a fresh state, 0 for acceptance.
fn number(input: &FrameInput) -> u32 {
    let answer = judge(input, &mut State::fresh());
    answer.map_or_else(|refusal| refusal.number, |_| 0)
}

#[test]
fn another_reading_is_a_wrong_loan() {
    let mut input = Plan::plain(2, 0, 0).input();
    for reading in WRONG_READINGS {
        input.reading = reading;
        assert_eq!(number(&input), 6, "reading {reading}");
    }
    for reading in READINGS {
        input.reading = reading;
        assert_eq!(number(&input), 0, "reading {reading}");
    }
}

/// What may be held: nothing or a lone count, or the layout of any header with its count.
fn held_rightly() -> BTreeSet<(u32, u32)> {
    let layouts = Layout::all().map(|layout| (layout.outputs() as u32, layout.number()));
    layouts.chain((0..=5).map(|count| (count, 0))).collect()
}

/// Any other count and layout is a wrong loan of a frame under either reading, and so it is of carrying.
#[test]
fn wrong_counts_and_layouts() {
    let right = held_rightly();
    assert_eq!(right.len(), 6 + 12);
    let inputs = READINGS.map(|reading| {
        let mut input = Plan::plain(2, 0, 0).input();
        input.reading = reading;
        input
    });
    let mut state = State::fresh();
    for (count, layout) in (0..=256).flat_map(|count| (0..=256).map(move |n| (count, n))) {
        (state.count, state.layout) = (count, layout);
        let right = right.contains(&(count, layout));
        for input in &inputs {
            let mut after = state.clone();
            let answer = judge(input, &mut after);
            let wrong = answer == Err(Refusal::plain(6));
            assert_eq!(wrong, !right, "layout {layout} of {count}");
            assert!(right || after == state);
        }
        let mut after = state.clone();
        let wrong = after.carry() == Err(Refusal::plain(6));
        assert_eq!(wrong, !right, "layout {layout} of {count}");
        assert!(right || after == state);
    }
}

/// A frame of 2/2 after 3/1 under reading 2, with many faults that are mended one after another.
#[test]
fn other_layout_comes_last() {
    let mut plan = Plan::plain(2, 0, 2);
    plan.reading = 2;
    plan.head.lfe = true;
    plan.head.layer_three = true;
    plan.payload.lfe_allocation = 1;
    plan.payload.lfe_scalefactor = 63;
    let mut state = State::fresh();
    (state.count, state.layout) = (4, 34);
    state.history[0] = 5.0;
    let number = |plan: &Plan, state: &State| {
        let answer = judge(&plan.input(), &mut state.clone());
        answer.map_or_else(|refusal| refusal.number, |_| 0)
    };
    assert_eq!(number(&plan, &state), 6);
    state.layout = 31;
    assert_eq!(number(&plan, &state), 7);
    state.history[0] = 4.0;
    assert_eq!(number(&plan, &state), 3);
    plan.head.layer_three = false;
    assert_eq!(number(&plan, &state), 4);
    plan.payload.lfe_scalefactor = 62;
    assert_eq!(number(&plan, &state), 5);
    plan.reading = 1;
    assert_eq!(number(&plan, &state), 0);
    plan.reading = 2;
    state.layout = 22;
    assert_eq!(number(&plan, &state), 0);
}

/// From the header's last bit on, whether a check word follows or not.
#[test]
fn undefined_centre_comes_after_the_header() {
    for base_channels in [1, 2] {
        for (n_ad_bytes, header) in [(None, 16), (Some(255), 24)] {
            let mut plan = Plan::plain(base_channels, 2, 2);
            plan.head.n_ad_bytes = n_ad_bytes;
            let whole = plan.input();
            for bits in 0..=whole.head_bits {
                let mut input = whole.clone();
                damage::cut(&mut input, Part::Head, bits, bits.is_multiple_of(2));
                let short = u32::from(bits < whole.head_bits);
                assert_eq!(number(&input), short, "{bits} bits");
                input.reading = 2;
                let wanted = if bits < header { 1 } else { 13 };
                assert_eq!(number(&input), wanted, "{bits} bits");
            }
        }
    }
}

/// A frame with many faults, mended one after another.
#[test]
fn undefined_centre_in_its_order() {
    let mut plan = Plan::plain(2, 2, 2);
    plan.head.crosstalk_on = true;
    plan.head.codes[3] = 7;
    let code = plan.head_written().all(Kind::Crosstalk).nth(3).unwrap();
    let mut input = plan.input();
    let whole = input.head_bits;
    input.nb_steps[0][31] = 3;
    input.base_raw[0][0][0] = 5.0;
    input.head_bits = 15;
    input.desk = 8;
    input.reading = 3;
    assert_eq!(number(&input), 6);
    input.reading = 2;
    assert_eq!(number(&input), 14);
    input.desk = 7;
    assert_eq!(number(&input), 7);
    input.base_raw[0][0][0] = 0.0;
    assert_eq!(number(&input), 1);
    input.head_bits = 16;
    assert_eq!(number(&input), 13);
    input.head_bits = whole;
    assert_eq!(number(&input), 13);
    input.reading = 1;
    assert_eq!(number(&input), 2);
    damage::overwrite(&mut input, Part::Head, code, 0);
    assert_eq!(number(&input), 8);
    input.nb_steps[0][31] = 0;
    assert_eq!(number(&input), 0);
}

#[test]
fn bounds_of_values_are_in() {
    let mut plan = Plan::plain(2, 0, 0);
    plan.base.raw[0][0][0] = 4.0;
    plan.base.scaled[1][35][31] = -4.0;
    let mut state = State::fresh();
    state.history[575] = 4.0;
    assert!(judge(&plan.input(), &mut state).is_ok());
}

#[test]
fn refused_frames_leave_the_state_but_for_the_history_of_5() {
    let mut seen = [0; 15];
    let held: Vec<(u32, u32)> = held_rightly().into_iter().collect();
    for seed in 0..8 * Plan::SHAPES {
        let (plan, mut state, mut random) = lent(seed);
        (state.count, state.layout) = random.pick(&held);
        let mut input = plan.input();
        input.reading = random.pick(&READINGS);
        input.desk = random.below(9);
        spoil_bits(&mut random, &plan, &mut input);
        let before = state.clone();
        let Err(refusal) = judge(&input, &mut state) else {
            seen[0] += 1;
            continue;
        };
        seen[refusal.number as usize] += 1;
        if refusal.number == 5 {
            let newest = input.base_scaled[0][35][0];
            assert_eq!(state.history[8].to_bits(), newest.to_bits());
            state.history = before.history.clone();
            assert_eq!(state, before, "seed {seed}");
        } else {
            assert_eq!(state, before, "seed {seed}");
        }
    }
    for number in [0, 1, 2, 3, 4, 5, 8, 13, 14] {
        assert!(seen[number] > 0, "{seen:?}");
    }
}

/// One of the ways to spoil a string, or none.
fn spoil_bits(random: &mut Random, plan: &Plan, input: &mut FrameInput) {
    let (head, payload) = (plan.head_written(), plan.payload_written());
    let scalefactors: Vec<_> = payload.all(Kind::Scalefactor).collect();
    let codes: Vec<_> = head.all(Kind::Crosstalk).collect();
    match random.below(6) {
        0 => damage::flip(input, Part::Head, random.bits64() % head.bits),
        1 if payload.bits > 0 => {
            damage::flip(input, Part::Payload, random.bits64() % payload.bits);
        }
        2 if !scalefactors.is_empty() => {
            damage::overwrite(input, Part::Payload, random.pick(&scalefactors), 63);
        }
        3 if !codes.is_empty() => {
            let field = random.pick(&codes);
            damage::overwrite(input, Part::Head, field, (1 << field.width) - 1);
        }
        4 => {
            let flag = head.all(Kind::LayerThree).next().unwrap();
            damage::overwrite(input, Part::Head, flag, 1);
        }
        _ => {}
    }
}
