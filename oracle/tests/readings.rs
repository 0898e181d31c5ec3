//! In what the two readings differ, and what the comparisons count of it.

use oracle::generator::damage::{self, Part};
use oracle::generator::layout::{Layout, PHANTOM_LIMIT, subband_limit};
use oracle::generator::{Plan, Random, base};
use oracle::input::READINGS;
use oracle::phantom::{counted, on_amended_head};
use oracle::scope::{Refusal, State, judge};
use oracle::{FrameInput, FrameOutput};

/// A fresh state but for its history, and more random numbers, by a seed.
fn drawn(seed: u64) -> (State, Random) {
    let mut random = Random::new(!seed);
    let state = State {
        history: base::history(&mut random),
        ..State::fresh()
    };
    (state, random)
}

/// What is said of a frame that is lent with this state, and the state afterwards.
type Said = (Result<FrameOutput, Refusal>, State);

fn said(input: &FrameInput, state: &State) -> Said {
    let mut after = state.clone();
    (judge(input, &mut after), after)
}

/// What each reading says of a frame.
fn said_by_each(input: &FrameInput, state: &State) -> [Said; 2] {
    READINGS.map(|reading| {
        let mut input = input.clone();
        input.reading = reading;
        said(&input, state)
    })
}

/// Both readings say the same of a frame of this plan that is lent with this state, but that an accepted
/// one stores its layout under reading 2 and leaves that of the state under reading 1.
fn same_but_for_the_layout(plan: &Plan, state: &State, [one, mut two]: [Said; 2]) {
    if two.0.is_ok() {
        assert_eq!(two.1.layout, plan.layout().number());
        two.1.layout = state.layout;
    }
    assert_eq!(one, two);
}

/// Under reading 2 centre code 2 is refused, over one base channel too. Every other frame without a
/// step count at a place that reading 1 bars is the same under both, where no layout is held.
#[test]
fn readings_differ_in_centre_code_2_and_in_barred_places() {
    for seed in 0..4 * Plan::SHAPES {
        let (plan, (state, _)) = (Plan::random(seed), drawn(seed));
        let [one, two] = said_by_each(&plan.input(), &state);
        assert!(one.0.is_ok(), "seed {seed}");
        match plan.head.centre {
            2 => {
                assert_eq!(two.0.unwrap_err().number, 13, "seed {seed}");
                assert_eq!(two.1, state, "seed {seed}");
            }
            _ => same_but_for_the_layout(&plan, &state, [one, two]),
        }
    }
}

/// Where a layout is held, reading 2 refuses with 5 what reading 1 accepts, if the frame has another
/// layout of that count; both store the history. Every other frame is the same under both.
#[test]
fn readings_differ_in_layouts_of_one_count() {
    let mut refused = 0;
    for seed in 0..4 * Plan::SHAPES {
        let (plan, (mut state, mut random)) = (Plan::random(seed), drawn(seed));
        if plan.head.centre == 2 {
            continue;
        }
        let held = Layout::random(&mut random);
        (state.count, state.layout) = (held.outputs() as u32, held.number());
        let [one, two] = said_by_each(&plan.input(), &state);
        let (layout, same) = (plan.layout(), held.number() == plan.layout().number());
        if held.outputs() != layout.outputs() || same {
            same_but_for_the_layout(&plan, &state, [one, two]);
            continue;
        }
        refused += 1;
        assert!(one.0.is_ok(), "seed {seed}");
        assert_eq!(two.0.unwrap_err().number, 5, "seed {seed}");
        assert_eq!((one.1.layout, one.1.accepted[0]), (state.layout, 1));
        let uncounted = State {
            accepted: state.accepted,
            ..one.1
        };
        assert_eq!(two.1, uncounted, "seed {seed}");
    }
    assert!(refused > 0);
}

/// Over two base channels the readings bar the same places: each takes or refuses a step count anywhere
/// as the other does, and refuses it where a phantom centre bars it.
#[test]
fn readings_agree_over_two_base_channels() {
    let mut barred = 0;
    for seed in 0..8 * Plan::SHAPES {
        let (plan, (state, mut random)) = (Plan::random(seed), drawn(seed));
        if plan.base_channels == 1 || plan.head.centre == 2 {
            continue;
        }
        let mut input = plan.input();
        let (channel, subband) = (random.below(3) as usize, random.below(32) as usize);
        input.nb_steps[channel][subband] = 3;
        let [one, two] = said_by_each(&input, &state);
        if plan.head.centre == 3 && channel == 0 && subband >= PHANTOM_LIMIT {
            assert_eq!(two.0.as_ref().unwrap_err().number, 8, "seed {seed}");
            barred += 1;
        }
        same_but_for_the_layout(&plan, &state, [one, two]);
    }
    assert!(barred > 0);
}

/// Random plans under reading 2 with one base channel and a phantom centre, each with a history.
fn mono_phantoms() -> impl Iterator<Item = (Plan, State, Random)> {
    let plans = (0..16 * Plan::SHAPES).map(|seed| (Plan::random_under(2, seed), seed));
    let phantoms = plans.filter(|(plan, _)| (plan.base_channels, plan.head.centre) == (1, 3));
    phantoms.map(|(plan, seed)| {
        let (state, random) = drawn(seed);
        (plan, state, random)
    })
}

/// Second left has a step count from the phantom limit on.
fn heard(plan: &Plan) -> bool {
    let mut steps = plan.payload.steps[0][PHANTOM_LIMIT..].iter();
    steps.any(|&steps| steps != 0)
}

/// Ways to spoil a frame, none first.
const SPOILS: [fn(&mut Random, &Plan, &mut FrameInput); 4] = [
    |_, _, _| (),
    |random, _, input| damage::noise(random, input, Part::Payload),
    |random, _, input| input.payload_bits -= random.bits64() % (input.payload_bits + 1),
    damage::wrong_allocation,
];

/// Two answers are the same but for the head, whose centre codes are 3 and 1, and for the layout that
/// the first stores.
fn same_but_for_the_centre(plan: &Plan, mut three: Said, one: Said) {
    assert_eq!(one.1.layout, 0);
    if three.0.is_ok() {
        assert_eq!(three.1.layout, plan.layout().number());
        three.1.layout = 0;
    }
    assert_eq!(three.1, one.1);
    match (three.0, one.0) {
        (Ok(three), Ok(one)) => {
            assert_eq!((three.head.centre_code, one.head.centre_code), (3, 1));
            assert_eq!(three.payload, one.payload);
            assert_eq!(three.span, one.span);
        }
        (three, one) => assert_eq!(three.err(), one.err()),
    }
}

/// Under reading 2 a frame over one base channel with a phantom centre is the frame under reading 1
/// with centre code 1, whole and spoiled, where no layout is held.
#[test]
fn phantom_centre_over_one_base_channel_is_code_1() {
    let mut seen = [0; 9];
    for (plan, mut state, mut random) in mono_phantoms() {
        state.count = random.pick(&[0, 2, 3]);
        let mut other = plan.clone();
        (other.reading, other.head.centre) = (1, 1);
        for spoil in SPOILS {
            let [three, one] = [&plan, &other].map(|plan| {
                let mut input = plan.input();
                spoil(&mut random.clone(), plan, &mut input);
                said(&input, &state)
            });
            let answer = one.0.as_ref().map_or_else(|refusal| refusal.number, |_| 0);
            seen[answer as usize] += u32::from(heard(&plan));
            same_but_for_the_centre(&plan, three, one);
        }
    }
    for number in [0, 1, 4, 5, 8] {
        assert!(seen[number] > 0, "{seen:?}");
    }
}

/// Reading 1 refuses a step count of second left from the phantom limit on, and takes every frame
/// without one as reading 2 does.
#[test]
fn phantom_centre_over_one_base_channel_bars_under_reading_1() {
    let mut refused = 0;
    for (plan, state, _) in mono_phantoms() {
        let [one, two] = said_by_each(&plan.input(), &state);
        assert!(two.0.is_ok());
        if heard(&plan) {
            assert_eq!((one.0.unwrap_err().number, one.1), (8, state));
            refused += 1;
        } else {
            same_but_for_the_layout(&plan, &state, [one, two]);
        }
    }
    assert!(refused > 0);
}

/// A frame that 6 or 7 refuses is not judged on any head.
#[test]
fn wild_value_comes_before_an_amended_head() {
    let mut plan = Plan::plain(1, 3, 3);
    plan.reading = 2;
    for (value, amended) in [(4.0, true), (5.0, false)] {
        plan.base.raw[0][0][0] = value;
        let input = plan.input();
        let (answer, _) = said(&input, &State::fresh());
        assert_eq!(on_amended_head(&input, &answer), amended);
    }
}

/// What the comparisons count of a mono base with a phantom centre and second stereo.
#[test]
fn frames_count_by_reading() {
    let limit = subband_limit(44_100);
    for (subband, by_reading) in [
        (PHANTOM_LIMIT - 1, [&[0][..], &[1]]),
        (PHANTOM_LIMIT, [&[3], &[1, 2]]),
        (limit - 1, [&[3], &[1, 2]]),
        (limit, [&[], &[]]),
    ] {
        let mut plan = Plan::plain(1, 3, 3);
        plan.reading = 2;
        plan.payload.steps[0][subband] = 3;
        let state = State::fresh();
        for (reading, wanted) in READINGS.into_iter().zip(by_reading) {
            let mut input = plan.input();
            input.reading = reading;
            let (answer, _) = said(&input, &state);
            assert_eq!(
                counted(&input, &state, &answer),
                wanted,
                "subband {subband}"
            );
            assert_eq!(on_amended_head(&input, &answer), reading == 2);
        }
    }
}
