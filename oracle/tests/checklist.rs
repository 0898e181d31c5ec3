//! Points of the published code that are easy to miss, each on the smallest frame that shows it.

use oracle::generator::Plan;
use oracle::generator::damage::{Part, cut};
use oracle::input::DESKS;
use oracle::scope::{Buffers, Refusal, State, judge};
use oracle::{FrameOutput, leaf};

const NEGATIVE_ZERO: u64 = 1 << 63;

fn accepted(plan: &Plan) -> FrameOutput {
    judge(&plan.input(), &mut State::fresh()).unwrap()
}

fn refused(plan: &Plan) -> u32 {
    judge(&plan.input(), &mut State::fresh())
        .unwrap_err()
        .number
}

/// 3/2 with one crosstalk code in every group, and step count 7 in every place of the base.
fn crossed(code: u32) -> Plan {
    let mut plan = Plan::plain(2, 1, 2);
    plan.head.crosstalk_on = true;
    plan.head.codes = [code; 12];
    plan.base.steps = [[7; 32]; 2];
    plan
}

/// A crossed channel is never predicted: its −0 stays, though its group's flag is set. A predicted
/// channel holds no −0 before prediction, and none after it.
#[test]
fn negative_zero_and_prediction() {
    let mut plan = crossed(1);
    plan.head.prediction_on = true;
    plan.head.predicted = [true; 8];
    plan.base.raw[1] = vec![[-0.0; 32]; 36];
    let work = accepted(&plan).span.scaled_mc;
    assert_eq!(work[2][0][0].to_bits(), NEGATIVE_ZERO);
    assert_eq!(work[0][0][0].to_bits(), 0);
    for seed in 0..Plan::SHAPES {
        let plan = Plan::random(seed);
        let work = accepted(&plan).span.scaled_mc;
        let layout = plan.layout();
        for group in (0..8).filter(|&g| plan.head.prediction_on && plan.head.predicted[g]) {
            for channel in layout.predicted(plan.head.code_of(group)) {
                let slots = work[channel].iter();
                let negative = slots.filter(|slot| slot[group].to_bits() == NEGATIVE_ZERO);
                assert_eq!(negative.count(), 0, "seed {seed}");
            }
        }
    }
}

/// A place that the phantom centre bars has step count 0 even under B and under a digit.
#[test]
fn phantom_bar_stands_before_crosstalk() {
    let mut plan = crossed(7);
    plan.head.centre = 3;
    let frame = accepted(&plan);
    assert_eq!(frame.payload.nb_steps[0][11..14], [7, 0, 0]);
    assert_eq!(frame.payload.nb_steps[1][11..14], [7, 7, 7]);
    plan.head.codes = [14; 12];
    plan.payload.steps[0][..12].fill(5);
    let frame = accepted(&plan);
    assert_eq!(frame.payload.nb_steps[2][10..14], [5, 5, 0, 0]);
}

/// Fields of no bits: a mono base has no tc and no crosstalk code, whatever the flags.
#[test]
fn fields_of_no_bits() {
    let mut plan = Plan::plain(1, 0, 0);
    plan.head.one_tc = false;
    plan.head.crosstalk_on = true;
    assert_eq!(accepted(&plan).span.head_used, 16 + 16 + 3 + 1);
    assert_eq!(accepted(&plan).span.payload_used, 0);
}

/// Code 15 is refused only after the prediction bits, and its group has no predictors.
#[test]
fn unlisted_code_is_refused_after_the_prediction_bits() {
    let mut plan = crossed(0);
    plan.head.codes[2] = 15;
    plan.head.prediction_on = true;
    plan.head.predicted[2] = true;
    let mut input = plan.input();
    let wanted = Refusal {
        number: 2,
        group: 2,
        code: 15,
    };
    assert_eq!(judge(&input, &mut State::fresh()), Err(wanted));
    assert_eq!(input.head_bits, 16 + 16 + 3 + 3 + 1 + 12 * 4 + 8);
    let bits = input.head_bits - 1;
    cut(&mut input, Part::Head, bits, false);
    let answer = judge(&input, &mut State::fresh());
    assert_eq!(answer, Err(Refusal::plain(1)));
}

/// 3/1 has five rows under procedures 0 and 1, and six under 2: tc 7 takes the last of each.
#[test]
fn tc_beyond_a_list_takes_the_last_row() {
    for (procedure, last) in [(0, 4), (1, 4), (2, 5)] {
        let out = |tc: u32| {
            let mut plan = Plan::plain(2, 1, 1);
            plan.head.procedure = procedure;
            plan.head.tc = [tc; 12];
            plan.base.scaled[0] = vec![[1.0; 32]; 36];
            plan.base.scaled[1] = vec![[0.25; 32]; 36];
            plan.payload.steps[0][0] = 7;
            plan.payload.steps[1][0] = 15;
            accepted(&plan).span.out_sub
        };
        assert_eq!(out(7), out(last));
        assert_ne!(out(7), out(last - 1));
    }
}

/// For B in 3/1 the roles have six rows under every procedure, tc 5 giving left and right.
#[test]
fn base_channel_of_a_crossed_channel() {
    for (tc, left_right, wanted) in [(0, 0, 3), (0, 1, 5), (5, 1, 3), (7, 1, 3), (2, 0, 5)] {
        let mut plan = Plan::plain(2, 1, 1);
        plan.head.crosstalk_on = true;
        plan.head.codes = [3; 12];
        plan.head.left_right = left_right == 1;
        plan.head.tc = [tc; 12];
        plan.base.steps = [[3; 32], [5; 32]];
        let frame = accepted(&plan);
        assert_eq!(frame.payload.nb_steps[0][0], wanted, "tc {tc}");
    }
}

/// The tc decides roles as it was read even under procedure 3, which dematrixes without it.
#[test]
fn tc_decides_roles_under_procedure_3() {
    for (tc, wanted) in [(0, 5), (1, 3)] {
        let mut plan = crossed(7);
        plan.head.procedure = 3;
        plan.head.left_right = true;
        plan.head.tc = [tc; 12];
        plan.base.steps = [[3; 32], [5; 32]];
        assert_eq!(accepted(&plan).payload.nb_steps[0][0], wanted);
    }
}

/// A crossed channel has its own scfsi and scalefactors and no samples; raw keeps +0 there.
#[test]
fn crossed_channel() {
    let mut plan = crossed(1);
    plan.payload.scfsi[2] = [2; 32];
    plan.payload.scalefactors[2] = [[5, 0, 0]; 32];
    plan.base.raw[1][8][4] = -1.5;
    let frame = accepted(&plan);
    assert_eq!(frame.span.payload_used, 30 * (2 + 6));
    let at = (2 * 36 + 8) * 32 + 4;
    let buffers = Buffers::of(&frame);
    assert_eq!(buffers.raw[at].to_bits(), 0);
    assert_eq!(buffers.work[at], -1.5 * leaf::SCALEFACTORS[5]);
}

/// The Layer III flag is refused after the last scfsi bit and before all else.
#[test]
fn layer_three_flag_is_refused_after_scfsi() {
    let mut plan = Plan::plain(2, 1, 2);
    plan.head.layer_three = true;
    plan.payload.steps[1][3] = 7;
    for (bits, wanted) in [(0, 1), (1, 1), (2, 3)] {
        let mut input = plan.input();
        cut(&mut input, Part::Payload, bits, true);
        let answer = judge(&input, &mut State::fresh());
        assert_eq!(answer, Err(Refusal::plain(wanted)));
    }
    plan.payload.steps = [[0; 32]; 3];
    assert_eq!(refused(&plan), 3);
}

/// A scalefactor is read whole before it is refused, and refused before the next is read.
#[test]
fn short_comes_before_reserved_field_by_field() {
    let mut plan = Plan::plain(2, 1, 2);
    plan.payload.steps[0][0] = 7;
    plan.payload.scalefactors[0][0] = [63; 3];
    for (bits, wanted) in [(2 + 5, 1), (2 + 6, 4)] {
        let mut input = plan.input();
        cut(&mut input, Part::Payload, bits, true);
        let answer = judge(&input, &mut State::fresh());
        assert_eq!(answer, Err(Refusal::plain(wanted)));
    }
}

/// Refusal 5 stores the history, one base channel into both, and nothing else.
#[test]
fn layout_change_stores_the_history_alone() {
    let mut plan = Plan::plain(1, 0, 0);
    plan.base.scaled[0] = vec![[0.5; 32]; 36];
    let mut state = State::fresh();
    (state.count, state.accepted) = (5, [7; DESKS]);
    let answer = judge(&plan.input(), &mut state);
    assert_eq!(answer, Err(Refusal::plain(5)));
    assert_eq!((state.count, state.accepted), (5, [7; DESKS]));
    assert_eq!(state.history, vec![0.5; 576]);
}

/// LFE samples without an LFE allocation are +0; with one they come before a granule's samples.
#[test]
fn lfe_samples() {
    let mut plan = Plan::plain(2, 1, 2);
    plan.head.lfe = true;
    assert_eq!(accepted(&plan).span.lfe_samples, [0.0; 12]);
    plan.payload.lfe_allocation = 15;
    plan.payload.lfe_codes = [0xFFFF; 12];
    plan.payload.steps[0][0] = 3;
    let input = plan.input();
    assert_eq!(input.payload_bits, 2 + 6 + 18 + 12 * (16 + 5));
    let lfe = accepted(&plan).span.lfe_samples;
    assert_eq!(lfe, [leaf::lfe_sample(15, 0, 0xFFFF); 12]);
}
