//! The boundary frames, on the reference.

use oracle::generator::Plan;
use oracle::generator::damage::{Part, cut};
use oracle::mc::sbgr_of_subband;
use oracle::scope::{Refusal, State, judge};
use oracle::{FrameOutput, leaf};

fn refusal(number: u32) -> Refusal {
    Refusal::plain(number)
}

fn raw(steps: u32, code: u32) -> f64 {
    leaf::requantize_code(&leaf::class_of_quantization(steps).unwrap(), code)
}

fn digits(steps: u32, code: u32) -> [u32; 3] {
    leaf::degroup(&leaf::class_of_quantization(steps).unwrap(), code).unwrap()
}

#[test]
fn leaves() {
    assert_eq!(raw(3, 1).to_bits(), 0.0f64.to_bits());
    assert_eq!(raw(7, 7), leaf::class_of_quantization(7).unwrap().c);
    assert_eq!(digits(3, 26), [2, 2, 2]);
    assert_eq!(digits(3, 27), [0, 0, 0]);
    assert_eq!(digits(3, 31), [1, 1, 0]);
    assert_eq!(digits(5, 127), [2, 0, 0]);
    assert_eq!(digits(9, 1023), [6, 5, 3]);
    assert_eq!(leaf::pred_coef(0), -3.96875);
    assert_eq!(leaf::pred_coef(127).to_bits(), 0.0f64.to_bits());
    assert_eq!(leaf::pred_coef(255), 4.0);
    assert_eq!(leaf::requantize_lfe(1, 2).to_bits(), 0.0f64.to_bits());
    assert_eq!((sbgr_of_subband(15), sbgr_of_subband(16)), (10, 11));
}

#[test]
fn last_listed_code_passes_and_the_next_is_refused() {
    for (surround, last) in [(2, 14), (1, 4)] {
        for (code, group) in [(last, 5), (last + 1, 5), (last + 1, 11)] {
            let mut plan = Plan::plain(2, 1, surround);
            plan.head.crosstalk_on = true;
            plan.head.codes[group] = code;
            let answer = judge(&plan.input(), &mut State::fresh()).map(|_| ());
            let forbidden = Refusal {
                number: 2,
                group: group as u32,
                code,
            };
            let wanted = if code == last { Ok(()) } else { Err(forbidden) };
            assert_eq!(answer, wanted);
        }
    }
}

#[test]
fn delay_7_and_third_coefficient_reach_the_oldest_history_value() {
    let mut plan = Plan::plain(2, 1, 2);
    plan.head.prediction_on = true;
    plan.head.predicted[3] = true;
    plan.head.counts[3][0] = 3;
    plan.payload.delays[3][0] = 7;
    plan.payload.coefficients[3][0] = [127, 127, 255];
    let mut state = State::fresh();
    state.history[3 * 9] = 0.5;
    let frame = judge(&plan.input(), &mut state).unwrap();
    assert_eq!(frame.span.scaled_mc[0][0][3], 2.0);
    assert_eq!(frame.span.scaled_mc[0][1][3], 0.0);
}

#[test]
fn scalefactor_62_passes_and_63_is_refused() {
    for (code, wanted) in [(62, Ok(())), (63, Err(refusal(4)))] {
        let mut plan = Plan::plain(2, 1, 2);
        plan.payload.steps[2][29] = 7;
        plan.payload.scalefactors[2][29] = [0, 0, code];
        let answer = judge(&plan.input(), &mut State::fresh()).map(|_| ());
        assert_eq!(answer, wanted);
        let mut plan = Plan::plain(2, 1, 2);
        plan.head.lfe = true;
        plan.payload.lfe_allocation = 1;
        plan.payload.lfe_scalefactor = code;
        let answer = judge(&plan.input(), &mut State::fresh()).map(|_| ());
        assert_eq!(answer, wanted);
    }
}

#[test]
fn longest_head_and_payload() {
    let mut plan = Plan::longest();
    plan.head.crosstalk_on = true;
    for (plan, part, bits) in [
        (&plan, Part::Head, 232),
        (&Plan::longest(), Part::Payload, 55_134),
    ] {
        let mut input = plan.input();
        let frame = judge(&input, &mut State::fresh()).unwrap();
        let used = match part {
            Part::Head => frame.span.head_used,
            Part::Payload => frame.span.payload_used,
        };
        assert_eq!(used, bits);
        cut(&mut input, part, bits - 1, false);
        assert_eq!(judge(&input, &mut State::fresh()), Err(refusal(1)));
    }
}

/// Under reading 1, which the plans have.
#[test]
fn layouts_of_equal_length_follow_each_other() {
    let mut state = State::fresh();
    for (centre, surround, wanted) in [(1, 1, Ok(())), (0, 2, Ok(())), (1, 2, Err(refusal(5)))] {
        let input = Plan::plain(2, centre, surround).input();
        assert_eq!(judge(&input, &mut state).map(|_| ()), wanted);
    }
    assert_eq!((state.count, state.layout, state.accepted[0]), (4, 0, 2));
}

/// Mono base, phantom centre, second stereo; second left has 7 steps and the highest code in these
/// subbands.
fn phantom(reading: u32, subbands: &[usize]) -> Plan {
    let mut plan = Plan::plain(1, 3, 3);
    plan.reading = reading;
    plan.base.scaled[0] = vec![[0.25; 32]; 36];
    for &sb in subbands {
        plan.payload.steps[0][sb] = 7;
        plan.payload.codes[0][0][sb] = [7; 3];
    }
    plan
}

/// Second left in the first slot: transmitted in these subbands, +0 in the others below the limit, and
/// the base value from it on.
fn second_left_is_heard(frame: &FrameOutput, subbands: &[usize]) {
    let second_left = frame.span.out_sub[1][0];
    for (sb, value) in second_left.into_iter().enumerate() {
        if subbands.contains(&sb) {
            assert!(![0.0, 0.25].contains(&value), "subband {sb}");
        } else {
            let wanted = if sb < 30 { 0.0f64 } else { 0.25 };
            assert_eq!(value.to_bits(), wanted.to_bits(), "subband {sb}");
        }
    }
}

#[test]
fn mono_base_with_phantom_and_second_stereo() {
    for (reading, subbands, accepted) in [
        (1, vec![11], true),
        (1, vec![11, 12], false),
        (1, vec![30], false),
        (2, vec![11], true),
        (2, vec![11, 12], true),
        (2, vec![29], true),
        (2, vec![30], false),
    ] {
        let plan = phantom(reading, &subbands);
        let answer = judge(&plan.input(), &mut State::fresh());
        match accepted {
            true => second_left_is_heard(&answer.unwrap(), &subbands),
            false => assert_eq!(answer, Err(refusal(8))),
        }
    }
}

#[test]
fn mono_base_with_stereo_surround() {
    let mut plan = Plan::plain(1, 0, 2);
    plan.base.scaled[0] = vec![[-0.25; 32]; 36];
    let out = judge(&plan.input(), &mut State::fresh())
        .unwrap()
        .span
        .out_sub;
    assert_eq!(out.len(), 3);
    assert_eq!(out[0], out[1]);
    assert!(out[2].iter().flatten().all(|value| value.to_bits() == 0));
}
