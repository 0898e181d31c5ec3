//! The entries of docs/DIFFERENCES.md whose smallest input no other test runs on the published Rust,
//! one test for each entry.

use oracle::bitalloc::BitAllocTable;
use oracle::generator::Plan;
use oracle::generator::damage::{Part, cut};
use oracle::input::DESKS;
use oracle::scope::{Refusal, State, judge};
use oracle::{FrameOutput, McDecodeState, McError, leaf, reference_frame, reference_span};
use std::panic::{AssertUnwindSafe, catch_unwind};

fn accepted(plan: &Plan) -> FrameOutput {
    judge(&plan.input(), &mut State::fresh()).unwrap()
}

fn refused(plan: &Plan) -> u32 {
    let answer = judge(&plan.input(), &mut State::fresh());
    answer.unwrap_err().number
}

/// What the published code answers where the scope's own refusals are not put before it.
fn published(plan: &Plan) -> Result<FrameOutput, McError> {
    reference_frame(&plan.input(), &mut McDecodeState::new())
}

#[test]
fn entry_1_centre_code_2_is_no_centre() {
    let frame = accepted(&Plan::plain(2, 2, 0));
    assert_eq!(frame.span.head_used, 16 + 16 + 3);
    assert_eq!(frame.span.out_sub.len(), 2);
    assert_eq!(frame.head.centre_code, 2);
    let none = accepted(&Plan::plain(2, 0, 0));
    assert_eq!(frame.head.mc_header, none.head.mc_header);
}

/// Row 4 has centre and right in the two channels, row 5 left and right.
#[test]
fn entry_2_rows_of_dematrixing_and_of_crosstalk_differ() {
    let mut plan = Plan::plain(2, 1, 1);
    plan.head.tc = [5; 12];
    plan.head.crosstalk_on = true;
    plan.head.codes = [3; 12];
    plan.head.left_right = true;
    plan.base.steps = [[3; 32], [5; 32]];
    plan.base.raw = vec![vec![[0.5; 32]; 36], vec![[0.25; 32]; 36]];
    let frame = accepted(&plan);
    assert_eq!(frame.payload.nb_steps[0][0], 3);
    let (work, out) = (&frame.span.scaled_mc, &frame.span.out_sub);
    let [t2, t3] = [work[0][0][0], work[1][0][0]];
    let denorm = 1.0 + std::f64::consts::SQRT_2;
    assert_eq!(out[1][0][0], t3 * denorm);
    assert_eq!(out[2][0][0], t2 * std::f64::consts::SQRT_2 * denorm);
    plan.head.tc = [4; 12];
    assert_eq!(accepted(&plan).payload.nb_steps[0][0], 5);
}

#[test]
fn entry_4_tables_hold_the_printed_decimals() {
    let scalefactor: f64 = "1.58740105196820".parse().unwrap();
    assert_eq!(leaf::SCALEFACTORS[1], scalefactor);
    assert_ne!(scalefactor, 4.0f64.cbrt());
    let c: f64 = "1.33333333333".parse().unwrap();
    assert_eq!(leaf::class_of_quantization(3).unwrap().c, c);
    assert_ne!(c, 4.0 / 3.0);
}

#[test]
fn entry_7_check_word_is_not_verified() {
    let mut plan = Plan::plain(2, 0, 0);
    let zero = accepted(&plan).span;
    plan.head.check_word = 1;
    assert_eq!(accepted(&plan).span, zero);
}

#[test]
fn entry_8_prediction_without_a_step_count() {
    let mut plan = Plan::plain(2, 1, 0);
    plan.head.prediction_on = true;
    plan.head.predicted[0] = true;
    plan.head.counts[0][0] = 1;
    plan.payload.coefficients[0][0][0] = 127 + 32;
    plan.base.scaled[0][0][0] = 1.0;
    let frame = accepted(&plan);
    assert_eq!(frame.payload.nb_steps[0][0], 0);
    assert_eq!(frame.span.scaled_mc[0][0][0], 1.0);
}

/// The published code is lent no slices; of the numbers that it is lent it tests none.
#[test]
fn entry_13_wrong_rate_is_read_on() {
    let mut plan = Plan::plain(2, 0, 0);
    plan.sample_rate = 24_000;
    assert!(published(&plan).is_ok());
    assert_eq!(refused(&plan), 6);
}

#[test]
fn entry_14_wild_value_is_computed_on() {
    let mut plan = Plan::plain(2, 0, 0);
    plan.base.raw[0][0][0] = 4.0f64.next_up();
    assert_eq!(plan.base.raw[0][0][0], 4.000000000000001);
    assert!(published(&plan).is_ok());
    assert_eq!(refused(&plan), 7);
}

#[test]
fn entry_15_unknown_step_count() {
    let mut plan = Plan::plain(2, 1, 0);
    let mut input = plan.input();
    input.nb_steps[0][0] = 2;
    input.payload = vec![0; 64];
    input.payload_bits = 512;
    let answer = reference_frame(&input, &mut McDecodeState::new());
    assert_eq!(answer, Err(McError::UnexpectedEnd));
    let answer = judge(&input, &mut State::fresh());
    assert_eq!(answer, Err(Refusal::plain(8)));
    plan.payload.steps[0][30] = 3;
    assert_eq!(refused(&plan), 8);
}

#[test]
fn entry_16_step_count_that_the_tables_do_not_list() {
    let mut plan = Plan::plain(2, 1, 0);
    plan.payload.steps[0][26] = 31;
    for (rate, table) in [(48_000, BitAllocTable::B2a), (44_100, BitAllocTable::B2b)] {
        assert_eq!(table.allocation_index(26, 31), None);
        plan.sample_rate = rate;
        assert_eq!(accepted(&plan).payload.nb_steps[0][26], 31);
    }
}

/// The tallies are the scope's; the published state has none.
#[test]
fn entry_17_accepted_frames_stay_at_the_top() {
    let mut state = State::fresh();
    state.accepted = [u32::MAX; DESKS];
    let input = Plan::plain(2, 0, 0).input();
    assert!(judge(&input, &mut state).is_ok());
    assert_eq!((state.count, state.accepted), (2, [u32::MAX; DESKS]));
}

#[test]
fn entry_18_a_refusal_has_no_values_and_leaves_the_state() {
    let mut input = Plan::plain(2, 0, 0).input();
    cut(&mut input, Part::Head, 34, false);
    let mut state = McDecodeState::with(&[0.5; 576], Some(2));
    let answer = reference_span(&input, &mut state);
    assert_eq!(answer, Err(McError::UnexpectedEnd));
    assert_eq!(
        (state.history(), state.layout_len()),
        (vec![0.5; 576], Some(2))
    );
}

#[test]
fn entry_19_default_state_panics() {
    let input = Plan::plain(2, 0, 0).input();
    assert!(reference_span(&input, &mut McDecodeState::new()).is_ok());
    let mut state = McDecodeState::default();
    let answer = catch_unwind(AssertUnwindSafe(|| reference_span(&input, &mut state)));
    assert!(answer.is_err());
}

/// The published code has no readings: it takes the code, and finds the header alone short.
#[test]
fn entry_20_centre_code_2_stops_under_reading_2() {
    let mut input = Plan::plain(2, 2, 0).input();
    input.reading = 2;
    for (bits, published) in [(35, Ok(2)), (16, Err(McError::UnexpectedEnd))] {
        cut(&mut input, Part::Head, bits, false);
        let answer = reference_frame(&input, &mut McDecodeState::new());
        assert_eq!(answer.map(|frame| frame.span.layout.len()), published);
        let answer = judge(&input, &mut State::fresh());
        assert_eq!(answer, Err(Refusal::plain(13)));
    }
}

/// The published code has no readings: with centre code 3 it reads no step count from subband 12 on, so
/// nothing of this payload, and with code 1 it reads this frame.
#[test]
fn entry_21_phantom_centre_over_a_mono_base_under_reading_2() {
    let mut plan = Plan::plain(1, 3, 3);
    plan.reading = 2;
    plan.payload.steps[0][12] = 7;
    plan.payload.codes[0][0][12] = [7; 3];
    let published = |plan: &Plan| {
        let frame = reference_frame(&plan.input(), &mut McDecodeState::new());
        frame.unwrap().span
    };
    assert_eq!(published(&plan).payload_used, 0);
    let span = judge(&plan.input(), &mut State::fresh()).unwrap().span;
    assert_eq!(span.payload_used, 128);
    assert_ne!(span.out_sub[1][0][12], 0.0);
    plan.head.centre = 1;
    assert_eq!(published(&plan), span);
}

/// The published state holds a count of channels and no layout: it takes 2/2 after 3/1.
#[test]
fn entry_22_layouts_compared_under_reading_2() {
    let mut frames = [(1, 1), (0, 2)].map(|(centre, surround)| {
        let plan = Plan::plain(2, centre, surround);
        plan.input()
    });
    let mut decoder = McDecodeState::new();
    for input in &frames {
        assert!(reference_frame(input, &mut decoder).is_ok());
    }
    for (reading, wanted) in [(1, Ok(())), (2, Err(Refusal::plain(5)))] {
        let mut state = State::fresh();
        let answers = frames.each_mut().map(|input| {
            input.reading = reading;
            judge(input, &mut state).map(|_| ())
        });
        assert_eq!(answers, [Ok(()), wanted]);
    }
}
