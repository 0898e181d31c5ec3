//! Desks: which tally rises, what no desk changes, refusal 14, and states of before there were desks.

mod lent;

use koftabasin::{McError, McState};
use lent::{Change, Lent, WRONG_LOANS, every_held, first, history_bits, pattern_bits};

/// No two are alike.
const TALLIES: [u32; 8] = [10, 21, 32, 43, 54, 65, 76, 87];

/// All that a state holds, the history in bits.
type Whole = ([u64; 576], u8, u8, [u32; 8]);

fn whole(state: &McState) -> Whole {
    let (layout_len, layout) = (state.layout_len(), state.layout());
    (history_bits(state), layout_len, layout, *state.accepted())
}

/// The frame is refused so on this state, and leaves the buffers and the state alone.
fn refused(mut lent: Lent, mut state: McState, error: McError) {
    let before = whole(&state);
    assert_eq!(lent.decode(&mut state), Err(error));
    assert!(lent.untouched());
    assert_eq!(whole(&state), before);
}

#[test]
fn each_desk_counts_for_itself() {
    let (mut state, mut tallies) = (McState::with([0.0; 576], 0, 0, TALLIES), TALLIES);
    for desk in [0, 1, 2, 3, 4, 5, 6, 7, 3, 0, 7, 7] {
        let mut lent = Lent::smallest().of_desk(desk);
        assert!(lent.decode(&mut state).is_ok());
        tallies[desk as usize] += 1;
        assert_eq!(state.accepted(), &tallies);
    }
}

#[test]
fn tally_stays_at_its_top() {
    for desk in 0..8 {
        let mut tallies = [u32::MAX - 1; 8];
        let mut state = McState::with([0.0; 576], 0, 0, tallies);
        tallies[desk as usize] = u32::MAX;
        for _ in 0..2 {
            let mut lent = Lent::smallest().of_desk(desk);
            assert!(lent.decode(&mut state).is_ok());
            assert_eq!(state.accepted(), &tallies);
        }
    }
}

/// Each has a desk in its lowest three bits, 256 and 257 in the lowest byte, 65,536 in the lowest two.
#[test]
fn no_desk_above_7() {
    for desk in [8, 9, 255, 256, 257, 65_536, u32::MAX] {
        for reading in [1, 2] {
            let mut lent = Lent::smallest().of_desk(desk);
            lent.reading = reading;
            let state = McState::with([0.5; 576], 2, 20, TALLIES);
            refused(lent.clone(), state, McError::InvalidDesk);
            refused(lent, McState::new(), McError::InvalidDesk);
        }
    }
}

#[test]
fn wrong_loan_comes_before_the_desk() {
    for change in WRONG_LOANS {
        let mut lent = Lent::smallest().of_desk(8);
        change(&mut lent);
        let state = McState::with([0.5; 576], 2, 20, TALLIES);
        refused(lent, state, McError::InvalidArgument);
    }
    for (layout_len, layout) in [(6, 0), (4, 34), (5, 31)] {
        let state = McState::with([0.5; 576], layout_len, layout, TALLIES);
        let lent = Lent::smallest().of_desk(8);
        refused(lent, state, McError::InvalidArgument);
    }
}

/// A wild value, then those of the head and of the payload: each is refusal 14 from desk 8.
#[test]
fn desk_comes_before_the_other_refusals() {
    let stopped: [(Change, McError); 7] = [
        (|lent| lent.base[2][0] = f64::NAN, McError::ValueOutOfRange),
        (|lent| lent.head_bits = 0, McError::UnexpectedEnd),
        (|lent| lent.head_bits = 34, McError::UnexpectedEnd),
        (
            |lent| (lent.head[0], lent.reading) = (0x40, 2),
            McError::UndefinedCentre,
        ),
        (|lent| lent.nb_steps[95] = 3, McError::InvalidAllocation),
        (|lent| lent.head[1] = 4, McError::MlLayer3Unsupported),
        (
            |lent| (lent.head[0], lent.lfe_allocation, lent.payload) = (4, 1, vec![0xFC; 4]),
            McError::ReservedScalefactor,
        ),
    ];
    let state = McState::with([0.5; 576], 2, 0, TALLIES);
    for (change, error) in stopped {
        let mut lent = Lent::smallest();
        change(&mut lent);
        refused(lent.clone().of_desk(7), state.clone(), error);
        refused(lent.of_desk(8), state.clone(), McError::InvalidDesk);
    }
    let wild = McState::with(pattern_bits().map(f64::from_bits), 2, 20, TALLIES);
    let lent = Lent::smallest();
    refused(
        lent.clone().of_desk(7),
        wild.clone(),
        McError::ValueOutOfRange,
    );
    refused(lent.of_desk(8), wild, McError::InvalidDesk);
}

/// It stores the history and counts for no desk; from desk 8 it is refusal 14, which stores nothing.
#[test]
fn changed_layout() {
    let state = McState::with([0.5; 576], 5, 32, TALLIES);
    for desk in 0..8 {
        let (mut lent, mut state) = (Lent::smallest().of_desk(desk), state.clone());
        assert_eq!(lent.decode(&mut state), Err(McError::ConfigChanged));
        assert_eq!((state.history()[0], state.history()[575]), (-1.0, 2.0));
        assert_eq!(state.accepted(), &TALLIES);
    }
    refused(Lent::smallest().of_desk(8), state, McError::InvalidDesk);
}

/// A 2/1 frame whose surround is predicted in subband 0, from left seven slots before, with coefficient
/// 4: flags 101, tc 0, the flag of group 0, counts 1 and 0, the flags of seven groups; delay 7, byte 255.
fn predicted(reading: u32) -> Lent {
    let mut lent = Lent::of_layout(21, reading);
    lent.head = vec![8, 0, 0, 0, 0b1010_0101, 0, 0];
    lent.head_bits = 49;
    lent.payload = vec![0b1111_1111, 0b1110_0000];
    lent
}

/// 2/1 and 3/0, both of three channels, under readings in turn. The fourth is refused for its layout,
/// the fifth is cut. Each has values of its own.
fn frames() -> [Lent; 8] {
    let mut cut = predicted(1);
    cut.head_bits -= 1;
    let three = |reading| Lent::of_layout(30, reading);
    let mut frames = [
        predicted(1),
        three(1),
        predicted(2),
        three(2),
        cut,
        predicted(2),
        three(1),
        three(2),
    ];
    for (lent, divisor) in frames.iter_mut().zip(1u8..) {
        let values = lent.base.iter_mut().flatten();
        values.for_each(|value| *value /= f64::from(divisor));
    }
    frames
}

/// What a frame leaves: answer, buffers, history, layout length and layout.
type Left = (Result<u32, McError>, [Vec<u64>; 4], [u64; 576], u8, u8);

/// The frames from these desks through one state, which is carried before the last; the tallies at last.
fn run(desks: [u32; 8]) -> (Vec<Left>, [u32; 8]) {
    let mut state = McState::new();
    let mut left = vec![];
    for (at, (lent, desk)) in frames().into_iter().zip(desks).enumerate() {
        if at == 7 {
            assert_eq!(state.carry(), Ok(()));
        }
        let mut lent = lent.of_desk(desk);
        let answer = lent.decode(&mut state).map(|used| used.payload_bits);
        let written = lent
            .written
            .map(|buffer| buffer.iter().map(|value| value.to_bits()).collect());
        let (history, layout_len, layout, _) = whole(&state);
        left.push((answer, written, history, layout_len, layout));
    }
    (left, *state.accepted())
}

/// Values come from earlier frames: work at slot 0 is 4 times the left of the frame whose history is
/// stored, the second and, refused for its layout, the fourth.
#[test]
fn nothing_else_depends_on_the_desk() {
    let (left, tallies) = run([0; 8]);
    let changed = Err(McError::ConfigChanged);
    let short = Err(McError::UnexpectedEnd);
    let answers = [Ok(11), Ok(0), Ok(11), changed, short, Ok(11), Ok(0), Ok(0)];
    assert!(left.iter().map(|left| left.0).eq(answers));
    let work = |at: usize| f64::from_bits(left[at].1[1][0]);
    assert_eq!((work(0), work(2), work(5)), (0.0, -2.0, -1.0));
    assert_eq!(tallies, first(6));
    for (desks, tallies) in [
        ([7; 8], [0, 0, 0, 0, 0, 0, 0, 6]),
        ([0, 1, 2, 3, 4, 5, 6, 7], [1, 1, 1, 0, 0, 1, 1, 1]),
        ([5, 3, 5, 0, 1, 3, 2, 5], [0, 0, 1, 2, 0, 3, 0, 0]),
    ] {
        let (same, own) = run(desks);
        assert!(same == left);
        assert_eq!(own, tallies);
    }
}

#[test]
fn carrying_keeps_every_tally() {
    let mut tallies = [0, 1, 255, 256, 65_536, 1 << 31, u32::MAX - 1, u32::MAX];
    for _ in 0..8 {
        tallies.rotate_left(1);
        let mut state = McState::with([-0.0; 576], 3, 30, tallies);
        assert_eq!(state.carry(), Ok(()));
        assert_eq!(whole(&state), ([1 << 63; 576], 3, 0, tallies));
        let mut wrong = McState::with([-0.0; 576], 3, 34, tallies);
        assert_eq!(wrong.carry(), Err(McError::InvalidArgument));
        assert_eq!(whole(&wrong), ([1 << 63; 576], 3, 34, tallies));
    }
}

/// Before states held a layout it is 0, and after that the layout is kept.
#[test]
fn conversion_keeps_what_it_does_not_refuse() {
    let history = pattern_bits().map(f64::from_bits);
    for (layout_len, layout, right) in every_held() {
        let state = McState::convert(&history, layout_len, layout, 9);
        let kept = (pattern_bits(), layout_len, layout, first(9));
        let answer = right.then_some(kept).ok_or(McError::InvalidArgument);
        assert_eq!(state.map(|state| whole(&state)), answer);
    }
}

#[test]
fn conversion_of_another_length() {
    for length in [0, 1, 575, 577, 1152] {
        let state = McState::convert(&vec![0.5; length], 5, 0, 9);
        assert_eq!(state, Err(McError::InvalidArgument));
    }
}

/// From its top too, where it stays.
#[test]
fn converted_tally_is_desk_0s() {
    for (accepted, after) in [
        (0, 1),
        (255, 256),
        (u32::MAX - 1, u32::MAX),
        (u32::MAX, u32::MAX),
    ] {
        let mut state = McState::convert(&[0.5; 576], 0, 0, accepted).unwrap();
        assert_eq!(state.accepted(), &first(accepted));
        assert!(Lent::smallest().decode(&mut state).is_ok());
        assert_eq!(state.accepted(), &first(after));
        assert!(Lent::smallest().of_desk(6).decode(&mut state).is_ok());
        assert_eq!(state.accepted(), &[after, 0, 0, 0, 0, 0, 1, 0]);
    }
}

/// A lone length holds 3/1 off and takes 3/2; a layout is what reading 2 compares; the history predicts.
#[test]
fn converted_stream_goes_on() {
    let changed = Err(McError::ConfigChanged);
    let convert =
        |layout_len, layout| McState::convert(&[-0.5; 576], layout_len, layout, 41).unwrap();
    for (layout, reading, next, used, held) in [
        (0, 1, 31, changed, 0),
        (0, 2, 31, changed, 0),
        (0, 1, 32, Ok(38), 0),
        (0, 2, 32, Ok(38), 32),
        (0, 2, 33, Ok(37), 33),
        (32, 1, 33, Ok(37), 32),
        (32, 2, 33, changed, 32),
        (32, 2, 32, Ok(38), 32),
    ] {
        let mut state = convert(5, layout);
        let answer = Lent::of_layout(next, reading).decode(&mut state);
        assert_eq!(answer.map(|used| used.head_bits), used);
        let tallies = first(41 + u32::from(used.is_ok()));
        let (_, layout_len, layout, accepted) = whole(&state);
        assert_eq!((layout_len, layout, accepted), (5, held, tallies));
    }
    let (mut lent, mut state) = (predicted(1), convert(3, 0));
    assert!(lent.decode(&mut state).is_ok());
    assert_eq!(lent.written[1][0], -2.0);
}
