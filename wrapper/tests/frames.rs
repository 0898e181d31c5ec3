//! Small frames through the library: an accepted one, each refusal, and what each leaves behind.

mod lent;

use koftabasin::{Answer, McError, McState, Used};
use lent::{Lent, WRONG_LOANS, first, held, history_bits};

/// The frame is refused so, and leaves the buffers and the state alone.
fn refused(mut lent: Lent, error: McError) {
    let mut state = McState::with([0.5; 576], 2, 20, first(3));
    let before = state.clone();
    assert_eq!(lent.decode(&mut state), Err(error));
    assert!(lent.untouched());
    assert_eq!(state, before);
}

#[test]
fn smallest_frame_is_accepted_under_both_readings() {
    for reading in [1, 2] {
        let (mut lent, mut state) = (Lent::smallest(), McState::new());
        lent.reading = reading;
        let used = Used {
            head_bits: 35,
            payload_bits: 0,
            excess_codes: 0,
        };
        assert_eq!(lent.decode(&mut state), Ok(used));
        let [raw, work, output, lfe] = &lent.written;
        for silent in [raw, work, lfe, &output[2 * 1152..].to_vec()] {
            assert!(silent.iter().all(|value| value.to_bits() == 0));
        }
        assert_eq!((output[0], output[1152]), (-1.0, 2.0));
        let layout = if reading == 2 { 20 } else { 0 };
        assert_eq!(held(&state), (2, layout, 1));
        assert_eq!((state.history()[287], state.history()[288]), (-1.0, 2.0));
    }
}

#[test]
fn fresh_state_is_all_zero() {
    let mut state = McState::with([-0.0; 576], 9, 9, [9; 8]);
    state.reset();
    assert_eq!(history_bits(&state), [0; 576]);
    assert_eq!(held(&state), (0, 0, 0));
}

#[test]
fn short_head() {
    let mut lent = Lent::smallest();
    lent.head_bits = 34;
    refused(lent, McError::UnexpectedEnd);
}

/// 3/2 with code 15 in groups 1, 3, and so on: centre 1, surround 2; after 32 bits the flags 110, tc 0,
/// the left/right bit and twelve codes.
#[test]
fn unlisted_crosstalk_code() {
    let mut lent = Lent::smallest();
    lent.head = vec![0x30, 0, 0, 0, 0xC0, 0, 0, 0, 0, 0, 0];
    for bit in [43, 44, 45, 46, 51, 52, 53, 54] {
        lent.head[bit / 8] |= 0x80 >> (bit % 8);
    }
    lent.head_bits = 87;
    let answer = lent.decode_packed(&mut McState::new());
    assert_eq!(answer, Answer(15 << 32 | 1 << 8 | 2));
    refused(lent, McError::ForbiddenDynCrossMode { sbgr: 1, mode: 15 });
}

/// Centre code 2 under this reading.
fn centre_code_2(reading: u32) -> Lent {
    let mut lent = Lent::smallest();
    lent.head[0] = 0x40;
    lent.reading = reading;
    lent
}

#[test]
fn centre_code_2_is_taken_under_reading_1() {
    let mut state = McState::new();
    let used = centre_code_2(1).decode(&mut state);
    assert_eq!(used.map(|used| used.head_bits), Ok(35));
    assert_eq!(held(&state), (2, 0, 1));
}

#[test]
fn centre_code_2_is_refused_under_reading_2() {
    refused(centre_code_2(2), McError::UndefinedCentre);
    refused(centre_code_2(2).mono(), McError::UndefinedCentre);
}

/// After the header's 16 bits and before the check word.
#[test]
fn undefined_centre_of_a_short_head() {
    for (reading, head_bits, error) in [
        (1, 16, McError::UnexpectedEnd),
        (2, 16, McError::UndefinedCentre),
        (2, 15, McError::UnexpectedEnd),
    ] {
        let mut lent = centre_code_2(reading);
        lent.head_bits = head_bits;
        refused(lent, error);
    }
}

/// A mono base with centre code 3, second stereo and 7 steps in subband 12 of second left: 2 bits of
/// scfsi, 18 of scalefactors and 108 of samples, all 0.
fn phantom_centre(reading: u32) -> Lent {
    let mut lent = Lent::smallest().mono();
    lent.head[0] = 0x78;
    lent.payload = vec![0; 16];
    lent.nb_steps[12] = 7;
    lent.reading = reading;
    lent
}

#[test]
fn phantom_centre_over_a_mono_base_bars_under_reading_1_alone() {
    refused(phantom_centre(1), McError::InvalidAllocation);
    let (mut lent, mut state) = (phantom_centre(2), McState::new());
    let used = Used {
        head_bits: 35,
        payload_bits: 128,
        excess_codes: 0,
    };
    assert_eq!(lent.decode(&mut state), Ok(used));
    let second_left = &lent.written[2][1152..2 * 1152];
    let slots = |subband: usize| second_left[subband..].iter().step_by(32);
    assert!(slots(12).all(|&value| value != 0.0));
    assert!(slots(11).chain(slots(13)).all(|value| value.to_bits() == 0));
    assert_eq!(held(&state), (3, 13, 1));
}

#[test]
fn layer_three_flag() {
    let mut lent = Lent::smallest();
    lent.head[1] = 4;
    refused(lent, McError::MlLayer3Unsupported);
}

#[test]
fn reserved_scalefactor() {
    let mut lent = Lent::smallest();
    lent.head[0] = 4;
    lent.lfe_allocation = 1;
    lent.payload = vec![0xFC; 4];
    refused(lent, McError::ReservedScalefactor);
}

#[test]
fn wrong_arguments() {
    for change in WRONG_LOANS {
        let mut lent = Lent::smallest();
        change(&mut lent);
        refused(lent, McError::InvalidArgument);
    }
}

#[test]
fn wild_values() {
    let above = f64::from_bits(4.0f64.to_bits() + 1);
    for (channel, value) in [(0, above), (1, -above), (2, f64::NAN), (3, f64::INFINITY)] {
        let mut lent = Lent::smallest();
        lent.base[channel][1151] = value;
        refused(lent, McError::ValueOutOfRange);
    }
    let mut history = [0.0; 576];
    history[575] = above;
    let answer = Lent::smallest().decode(&mut McState::with(history, 0, 0, [0; 8]));
    assert_eq!(answer, Err(McError::ValueOutOfRange));
}

#[test]
fn wrong_allocations() {
    let mut lent = Lent::smallest();
    lent.nb_steps[95] = 3;
    refused(lent, McError::InvalidAllocation);
    let mut lent = Lent::smallest();
    lent.lfe_allocation = 1;
    refused(lent, McError::InvalidAllocation);
}

#[test]
fn answers_and_words() {
    let used = Used {
        head_bits: 232,
        payload_bits: 55_134,
        excess_codes: 1_080,
    };
    let number = 1_080 << 52 | 55_134 << 32 | 232 << 8;
    assert_eq!(Answer(number).result(), Ok(used));
    for number in [1, 2, 3, 4, 5, 6, 7, 8, 13, 14] {
        let answer = if number == 2 {
            15 << 32 | 11 << 8 | 2
        } else {
            number
        };
        let error = Answer(answer).result().unwrap_err();
        assert_eq!(u64::from(error.number()), number);
        assert!(!error.to_string().is_empty());
    }
    let forbidden = McError::ForbiddenDynCrossMode { sbgr: 11, mode: 15 };
    let words = "crosstalk code 15 in subband group 11 is not listed for this layout";
    assert_eq!(forbidden.to_string(), words);
    assert_eq!(McError::InvalidDesk.to_string(), "the desk is above 7");
}

/// Each field from 0 to all its bits, beside the others at theirs.
#[test]
fn fields_of_an_accepted_answer() {
    for head_bits in [0, 1, 232, 65_536, 0xFF_FFFF] {
        for payload_bits in [0, 1, 55_134, 65_536, 0xF_FFFF] {
            for excess_codes in [0, 1, 1_080, 1_152, 4_095] {
                let used = Used {
                    head_bits,
                    payload_bits,
                    excess_codes,
                };
                let high = u64::from(excess_codes << 20 | payload_bits);
                let answer = Answer(high << 32 | u64::from(head_bits) << 8);
                assert_eq!(answer.result(), Ok(used));
            }
        }
    }
}

/// A refusal's code has bits 32 to 63.
#[test]
fn group_and_code_of_a_refused_answer() {
    for sbgr in [0, 1, 11, 0xFF_FFFF] {
        for mode in [0, 1, 15, 0xF_FFFF, 0x10_0000, u32::MAX] {
            let answer = Answer(u64::from(mode) << 32 | u64::from(sbgr) << 8 | 2);
            let error = McError::ForbiddenDynCrossMode { sbgr, mode };
            assert_eq!(answer.result(), Err(error));
        }
    }
}
