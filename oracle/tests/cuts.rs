//! A string cut inside its used bits is refused as short, and leaves the state alone.

use oracle::generator::damage::{Part, cut};
use oracle::generator::{Plan, Random, base};
use oracle::{McDecodeState, McError, reference_head, reference_payload, reference_span};

fn cut_payload(plan: &Plan, bits: u64) {
    for shorten in [false, true] {
        let mut input = plan.input();
        cut(&mut input, Part::Payload, bits, shorten);
        let answer = reference_payload(&input);
        assert_eq!(answer, Err(McError::UnexpectedEnd), "{bits} bits");
    }
}

#[test]
fn head_cut_anywhere_is_short() {
    for seed in 0..Plan::SHAPES {
        let plan = Plan::random(seed);
        let head = plan.head_written();
        for bits in 0..head.bits {
            for bytes in [&head.bytes[..], &head.bytes[..bits.div_ceil(8) as usize]] {
                let answer = reference_head(bytes, bits, plan.base_channels);
                assert_eq!(
                    answer,
                    Err(McError::UnexpectedEnd),
                    "seed {seed}, {bits} bits"
                );
            }
        }
    }
}

#[test]
fn short_payload_cut_at_every_bit_is_short() {
    let plans = (0..).map(Plan::random);
    let short = plans.filter(|plan| (1..3000).contains(&plan.payload_written().bits));
    for plan in short.take(30) {
        for bits in 0..plan.payload_written().bits {
            cut_payload(&plan, bits);
        }
    }
}

#[test]
fn payload_cut_at_each_kind_of_field_is_short() {
    for seed in 0..Plan::SHAPES {
        let plan = Plan::random(seed);
        let written = plan.payload_written();
        let mut before = None;
        for field in written.fields.iter().filter(|field| {
            let first = before != Some(field.kind);
            before = Some(field.kind);
            first
        }) {
            cut_payload(&plan, field.at);
            cut_payload(&plan, field.at + u64::from(field.width) - 1);
        }
    }
}

#[test]
fn short_frame_leaves_the_state() {
    for seed in 0..Plan::SHAPES {
        let plan = Plan::random(seed);
        let history = base::history(&mut Random::new(seed));
        let mut state = McDecodeState::with(&history, Some(9));
        for (part, bits) in [
            (Part::Head, plan.head_written().bits),
            (Part::Payload, plan.payload_written().bits),
        ] {
            let mut input = plan.input();
            if bits == 0 {
                continue;
            }
            cut(&mut input, part, bits - 1, true);
            let answer = reference_span(&input, &mut state);
            assert_eq!(answer, Err(McError::UnexpectedEnd), "seed {seed}");
            assert_eq!(state.history(), history);
            assert_eq!(state.layout_len(), Some(9));
        }
    }
}
