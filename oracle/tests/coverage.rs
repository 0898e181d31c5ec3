//! The generator reaches every layout, rate, procedure, tc, crosstalk code, prediction pattern and
//! class, and the special base values.

use oracle::generator::layout::{STEPS, group_of};
use oracle::generator::{Kind, Plan, Source};
use std::collections::BTreeSet;

const FRAMES: u64 = 16 * Plan::SHAPES;

fn plans() -> impl Iterator<Item = Plan> {
    (0..FRAMES).map(Plan::random)
}

#[test]
fn shapes() {
    let seen: BTreeSet<_> = plans()
        .map(|plan| {
            let head = &plan.head;
            (
                plan.base_channels,
                head.centre,
                head.surround,
                head.procedure,
                plan.sample_rate,
            )
        })
        .collect();
    assert_eq!(seen.len() as u64, Plan::SHAPES);
}

#[test]
fn tcs_and_crosstalk_codes() {
    let (mut tcs, mut codes) = (BTreeSet::new(), BTreeSet::new());
    for plan in plans() {
        let layout = plan.layout();
        for group in 0..12 {
            let kind = (layout.front, layout.surround);
            tcs.insert((kind, plan.head.procedure, plan.head.tc_of(group)));
            codes.insert((kind, plan.head.code_of(group), group));
        }
    }
    // By layout 3/2, 3/1, 2/2, 3/0, 2/1, then 2/0, 1/0, 1/1 and 1/2, which have one of each.
    assert_eq!(tcs.len(), 4 * (8 + 8 + 4 + 4 + 4 + 4));
    assert_eq!(codes.len(), 12 * (15 + 5 + 5 + 2 + 2 + 4));
}

/// Every channel of every code of every layout, with a step count; and the second-stereo copy.
#[test]
fn sources_with_step_counts() {
    let (mut seen, mut second) = (BTreeSet::new(), 0);
    for plan in plans() {
        let layout = plan.layout();
        let places = plan.places();
        for (channel, subband) in places.filter(|place| plan.steps(place.0, place.1) != 0) {
            if channel < layout.main {
                let code = plan.head.code_of(group_of(subband));
                seen.insert((layout.front, layout.surround, code, channel));
            } else if plan.source(channel, subband) != Source::Transmitted {
                second += 1;
            }
        }
    }
    assert_eq!(seen.len(), 15 * 3 + 2 * 5 * 2 + 2 * 2);
    assert!(second > 0);
}

#[test]
fn predictors() {
    let mut seen = BTreeSet::new();
    let (mut delays, mut bytes) = (BTreeSet::new(), BTreeSet::<u32>::new());
    for plan in plans() {
        let layout = plan.layout();
        for group in 0..8 {
            for (px, &count) in plan.head.counts_of(&layout, group).iter().enumerate() {
                seen.insert((group, px, count));
                delays.insert((plan.payload.delays[group][px], count));
                bytes.extend(&plan.payload.coefficients[group][px][..count as usize]);
            }
        }
    }
    assert_eq!(seen.len(), 8 * 6 * 4);
    assert_eq!(delays.len(), 8 * 4);
    assert_eq!(bytes.len(), 256);
}

#[test]
fn classes_and_field_kinds() {
    let (mut classes, mut kinds) = (BTreeSet::new(), std::collections::HashSet::new());
    let (mut lfe, mut scfsi) = (BTreeSet::new(), BTreeSet::new());
    for plan in plans() {
        lfe.insert(plan.payload.lfe_allocation);
        for (channel, subband) in plan.places() {
            if plan.source(channel, subband) == Source::Transmitted {
                classes.insert((channel, plan.steps(channel, subband)));
            }
            if plan.steps(channel, subband) != 0 {
                scfsi.insert((channel, plan.payload.scfsi[channel][subband]));
            }
        }
        let fields = [plan.head_written().fields, plan.payload_written().fields];
        kinds.extend(fields.iter().flatten().map(|field| field.kind));
    }
    assert_eq!(classes.len(), 3 * (STEPS.len() + 1));
    assert_eq!(lfe.len(), 16);
    assert_eq!(scfsi.len(), 3 * 4);
    assert_eq!(kinds.len(), Kind::Sample as usize + 1);
}

#[test]
fn base_values() {
    let plan = Plan::random(0);
    let values = plan.base.raw.iter().flatten().flatten();
    let bits: BTreeSet<u64> = values.clone().map(|value| value.to_bits()).collect();
    for special in [0.0, -0.0, 4.0, -4.0f64] {
        assert!(bits.contains(&special.to_bits()), "{special}");
    }
    assert!(values.clone().any(|value| value.is_subnormal()));
    assert!(values.clone().all(|value| value.abs() <= 4.0));
}
