//! The reference accepts what the generator writes, uses exactly the bits that were written, and
//! reads back every field.

use oracle::audio_data::Scfsi;
use oracle::generator::layout::grouped;
use oracle::generator::plan::parts_shared;
use oracle::generator::state::tallies;
use oracle::generator::{Plan, Random, Source, base, damage};
use oracle::input::READINGS;
use oracle::scope::{Buffers, State, judge};
use oracle::{FrameOutput, HeadOutput, PayloadOutput, leaf};

const FRAMES: u64 = 4 * Plan::SHAPES;

fn state_for(plan: &Plan, seed: u64) -> State {
    let random = &mut Random::new(!seed);
    let layout = plan.layout();
    let (count, number) = (layout.outputs() as u32, layout.number());
    let history = base::history(random);
    let (count, layout) = random.pick(&[(0, 0), (count, 0), (count, number)]);
    State {
        history,
        count,
        layout,
        accepted: tallies(random),
    }
}

/// Plans under each reading with their seeds, but for those whose centre code reading 2 refuses.
fn plans() -> impl Iterator<Item = (Plan, u64)> {
    let seeds = READINGS
        .into_iter()
        .flat_map(|reading| (0..FRAMES).map(move |seed| (reading, seed)));
    let plans = seeds.map(|(reading, seed)| (Plan::random_under(reading, seed), seed));
    plans.filter(|(plan, _)| (plan.reading, plan.head.centre) != (2, 2))
}

#[test]
fn generated_frames_are_accepted_and_read_back() {
    for (plan, seed) in plans() {
        let mut state = state_for(&plan, seed);
        let before = state.clone();
        let frame = judge(&plan.input(), &mut state)
            .unwrap_or_else(|refusal| panic!("seed {seed}: {refusal:?}"));
        head_agrees(&plan, &frame.head, seed);
        payload_agrees(&plan, &frame.payload, seed);
        places_agree(&plan, &frame, seed);
        parts_agree(&frame, seed);
        state_agrees(&plan, &before, &state, seed);
    }
}

fn head_agrees(plan: &Plan, read: &HeadOutput, seed: u64) {
    let (head, header, status) = (&plan.head, &read.mc_header, &read.status);
    assert_eq!(read.used, plan.head_written().bits, "seed {seed}");
    assert_eq!(header.ext_bit_stream_present, head.n_ad_bytes.is_some());
    assert_eq!(u32::from(header.n_ad_bytes), head.n_ad_bytes.unwrap_or(0));
    assert_eq!(read.centre_code, head.centre, "seed {seed}");
    assert_eq!(header.surround as u32, head.surround);
    assert_eq!((header.lfe, header.audio_mix), (head.lfe, head.audio_mix));
    assert_eq!(u32::from(header.dematrix_procedure), head.procedure);
    assert_eq!(u32::from(header.no_of_multi_lingual_ch), head.multilingual);
    assert_eq!(header.multi_lingual_fs_half, head.multilingual_half);
    assert_eq!(header.copyright_identification_bit, head.copyright[0]);
    assert_eq!(header.copyright_identification_start, head.copyright[1]);
    assert_eq!(u32::from(read.check_word), head.check_word);
    assert_eq!(read.layout.len(), plan.layout().outputs(), "seed {seed}");
    assert_eq!(status.dyn_cross_lr, head.crosstalk_on && head.left_right);
    for group in 0..12 {
        assert_eq!(u32::from(status.tc_allocation[group]), head.tc_of(group));
        assert_eq!(u32::from(status.dyn_cross_mode[group]), head.code_of(group));
        assert_eq!(status.dyn_second_stereo[group], head.second_of(group));
        let letters = String::from_utf8_lossy(&read.sources[group]);
        let sources = plan.layout().sources()[head.code_of(group) as usize];
        assert_eq!(letters.trim_end_matches('-'), sources, "seed {seed}");
    }
    for group in 0..8 {
        let on = head.prediction_on && head.predicted[group];
        assert_eq!(status.mc_prediction[group], on, "seed {seed}");
        let mut counts = [0; 6];
        for (px, count) in head.counts_of(&plan.layout(), group).iter().enumerate() {
            counts[px] = *count as u8;
        }
        assert_eq!(status.predsi[group], counts, "seed {seed}");
    }
}

fn payload_agrees(plan: &Plan, read: &PayloadOutput, seed: u64) {
    let payload = &plan.payload;
    assert_eq!(read.used, plan.payload_written().bits, "seed {seed}");
    for group in 0..8 {
        for (px, &count) in plan
            .head
            .counts_of(&plan.layout(), group)
            .iter()
            .enumerate()
        {
            let delay = if count == 0 {
                0
            } else {
                payload.delays[group][px]
            };
            assert_eq!(read.delay_comp[group][px], delay, "seed {seed}");
            for pci in 0..3 {
                let byte = payload.coefficients[group][px][pci];
                let on_wire = (pci as u32) < count;
                let value = if on_wire { leaf::pred_coef(byte) } else { 0.0 };
                assert_eq!(read.pred_coef[group][px][pci].to_bits(), value.to_bits());
            }
        }
    }
    for granule in 0..12 {
        let allocation = payload.lfe_allocation as usize;
        let sample = match allocation {
            0 => 0.0,
            _ => leaf::lfe_sample(
                allocation,
                payload.lfe_scalefactor as usize,
                payload.lfe_codes[granule],
            ),
        };
        assert_eq!(read.lfe_samples[granule].to_bits(), sample.to_bits());
    }
}

fn places_agree(plan: &Plan, frame: &FrameOutput, seed: u64) {
    let read = &frame.payload;
    let raw = Buffers::of(frame).raw;
    for channel in 0..3 {
        for subband in 0..32 {
            let steps = plan.steps(channel, subband);
            assert_eq!(read.nb_steps[channel][subband], steps, "seed {seed}");
            if steps != 0 {
                let scfsi = plan.payload.scfsi[channel][subband];
                assert_eq!(number(read.scfsi[channel][subband]), scfsi);
                let by_part = plan.payload.scalefactors[channel][subband];
                let shared = parts_shared(scfsi).map(|part| by_part[part] as u8);
                assert_eq!(read.scalefactor[channel][subband], shared, "seed {seed}");
            }
            for slot in 0..36 {
                let value = raw[(channel * 36 + slot) * 32 + subband];
                let wanted = raw_value(plan, channel, subband, slot);
                assert_eq!(value.to_bits(), wanted.to_bits(), "seed {seed}");
            }
        }
    }
}

/// What the parts read by themselves is what the whole span reads.
fn parts_agree(frame: &FrameOutput, seed: u64) {
    let FrameOutput {
        head,
        payload,
        span,
        ..
    } = frame;
    assert_eq!(span.head_used, head.used, "seed {seed}");
    assert_eq!(span.payload_used, payload.used, "seed {seed}");
    assert_eq!(span.lfe_samples, payload.lfe_samples, "seed {seed}");
    assert_eq!(span.layout, head.layout, "seed {seed}");
}

fn number(scfsi: Scfsi) -> u32 {
    match scfsi {
        Scfsi::ThreePerGranule => 0,
        Scfsi::Share01Then2 => 1,
        Scfsi::ShareAll => 2,
        Scfsi::Share0Then12 => 3,
    }
}

/// Samples of transmitted places, +0 elsewhere.
fn raw_value(plan: &Plan, channel: usize, subband: usize, slot: usize) -> f64 {
    let steps = plan.steps(channel, subband);
    if steps == 0 || plan.source(channel, subband) != Source::Transmitted {
        return 0.0;
    }
    let class = leaf::class_of_quantization(steps).unwrap();
    let codes = plan.payload.codes[slot / 3][channel][subband];
    let code = match grouped(steps) {
        true => codes[0] / steps.pow(slot as u32 % 3) % steps,
        false => codes[slot % 3],
    };
    leaf::requantize_code(&class, code)
}

fn state_agrees(plan: &Plan, before: &State, after: &State, seed: u64) {
    assert_eq!(after.count as usize, plan.layout().outputs(), "seed {seed}");
    let layout = match plan.reading {
        2 => plan.layout().number(),
        _ => before.layout,
    };
    assert_eq!(after.layout, layout, "seed {seed}");
    let mut accepted = before.accepted;
    accepted[0] = accepted[0].saturating_add(1);
    assert_eq!(after.accepted, accepted, "seed {seed}");
    for (k, value) in after.history.iter().enumerate() {
        let (base, subband, k) = (k / 288, k / 9 % 32, k % 9);
        let base = base.min(plan.base_channels - 1);
        let wanted = plan.base.scaled[base][27 + k][subband];
        assert_eq!(value.to_bits(), wanted.to_bits(), "seed {seed}");
    }
}

#[test]
fn bits_after_the_used_ones_do_not_matter() {
    for seed in 0..Plan::SHAPES {
        let plan = Plan::random(seed);
        let random = &mut Random::new(seed);
        let mut padded = plan.input();
        for part in [damage::Part::Head, damage::Part::Payload] {
            damage::pad(random, &mut padded, part);
        }
        let (mut left, mut right) = (state_for(&plan, seed), state_for(&plan, seed));
        let frame = judge(&plan.input(), &mut left).unwrap();
        let again = judge(&padded, &mut right).unwrap();
        assert_eq!(frame, again, "seed {seed}");
        assert_eq!(left, right, "seed {seed}");
    }
}
