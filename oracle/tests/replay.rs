//! The list for the crate `replay` is what it says it is, and reaches what it is to reach.

use oracle::desks::before_what;
use oracle::excess::GROUPED;
use oracle::flat::packed;
use oracle::generator::damage::{WRONG_DESKS, WRONG_READINGS};
use oracle::generator::layout::STEPS;
use oracle::input::{DESKS, READINGS};
use oracle::replay::values::{Hash, Values, buffer_hashes, state_hash};
use oracle::replay::{self, Record};
use oracle::scope::{Buffers, State, judge};
use oracle::trail::Trail;
use oracle::{FrameInput, FrameOutput};
use std::collections::{BTreeMap, BTreeSet};

fn list() -> Vec<Record> {
    replay::list::records()
}

/// A frame of the list with the state before it, and its output where it is accepted.
struct Judged<'a> {
    record: &'a Record,
    input: &'a FrameInput,
    state: &'a State,
    frame: Option<&'a FrameOutput>,
}

/// The frames of the list in order, each held to what the oracle says of it.
fn judged(mut each: impl FnMut(Judged)) {
    let (mut state, mut written) = (State::fresh(), replay::buffers());
    for record in list() {
        let (input, start) = record.lent();
        state = start.unwrap_or(state);
        let before = state.clone();
        let answer = judge(&input, &mut state);
        if let Ok(frame) = &answer {
            written = Buffers::of(frame);
        }
        assert_eq!(record.expected.answer, packed(&answer));
        assert_eq!(record.expected.buffers, buffer_hashes(&written));
        assert_eq!(record.expected.state, state_hash(&state));
        each(Judged {
            record: &record,
            input: &input,
            state: &before,
            frame: answer.as_ref().ok(),
        });
    }
}

fn answer(record: &Record) -> u64 {
    record.expected.answer & 0xFF
}

#[test]
fn kept_list_is_the_generators() {
    let kept = std::fs::read("../crates/replay/stdin").unwrap();
    assert!(replay::write(&list()) == kept, "make-replay-list writes it");
}

#[test]
fn written_list_is_read_back() {
    let records = list();
    let bytes = replay::write(&records);
    assert_eq!(replay::read(&bytes), Some(records));
    assert_eq!(replay::read(&bytes[..bytes.len() - 1]), None);
    assert!(bytes.len() < 400_000, "{}", bytes.len());
}

#[test]
fn values_and_hash() {
    let mut values = Values::new(1);
    let drawn: BTreeSet<u64> = values.many(10_000).iter().map(|v| v.to_bits()).collect();
    for special in [0.0, -0.0, 4.0, -4.0f64] {
        assert!(drawn.contains(&special.to_bits()), "{special}");
    }
    assert!(drawn.iter().all(|&bits| f64::from_bits(bits).abs() <= 4.0));
    // FNV-1a of eight zero bytes.
    assert_eq!(Hash::new().floats(&[0.0]).0, 0xA8C7_F832_281A_39C5);
}

#[test]
fn hash_of_a_state() {
    let state = State {
        history: (0..576).map(f64::from).collect(),
        count: 4,
        layout: 31,
        accepted: [7, 1, 0, u32::MAX, 5, 4, 3, 2],
    };
    let hash = Hash::new().floats(&state.history);
    let numbers = [4, 31, 7, 1, 0, u32::MAX.into(), 5, 4, 3, 2];
    let hash = numbers.into_iter().fold(hash, Hash::number);
    assert_eq!(state_hash(&state), hash.0);
}

#[test]
fn every_refusal_and_every_state() {
    let (mut answers, mut kinds, mut starts) = (BTreeMap::new(), BTreeSet::new(), 0);
    judged(|Judged { record, .. }| {
        *answers.entry(answer(record)).or_insert(0) += 1;
        kinds.insert(record.wild.0);
        starts += u32::from(record.start.is_some());
    });
    let numbers: Vec<u64> = answers.keys().copied().collect();
    assert_eq!(numbers, [0, 1, 2, 3, 4, 5, 6, 7, 8, 13, 14]);
    assert!(answers.values().sum::<u32>() >= 500, "{answers:?}");
    assert!(answers.values().all(|&count| count >= 5), "{answers:?}");
    assert_eq!(kinds.len(), 6);
    assert!(starts < 200, "{starts}");
}

/// Accepted frames under each reading for each desk, on a tally at its top for each, and under another
/// reading than the frame before on the same state.
#[test]
fn every_reading_and_desk() {
    let (mut lent, mut at_top) = (BTreeSet::new(), BTreeSet::new());
    let (mut changes, mut trail) = ([0; 2], Trail::default());
    judged(|judged| {
        let (input, state) = (judged.input, judged.state);
        if judged.record.start.is_some() {
            trail = Trail::default();
        }
        let change = trail.frame(input.reading);
        if judged.frame.is_none() {
            return;
        }
        lent.insert((input.reading, input.desk));
        if state.accepted[input.desk as usize] == u32::MAX {
            at_top.insert(input.desk);
        }
        if let Some(place) = change {
            changes[place] += 1;
        }
    });
    assert_eq!(lent.len(), READINGS.len() * DESKS);
    assert_eq!(at_top.len(), DESKS);
    assert!(changes.iter().all(|&count| count >= 20), "{changes:?}");
}

/// Every wrong reading and desk; refusal 14 before others and after 6; under reading 2 refusal 5 of
/// another layout with as many channels.
#[test]
fn refusals_of_readings_and_desks() {
    let (mut readings, mut desks) = (BTreeSet::new(), BTreeSet::new());
    let (mut beside, mut layouts) = (BTreeSet::new(), 0);
    judged(|judged| {
        let (input, state, answer) = (judged.input, judged.state, answer(judged.record));
        readings.insert(input.reading);
        desks.insert(input.desk);
        if WRONG_DESKS.contains(&input.desk) {
            beside.insert((answer, before_what(input, state)));
        }
        let under_1 = FrameInput {
            reading: 1,
            ..input.clone()
        };
        let other_layout = answer == 5 && judge(&under_1, &mut state.clone()).is_ok();
        layouts += u32::from(other_layout);
    });
    assert!(readings.is_superset(&WRONG_READINGS.into()), "{readings:?}");
    assert!(desks.is_superset(&WRONG_DESKS.into()), "{desks:?}");
    let wanted = [(6, 6), (14, 0), (14, 1), (14, 5), (14, 7), (14, 13)].into();
    assert!(beside.is_superset(&wanted), "{beside:?}");
    assert!(layouts >= 5, "{layouts}");
}

/// Excess codes of each class under each reading. The answer's last twelve bits are their number, and 0 in
/// a refusal.
#[test]
fn excess_codes_of_every_class() {
    let mut frames = BTreeMap::new();
    judged(|judged| {
        let (reading, number) = (judged.input.reading, judged.record.expected.answer >> 52);
        let codes = judged.frame.map_or([0; 3], |frame| frame.excesses.by_class);
        assert_eq!(number, codes.iter().sum::<u32>().into());
        for (steps, codes) in GROUPED.into_iter().zip(codes) {
            if codes > 0 {
                *frames.entry((reading, steps)).or_insert(0) += 1;
            }
        }
    });
    assert_eq!(frames.len(), READINGS.len() * GROUPED.len());
    assert!(frames.values().all(|&count| count >= 20), "{frames:?}");
}

#[test]
fn every_layout_tc_code_predictor_and_class() {
    let mut shapes = BTreeSet::new();
    let (mut tcs, mut codes) = (BTreeSet::new(), BTreeSet::new());
    let (mut predictors, mut classes) = (BTreeSet::new(), BTreeSet::new());
    judged(|Judged { input, frame, .. }| {
        let Some(frame) = frame else { return };
        let (config, status) = (&frame.head.config, &frame.head.status);
        let procedure = frame.head.mc_header.dematrix_procedure;
        let layout = (config.front, config.surround, config.second_stereo);
        shapes.insert((layout, config.phantom_centre, input.sample_rate, procedure));
        tcs.extend(
            status
                .tc_allocation
                .map(|tc| (layout.0, layout.1, procedure, tc)),
        );
        codes.extend(status.dyn_cross_mode.map(|code| (layout.0, layout.1, code)));
        for (group, counts) in status.predsi.iter().enumerate() {
            predictors.extend(counts.iter().enumerate().map(|(px, n)| (group, px, *n)));
        }
        for (channel, steps) in input.nb_steps.iter().enumerate() {
            classes.extend(steps.iter().map(|steps| (channel, *steps)));
        }
    });
    // Phantom or not; 12 layouts have no phantom centre, those of front 2 cannot have one.
    assert_eq!(shapes.len(), 3 * 4 * (12 + 8));
    assert_eq!(tcs.len(), 4 * (8 + 8 + 4 + 4 + 4 + 4));
    assert_eq!(codes.len(), 15 + 5 + 5 + 2 + 2 + 4);
    assert_eq!(predictors.len(), 8 * 6 * 4);
    assert_eq!(classes.len(), 3 * (STEPS.len() + 1));
}
