//! What a run has reached: payloads by what they hold.

use crate::case::{Case, SLICES, slice_name};
use oracle::FrameOutput;
use oracle::excess::{Excesses, GROUPED};
use oracle::generator::layout::{Layout, STEPS};
use oracle::input::READINGS;
use oracle::phantom::{COUNTED, counted, on_amended_head};
use oracle::scope::{Refusal, State};
use std::collections::BTreeMap;

/// What payloads are counted by. All but the first six count accepted ones.
const KINDS: [&str; 17] = [
    "answer",
    "done",
    "wrong length",
    "reading",
    "amended head",
    "mono phantom",
    "accepted by reading",
    "layout",
    "base channels",
    "rate",
    "class",
    "excess codes",
    "LFE allocation",
    "scfsi",
    "delay",
    "coefficients",
    "channel copied",
];

/// Payloads by kind and cell; under excess codes not payloads but group codes with an excess.
#[derive(Default)]
pub struct Coverage(BTreeMap<(&'static str, String), u64>);

impl Coverage {
    /// Counts a payload with its answer.
    pub fn note(&mut self, case: &Case, answer: &Result<FrameOutput, Refusal>) {
        for name in &case.done {
            self.add("done", name);
        }
        if let Some((slice, _)) = case.wrong_length {
            self.add("wrong length", slice_name(slice));
        }
        self.add("reading", reading_name(case.input.reading));
        self.add("answer", answer_name(answer));
        self.phantom(case, answer);
        if let Ok(frame) = answer {
            self.accepted(case, frame);
        }
    }

    /// Payloads judged on an amended head; mono bases with a phantom centre and second stereo.
    fn phantom(&mut self, case: &Case, answer: &Result<FrameOutput, Refusal>) {
        if on_amended_head(&case.input, answer) {
            self.add("amended head", "all");
            self.add("amended head", answer_name(answer));
        }
        for place in counted(&case.input, &State::fresh(), answer) {
            self.add("mono phantom", COUNTED[*place]);
        }
    }

    fn accepted(&mut self, case: &Case, frame: &FrameOutput) {
        let (input, payload) = (&case.input, &frame.payload);
        let config = &frame.head.config;
        let layout = layout_name(config.front, config.surround, config.second_stereo);
        self.add("accepted by reading", input.reading);
        self.add("layout", layout);
        self.add("base channels", input.base_channels);
        self.add("rate", number(input.sample_rate));
        self.add("LFE allocation", number(input.lfe_allocation));
        let transmitted = input.nb_steps.as_flattened();
        for class in STEPS.iter().filter(|class| transmitted.contains(class)) {
            self.add("class", number(*class));
        }
        self.excess_codes(&frame.excesses);
        let mut held = [false; 4];
        let mut copied = false;
        for (channel, subband) in (0..96).map(|k| (k / 32, k % 32)) {
            let steps = payload.nb_steps[channel][subband];
            if steps != 0 {
                held[payload.scfsi[channel][subband] as usize] = true;
                copied |= transmitted[32 * channel + subband] == 0;
            }
        }
        for code in (0..4).filter(|&code| held[code]) {
            self.add("scfsi", code);
        }
        self.add("channel copied", copied);
        self.predictors(frame);
    }

    fn excess_codes(&mut self, excesses: &Excesses) {
        let classes = GROUPED.into_iter().zip(excesses.by_class);
        for (steps, codes) in classes.filter(|class| class.1 > 0) {
            let cell = ("excess codes", steps_name(steps));
            *self.0.entry(cell).or_default() += u64::from(codes);
        }
    }

    fn predictors(&mut self, frame: &FrameOutput) {
        let counts = frame.head.status.predsi.as_flattened();
        let delays = frame.payload.delay_comp.as_flattened();
        let held = |test: &dyn Fn(u8, u32) -> bool| {
            let mut predictors = counts.iter().zip(delays);
            predictors.any(|(&count, &delay)| test(count, delay))
        };
        for n in 0..8 {
            if n < 4 && held(&|count, _| count == n) {
                self.add("coefficients", n);
            }
            if held(&|count, delay| count != 0 && delay == n.into()) {
                self.add("delay", n);
            }
        }
    }

    fn add(&mut self, kind: &'static str, cell: impl ToString) {
        *self.0.entry((kind, cell.to_string())).or_default() += 1;
    }

    /// The cells that a long run is to reach and this one has not.
    pub fn missing(&self) -> Vec<String> {
        let wanted = wanted().into_iter();
        let missing = wanted.filter(|cell| !self.0.contains_key(cell));
        missing
            .map(|(kind, cell)| format!("{kind} {cell}"))
            .collect()
    }

    /// A line for each kind.
    pub fn lines(&self) -> impl Iterator<Item = String> {
        KINDS.into_iter().map(|kind| {
            let cells = self.0.iter().filter(|(cell, _)| cell.0 == kind);
            let words: Vec<String> = cells
                .map(|(cell, count)| format!("{}: {count}", cell.1.trim_start()))
                .collect();
            format!("{kind}:  {}", words.join("  "))
        })
    }
}

/// A number as a cell, so that cells stand in its order.
fn number(n: u32) -> String {
    format!("{n:5}")
}

fn steps_name(steps: u32) -> String {
    format!("{steps} steps")
}

fn answer_name(answer: &Result<FrameOutput, Refusal>) -> String {
    match answer {
        Ok(_) => "accepted".to_string(),
        Err(refusal) => refusal_name(refusal.number),
    }
}

fn refusal_name(number: u32) -> String {
    format!("refusal {number}")
}

fn reading_name(reading: u32) -> String {
    match READINGS.contains(&reading) {
        true => reading.to_string(),
        false => "another".to_string(),
    }
}

fn layout_name(front: u8, surround: u8, second_stereo: bool) -> String {
    let second = if second_stereo { "+2" } else { "" };
    format!("{front}/{surround}{second}")
}

/// Every cell that a run over all shapes reaches in time.
fn wanted() -> Vec<(&'static str, String)> {
    let numbers = |range: std::ops::Range<u32>| range.map(|n| n.to_string()).collect();
    let layouts = Layout::all()
        .map(|layout| layout_name(layout.front, layout.surround, layout.second_stereo));
    let words = |words: &[&str]| words.iter().map(|word| word.to_string()).collect();
    let kinds: [(&'static str, Vec<String>); 18] = [
        ("answer", words(&["accepted"])),
        ("answer", [1, 2, 3, 4, 6, 8, 13].map(refusal_name).to_vec()),
        (
            "wrong length",
            (0..SLICES).map(|k| slice_name(k).to_string()).collect(),
        ),
        ("reading", [1, 2, 3].map(reading_name).to_vec()),
        ("amended head", words(&["all", "accepted"])),
        ("amended head", [1, 3, 4, 8].map(refusal_name).to_vec()),
        ("mono phantom", words(&COUNTED)),
        ("accepted by reading", numbers(1..3)),
        ("layout", layouts.collect()),
        ("base channels", numbers(1..3)),
        ("rate", [32_000, 44_100, 48_000].map(number).to_vec()),
        ("class", STEPS.map(number).to_vec()),
        ("excess codes", GROUPED.map(steps_name).to_vec()),
        ("LFE allocation", (0..16).map(number).collect()),
        ("scfsi", numbers(0..4)),
        ("delay", numbers(0..8)),
        ("coefficients", numbers(0..4)),
        (
            "channel copied",
            [false, true].map(|b| b.to_string()).to_vec(),
        ),
    ];
    let cells = kinds.into_iter();
    cells
        .flat_map(|(kind, names)| names.into_iter().map(move |name| (kind, name)))
        .collect()
}
