//! The lines of `mcread`, from the reference's values.

use super::read::{Fault, Reader};
use crate::input::DESKS;
use crate::mc::McChannel;
use crate::output::FrameOutput;
use crate::replay::values::Hash;
use crate::scope::{Buffers, Refusal, State, judge};
use std::fmt::Write;

/// What `mcread` prints of a file of these bytes.
pub fn lines(bytes: &[u8]) -> String {
    let mut out = String::new();
    if let Err(fault) = frames(&mut out, bytes) {
        writeln!(out, "bad file: {fault}").unwrap();
    }
    out
}

/// The lines of all frames before a fault and, where there is none, the totals.
fn frames(out: &mut String, bytes: &[u8]) -> Result<(), Fault> {
    let mut reader = Reader::open(bytes)?;
    let mut state = reader.state.clone();
    let (mut read, mut accepted, mut named) = (0, 0, [false; DESKS]);
    while let Some(frame) = reader.frame()? {
        read += 1;
        if frame.carried {
            writeln!(out, "frame {read}: {}", carried(&mut state)).unwrap();
        }
        write!(out, "frame {read}: ").unwrap();
        let input = &frame.input;
        match judge(input, &mut state) {
            Ok(frame) => {
                accepted += 1;
                accepted_lines(out, &frame, input.lfe_allocation != 0);
            }
            Err(refusal) => writeln!(out, "refused: {}", refused(&refusal)).unwrap(),
        }
        if let Some(named) = named.get_mut(input.desk as usize) {
            *named = true;
        }
    }
    let refused = read - accepted;
    let totals = format!("{read} frames read, {accepted} accepted, {refused} refused");
    writeln!(out, "{totals}").unwrap();
    for desk in (0..DESKS).filter(|desk| named[*desk]) {
        writeln!(out, "desk {desk}: tally {}", state.accepted[desk]).unwrap();
    }
    Ok(())
}

/// Carries the state, and says so.
fn carried(state: &mut State) -> String {
    match state.carry() {
        Ok(()) => "the state is carried over".to_string(),
        Err(refusal) => format!("the state is not carried over: {}", refused(&refusal)),
    }
}

fn accepted_lines(out: &mut String, frame: &FrameOutput, lfe: bool) {
    let span = &frame.span;
    for channel in &frame.head.layout {
        write!(out, "{} ", name(channel)).unwrap();
    }
    let (head, payload) = (span.head_used, span.payload_used);
    let excess = frame.excesses.codes();
    writeln!(
        out,
        "- {head} head bits, {payload} payload bits, {excess} excess codes"
    )
    .unwrap();
    let buffers = Buffers::of(frame);
    if lfe {
        let samples: String = buffers
            .lfe
            .iter()
            .map(|x| format!(" {}", decimal(*x)))
            .collect();
        writeln!(out, "  lfe{samples}").unwrap();
    }
    for (channel, values) in frame.head.layout.iter().zip(buffers.output.chunks(1152)) {
        let peak = values.iter().fold(0.0f64, |most, x| most.max(x.abs()));
        let nonzero = values.iter().filter(|x| **x != 0.0).count();
        let (name, peak) = (name(channel), decimal(peak));
        let hash = Hash::new().floats(values).0;
        writeln!(
            out,
            "  {name}: peak {peak}, not 0: {nonzero}, hash {hash:016x}"
        )
        .unwrap();
    }
}

/// Six places, the rest cut off.
fn decimal(x: f64) -> String {
    let millionths = (x.abs() * 1_000_000.0) as u64;
    let sign = if x < 0.0 { "-" } else { "" };
    format!(
        "{sign}{}.{:06}",
        millionths / 1_000_000,
        millionths % 1_000_000
    )
}

fn name(channel: &McChannel) -> &'static str {
    match channel {
        McChannel::Left => "L",
        McChannel::Right => "R",
        McChannel::Centre => "C",
        McChannel::LeftSurround => "LS",
        McChannel::RightSurround => "RS",
        McChannel::MonoSurround => "S",
        McChannel::SecondLeft => "L2",
        McChannel::SecondRight => "R2",
    }
}

fn refused(refusal: &Refusal) -> String {
    let words = match refusal.number {
        1 => "a field passes the bit count of its string",
        2 => "a crosstalk code is not listed",
        3 => "the header's Layer III flag is set",
        4 => "a scalefactor index is 63, which is reserved",
        5 => "the layout, or under reading 1 its number of channels, is another than before",
        6 => "a bit count, reading, rate, LFE allocation, base step count or layout is wrong",
        7 => "a base or history value is not within -4 to 4",
        8 => "a step count or LFE allocation that the head does not admit",
        13 => "the centre code is 2, which has no meaning under reading 2",
        14 => "the desk is above 7",
        other => unreachable!("the frame call does not say {other}"),
    };
    match refusal {
        Refusal {
            number: 2,
            group,
            code,
        } => format!("2, {words} (group {group}, code {code})"),
        Refusal { number, .. } => format!("{number}, {words}"),
    }
}
