//! Reading alone, on both sides in one process and on the same payloads.

use crate::call::{BUFFERS, Buffers};
use crate::case::Case;
use oracle::flat::Flat;
use oracle::generator::{Made, Plan};
use oracle::{FrameInput, reference_payload};
use std::hint::black_box;
use std::time::Instant;

/// Rounds of each side, in turn.
const ROUNDS: usize = 41;

/// The mean, over payloads of one kind, of the least time that each side has taken to read each. The
/// least is what other work on the machine changes least. The reading is 1.
pub fn line(name: &str, plans: impl Iterator<Item = Plan>) -> String {
    let mut buffers = Buffers::new();
    let (mut ours, mut theirs, mut payloads) = (0.0, 0.0, 0.0);
    for plan in plans {
        let input = Case::of(&Made::of(plan), 1).input;
        let flat = Flat::of(&input);
        let (mut our, mut their) = (f64::INFINITY, f64::INFINITY);
        for _ in 0..ROUNDS {
            our = our.min(microseconds(|| library(&input, &flat, &mut buffers)));
            their = their.min(microseconds(|| rust(&input)));
        }
        ours += our;
        theirs += their;
        payloads += 1.0;
    }
    format!(
        "reading alone, {name}: library {:.1} us, Rust {:.1} us, library / Rust {:.2}",
        ours / payloads,
        theirs / payloads,
        ours / theirs
    )
}

/// Head and payload through the export, refusals 6 and 8 included.
fn library(input: &FrameInput, flat: &Flat, buffers: &mut Buffers) {
    let answer = buffers.call(black_box(input), flat, BUFFERS.map(|(_, length)| length));
    assert_eq!(black_box(answer) & 0xFF, 0, "the payload is accepted");
    black_box(buffers);
}

/// Head and payload by the published text, which allocates its record; freeing it is counted.
fn rust(input: &FrameInput) {
    let payload = reference_payload(black_box(input));
    drop(black_box(payload).expect("the payload is accepted"));
}

fn microseconds(read: impl FnOnce()) -> f64 {
    let begin = Instant::now();
    read();
    begin.elapsed().as_secs_f64() * 1e6
}
