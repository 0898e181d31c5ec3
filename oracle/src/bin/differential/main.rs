//! Compares the proved library with the published Rust and the scope: every answer, every
//! buffer and the state, in all bits, of frames, of carryings and of conversions. Ends with status 1 at
//! the first difference.

mod case;
mod cells;
mod coverage;
mod heads;
mod lent;
mod run;
mod sequence;
mod twin;
mod work;

use std::process::ExitCode;
use std::time::Instant;
use work::Work;

const USAGE: &str = "usage: differential MODE [NUMBER [SEED]]
  frames    sequences of frames, whole and spoiled, with carryings and conversions, until NUMBER frames
            are compared
  cuts      NUMBER frames, cut at every bit: one of the longest, one that reading 1 refuses and one with
            the most excesses among them
  heads     heads of every shape, whole and cut at every bit, until NUMBER heads are compared
  sequence  the piece of that NUMBER of a run of frames
  cut       the piece of that NUMBER of a run of cuts
  head      the piece of that NUMBER of a run of heads";

/// From so many frames on, a cell that was not reached is a failure.
const LONG: u64 = 200_000;

/// Mode, number and seed from the command line.
fn arguments() -> Option<(String, u64, u64)> {
    let mut words = std::env::args().skip(1);
    let mode = words.next()?;
    let number = words.next().unwrap_or_else(|| "1000000".to_string());
    let seed = words.next().unwrap_or_else(|| "1".to_string());
    Some((mode, number.parse().ok()?, seed.parse().ok()?))
}

fn main() -> ExitCode {
    let work = arguments().and_then(|(mode, number, seed)| {
        let work = Work::of(&mode, number, seed)?;
        Some((work, format!("{mode}, seed {seed}")))
    });
    let Some((work, name)) = work else {
        eprintln!("{USAGE}");
        return ExitCode::from(2);
    };
    let begin = Instant::now();
    let (coverage, result) = work.run();
    if let Err(words) = result {
        println!("{words}");
        return ExitCode::FAILURE;
    }
    for line in coverage.lines() {
        println!("{line}");
    }
    let (frames, seconds) = (work.frames(), begin.elapsed().as_secs_f64());
    let of_frames = name.starts_with("frames");
    if of_frames {
        println!("{}", coverage.changes());
    }
    println!("{name}: {frames} frames compared in {seconds:.0} s, no difference");
    let missing = coverage.missing();
    if of_frames && frames >= LONG && !missing.is_empty() {
        println!("NOT REACHED: {}", missing.join(", "));
        return ExitCode::FAILURE;
    }
    ExitCode::SUCCESS
}
