//! The samples of `mcread`, one of each version, and what it is to print of them, held to the published
//! Rust.

use oracle::sample::{File, FileFrame, Version, lines, reel};
use oracle::scope::judge;
use std::fs::read;

fn kept_lines(path: &str) -> String {
    String::from_utf8(read(path).unwrap()).unwrap()
}

#[test]
fn kept_lines_are_the_references() {
    let sample = read("../crates/mcread/stdin").unwrap();
    assert_eq!(lines(&sample), kept_lines("../crates/mcread/stdout"));
}

#[test]
fn sample_is_the_reel() {
    let bytes = read("../crates/mcread/stdin").unwrap();
    assert_eq!(File::read(&bytes), Ok(reel()));
    assert_eq!(reel().write(), bytes);
}

#[test]
fn sample_of_the_first_version() {
    let bytes = read("tests/first_version/frames").unwrap();
    assert_eq!(lines(&bytes), kept_lines("tests/first_version/lines"));
    let file = File::read(&bytes).unwrap();
    let (version, state) = (file.version, &file.state);
    assert_eq!((version, state.count, state.layout), (Version::First, 5, 0));
    assert_eq!(state.accepted, [100, 0, 0, 0, 0, 0, 0, 0]);
    for FileFrame { carried, input } in &file.frames {
        assert_eq!((*carried, input.reading, input.desk), (false, 1, 0));
    }
    assert_eq!(file.frames.len(), 6);
    assert_eq!(file.write(), bytes);
}

/// The number of the answer to each frame, 0 for accepted, with the state carried before some.
fn numbers(file: &File) -> Vec<u32> {
    let mut state = file.state.clone();
    let answers = file.frames.iter().map(|frame| {
        if frame.carried {
            state.carry().unwrap();
        }
        judge(&frame.input, &mut state)
    });
    let numbers = answers.map(|answer| answer.map_or_else(|refusal| refusal.number, |_| 0));
    numbers.collect()
}

/// Four accepted frames of five channels and two refusals, under both readings and for three desks.
/// Where the state is not carried at the change, the frame that follows is refused.
#[test]
fn reel_shows_a_change_of_reading() {
    let mut file = reel();
    assert!(file.write().len() < 300_000, "{}", file.write().len());
    assert_eq!(File::read(&file.write()), Ok(reel()));
    let frames = file.frames.iter();
    let named: Vec<_> = frames
        .map(|frame| (frame.carried, frame.input.reading, frame.input.desk))
        .collect();
    let before = [(false, 1, 0), (false, 1, 3), (false, 1, 3)];
    let after = [(true, 2, 6), (false, 2, 0), (false, 2, 3)];
    assert_eq!(named, [before, after].concat());
    assert_eq!(numbers(&file), [0, 4, 0, 0, 2, 0]);
    file.frames[3].carried = false;
    assert_eq!(numbers(&file), [0, 4, 0, 5, 2, 5]);
}
