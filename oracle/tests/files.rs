//! Frame files of both versions, right and bad, and the lines that `mcread` is to print of them, by
//! docs/FRAME_FILE.md.

use oracle::FrameInput;
use oracle::generator::{Plan, Random, base};
use oracle::sample::{File, FileFrame, Version, lines, mixed};
use oracle::scope::State;
use std::collections::{BTreeSet, HashSet};
use std::mem::discriminant;

const VERSIONS: [Version; 2] = [Version::First, Version::Second];

/// A file with a state and small frames: whether the state is carried before each, its reading and its
/// desk.
fn small(version: Version, named: &[(bool, u32, u32)]) -> File {
    let state = State::convert(&base::history(&mut Random::new(1)), 1, 0, 7);
    let frame = |&(carried, reading, desk)| FileFrame {
        carried,
        input: FrameInput {
            reading,
            desk,
            ..Plan::plain(1, 0, 0).input()
        },
    };
    File {
        version,
        state: state.unwrap(),
        frames: named.iter().map(frame).collect(),
    }
}

/// The lines but for those of the channels.
fn outline(bytes: &[u8]) -> Vec<String> {
    let lines = lines(bytes);
    let lines = lines.lines().filter(|line| !line.starts_with("  "));
    lines.map(str::to_string).collect()
}

const ACCEPTED: &str = "L - 35 head bits, 0 payload bits, 0 excess codes";
const WRONG: &str =
    "6, a bit count, reading, rate, LFE allocation, base step count or layout is wrong";

/// Nothing is carried, and desk 0 alone has a tally.
#[test]
fn lines_of_the_first_version() {
    let mut file = small(Version::First, &[(false, 1, 0); 2]);
    let wanted = [
        format!("frame 1: {ACCEPTED}"),
        format!("frame 2: {ACCEPTED}"),
        "2 frames read, 2 accepted, 0 refused".to_string(),
        "desk 0: tally 9".to_string(),
    ];
    assert_eq!(outline(&file.write()), wanted);
    file.frames.clear();
    let totals = "0 frames read, 0 accepted, 0 refused";
    assert_eq!(outline(&file.write()), [totals]);
}

/// Carryings, and tallies of the desks that frames name.
#[test]
fn lines_of_the_second_version() {
    let named = [(true, 2, 7), (false, 1, 8), (false, 3, 2), (false, 2, 7)];
    let mut file = small(Version::Second, &named);
    file.state.accepted = [1, 2, 3, 4, 5, 6, 7, u32::MAX - 1];
    let wanted = [
        "frame 1: the state is carried over".to_string(),
        format!("frame 1: {ACCEPTED}"),
        "frame 2: refused: 14, the desk is above 7".to_string(),
        format!("frame 3: refused: {WRONG}"),
        format!("frame 4: {ACCEPTED}"),
        "4 frames read, 2 accepted, 2 refused".to_string(),
        "desk 2: tally 3".to_string(),
        "desk 7: tally 4294967295".to_string(),
    ];
    assert_eq!(outline(&file.write()), wanted);
}

/// A wrong count or layout of a second version is the frame call's to refuse, and carrying's.
#[test]
fn wrong_state_of_the_second_version() {
    for (count, layout) in [(6, 0), (1, 9), (1, 20)] {
        let mut file = small(Version::Second, &[(true, 1, 0)]);
        (file.state.count, file.state.layout) = (count, layout);
        let wanted = [
            format!("frame 1: the state is not carried over: {WRONG}"),
            format!("frame 1: refused: {WRONG}"),
            "1 frames read, 0 accepted, 1 refused".to_string(),
            "desk 0: tally 7".to_string(),
        ];
        assert_eq!(outline(&file.write()), wanted);
    }
}

/// A file of three frames as bytes; where its state and its third frame begin, and where the numbers that
/// both versions have begin in a frame.
fn three_frames(version: Version) -> (Vec<u8>, usize, usize) {
    let file = small(version, &[(false, 1, 0); 3]);
    let bytes = file.write();
    let [opening, state, first, frame] = match version {
        Version::First => [13, 4613, 0, 22],
        Version::Second => [13, 4642, 10, 32],
    };
    let size = frame + 128 + 384 + 5 + 2 * 9216;
    assert_eq!(bytes.len(), opening + state + 3 * size);
    (bytes, opening + state + 2 * size, first)
}

/// The lines of a bad file are those of the frames before the fault, and one more.
fn bad(bytes: &[u8], frames: usize, line: &str) {
    let mut wanted: Vec<_> = (1..=frames)
        .map(|k| format!("frame {k}: {ACCEPTED}"))
        .collect();
    wanted.push(format!("bad file: {line}"));
    assert_eq!(outline(bytes), wanted);
}

#[test]
fn cut_files() {
    for version in VERSIONS {
        let (bytes, third, _) = three_frames(version);
        let state = if version == Version::First {
            4613
        } else {
            4642
        };
        let cut = |length: usize, frames, line| bad(&bytes[..length], frames, line);
        cut(0, 0, "the input is empty");
        for length in [1, 7] {
            cut(length, 0, "it does not begin with MCFRAMES or MCFRAME2");
        }
        for length in [8, 12] {
            cut(length, 0, "it ends inside the opening");
        }
        for length in [13, 13 + state - 1] {
            cut(length, 0, "it ends inside the state");
        }
        for length in [13 + state, 13 + state + 1] {
            cut(length, 0, "frame 1 is cut");
        }
        for length in [third, third + 21, third + 100, bytes.len() - 1] {
            cut(length, 2, "frame 3 is cut");
        }
    }
}

#[test]
fn openings_states_and_ends() {
    for version in VERSIONS {
        let spoiled = |at: usize, byte: u8| {
            let (mut bytes, ..) = three_frames(version);
            bytes.resize(bytes.len().max(at + 1), 0);
            bytes[at] = byte;
            bytes
        };
        let letters = "it does not begin with MCFRAMES or MCFRAME2";
        bad(&spoiled(7, b'3'), 0, letters);
        bad(&spoiled(0, b'm'), 0, letters);
        let flag = "byte 12, which says whether a state follows, is neither 0 nor 1";
        bad(&spoiled(12, 2), 0, flag);
        let end = three_frames(version).0.len();
        let left_over = "bytes are left over after the last frame";
        bad(&spoiled(end, 0), 3, left_over);
        bad(&spoiled(8, 2), 2, left_over);
        bad(&spoiled(8, 4), 3, "frame 4 is cut");
        if version == Version::First {
            bad(&spoiled(13, 6), 0, "its state has layout count 6, above 5");
        }
    }
}

/// A frame with every number wrong that stops a reader, mended one after another; a cut comes first.
#[test]
fn wrong_numbers() {
    for version in VERSIONS {
        let (mut bytes, third, shared) = three_frames(version);
        let mut faults = vec![
            (
                shared + 4,
                vec![5],
                "has base channel count 5, which is neither 1 nor 2",
            ),
            (
                shared + 6,
                9000u32.to_le_bytes().to_vec(),
                "has head bytes 9000, above 8192",
            ),
            (
                shared + 14,
                8193u32.to_le_bytes().to_vec(),
                "has payload bytes 8193, above 8192",
            ),
        ];
        if version == Version::Second {
            let carried = "has 2 for whether the state is carried, which is neither 0 nor 1";
            faults.insert(0, (1, vec![2], carried));
            faults.insert(0, (0, vec![2], "is for call 2, which is not known"));
        }
        let right = bytes.clone();
        for (at, number, _) in &faults {
            bytes[third + at..][..number.len()].copy_from_slice(number);
        }
        bad(&bytes[..third + shared + 21], 2, "frame 3 is cut");
        for (at, number, line) in &faults {
            bad(&bytes, 2, &format!("frame 3 {line}"));
            let place = third + at..third + at + number.len();
            bytes[place.clone()].copy_from_slice(&right[place]);
        }
        assert_eq!(bytes, right);
        assert!(File::read(&bytes).is_ok());
    }
}

/// Bounds that are right: a base channel count of 2 and strings of 8,192 bytes.
#[test]
fn numbers_at_their_bounds() {
    for version in VERSIONS {
        let mut file = small(version, &[(false, 1, 0)]);
        file.frames[0].input = Plan::plain(2, 0, 0).input();
        file.frames[0].input.head.resize(8192, 0);
        file.frames[0].input.payload.resize(8192, 0);
        assert_eq!(File::read(&file.write()), Ok(file));
    }
}

/// What a line says of a frame's answer or of a carrying, without words that name the place.
fn answer(line: &str) -> Option<&str> {
    let (_, said) = line.strip_prefix("frame ")?.split_once(": ")?;
    let (number, _) = said.split_once(", ").unwrap_or((said, ""));
    (number.starts_with("refused") || number.starts_with("the state")).then_some(number)
}

/// The files that `compare-files` goes over: both versions, every kind of fault, every refusal, both
/// answers of carrying and every desk.
#[test]
fn mixed_files() {
    let (mut versions, mut faults) = ([0; 2], HashSet::new());
    let (mut answers, mut desks) = (BTreeSet::new(), BTreeSet::new());
    for seed in 1..=200 {
        let bytes = mixed(seed);
        match File::read(&bytes) {
            Ok(file) => {
                let odd = seed % 2 == 1;
                assert_eq!(file.version == Version::First, odd, "seed {seed}");
                assert_eq!(file.write(), bytes, "seed {seed}");
                versions[usize::from(odd)] += 1;
            }
            Err(fault) => drop(faults.insert(discriminant(&fault))),
        }
        for line in lines(&bytes).lines() {
            answers.extend(answer(line).map(str::to_string));
            let desk = line.strip_prefix("desk ");
            desks.extend(desk.and_then(|line| line.chars().next()));
        }
    }
    assert!(versions.iter().all(|&files| files > 50), "{versions:?}");
    assert_eq!(faults.len(), 13, "{faults:?}");
    let refusals = [1, 2, 3, 4, 5, 6, 7, 8, 13, 14].map(|n| format!("refused: {n}"));
    let carried = [
        "the state is carried over",
        "the state is not carried over: 6",
    ];
    let wanted = refusals.into_iter().chain(carried.map(str::to_string));
    assert_eq!(answers, wanted.collect());
    assert_eq!(desks, ('0'..='7').collect());
}
