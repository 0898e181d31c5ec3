//! Writes a frame file, and prints what the program `mcread` is to print of it: the sample, or the file
//! of random frames of a seed.

use oracle::sample::{lines, mixed, reel};
use std::process::ExitCode;

fn main() -> ExitCode {
    let mut words = std::env::args().skip(1);
    let path = words.next();
    let seed = words.next().map(|word| word.parse());
    let (Some(path), None | Some(Ok(_))) = (path, &seed) else {
        eprintln!("usage: sample FILE [SEED]");
        return ExitCode::from(2);
    };
    let seed = seed.and_then(Result::ok);
    let bytes = seed.map_or_else(|| reel().write(), mixed);
    if let Err(error) = std::fs::write(&path, &bytes) {
        eprintln!("sample: {path}: {error}");
        return ExitCode::FAILURE;
    }
    print!("{}", lines(&bytes));
    ExitCode::SUCCESS
}
