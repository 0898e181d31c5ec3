//! Writes the list of frames and answers that the crate `replay` runs.

use oracle::replay::{list, write};
use std::collections::BTreeMap;
use std::process::ExitCode;

fn main() -> ExitCode {
    let Some(path) = std::env::args().nth(1) else {
        eprintln!("usage: replay_list FILE");
        return ExitCode::from(2);
    };
    let records = list::records();
    let bytes = write(&records);
    if let Err(error) = std::fs::write(&path, &bytes) {
        eprintln!("replay_list: {path}: {error}");
        return ExitCode::FAILURE;
    }
    let mut answers = BTreeMap::new();
    for record in &records {
        *answers.entry(record.expected.answer & 0xFF).or_insert(0) += 1;
    }
    println!("{path}: {} frames, {} bytes", records.len(), bytes.len());
    println!("by refusal, 0 for accepted: {answers:?}");
    ExitCode::SUCCESS
}
