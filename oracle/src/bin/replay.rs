//! Runs the list of the crate `replay` through the library, as that crate does. Ends with status 1 at
//! the first difference.

use koftabasin::{Buffers, McState, decode_packed};
use oracle::flat::Flat;
use oracle::replay::values::{buffer_hashes, state_hash};
use oracle::replay::{self, Expected, Record};
use oracle::{library, scope};
use std::process::ExitCode;

/// The state and the buffers, which stay from one frame to the next.
struct Held {
    state: McState,
    written: scope::Buffers,
}

impl Held {
    fn call(&mut self, record: &Record) -> Expected {
        let (input, start) = record.lent();
        if let Some(state) = start {
            self.state = library::held(&state);
        }
        let mut buffers = Buffers {
            raw: &mut self.written.raw,
            work: &mut self.written.work,
            output: &mut self.written.output,
            lfe: &mut self.written.lfe,
        };
        let flat = Flat::of(&input);
        let frame = library::frame(&input, &flat);
        let answer = decode_packed(&mut self.state, &frame, &mut buffers);
        Expected {
            answer: answer.0,
            buffers: buffer_hashes(&self.written),
            state: state_hash(&library::state(&self.state)),
        }
    }
}

fn main() -> ExitCode {
    let Some(path) = std::env::args().nth(1) else {
        eprintln!("usage: replay FILE");
        return ExitCode::from(2);
    };
    let Some(records) = std::fs::read(&path)
        .ok()
        .and_then(|bytes| replay::read(&bytes))
    else {
        eprintln!("replay: {path} is no list");
        return ExitCode::FAILURE;
    };
    let mut held = Held {
        state: McState::new(),
        written: replay::buffers(),
    };
    for (k, record) in records.iter().enumerate() {
        let found = held.call(record);
        if found != record.expected {
            println!(
                "DIFFERENT in frame {k}\nfound  {found:x?}\nwanted {:x?}",
                record.expected
            );
            return ExitCode::FAILURE;
        }
    }
    println!("{path}: {} frames, no difference", records.len());
    ExitCode::SUCCESS
}
