//! A run in pieces, shared by several threads.

use crate::coverage::Coverage;
use crate::run::Run;
use crate::sequence::{Stopped, cut_frame, sequence};
use crate::{heads, lent};
use std::sync::Mutex;
use std::sync::atomic::{AtomicBool, AtomicU64, Ordering};
use std::thread;

/// One piece of a run, by seed and number.
type Piece = fn(&mut Run, u64, u64) -> Result<(), Stopped>;

pub struct Work {
    piece: Piece,
    /// The mode that repeats one piece.
    again: &'static str,
    seed: u64,
    next: AtomicU64,
    /// Ends at this piece, once so many frames are compared.
    end: u64,
    enough: u64,
    frames: AtomicU64,
    stopped: AtomicBool,
}

impl Work {
    /// A mode of the program, its number and its seed.
    pub fn of(mode: &str, number: u64, seed: u64) -> Option<Work> {
        let (piece, again): (Piece, _) = match mode {
            "frames" | "sequence" => (sequence, "sequence"),
            "cuts" | "cut" => (cut_frame, "cut"),
            "heads" | "head" => (heads::head, "head"),
            _ => return None,
        };
        let (next, end, enough) = match mode {
            "frames" => (0, 0, number),
            "cuts" => (0, number, 0),
            "heads" => (0, heads::shapes(), number),
            _ => (number, number + 1, 0),
        };
        Some(Work {
            piece,
            again,
            seed,
            next: AtomicU64::new(next),
            end,
            enough,
            frames: AtomicU64::new(0),
            stopped: AtomicBool::new(false),
        })
    }

    /// Frames compared so far.
    pub fn frames(&self) -> u64 {
        self.frames.load(Ordering::Relaxed)
    }

    /// Takes pieces until enough is done or a thread stops at a difference.
    fn take(&self) -> (Coverage, Result<(), String>) {
        let mut run = Run::new();
        while !self.stopped.load(Ordering::Relaxed) {
            let number = self.next.fetch_add(1, Ordering::Relaxed);
            if number >= self.end && self.frames() >= self.enough {
                break;
            }
            let before = run.frames;
            let result = (self.piece)(&mut run, self.seed, number);
            let compared = run.frames - before;
            self.frames.fetch_add(compared, Ordering::Relaxed);
            if let Err((difference, words)) = result {
                self.stopped.store(true, Ordering::Relaxed);
                let place = format!("number {number}, frame {compared} of it; {words}");
                return (run.coverage, Err(self.words(number, &place, &difference)));
            }
        }
        (run.coverage, Ok(()))
    }

    fn words(&self, number: u64, place: &str, difference: &lent::Difference) -> String {
        let (seed, again) = (self.seed, self.again);
        let lent::Difference {
            field,
            found,
            wanted,
        } = difference;
        format!(
            "DIFFERENT in frame {} of the run\n{field}: found {found}, wanted {wanted}\nseed {seed}, \
             {place}\nagain: differential {again} {number} {seed}",
            self.frames()
        )
    }

    /// All threads, and what they reached together.
    pub fn run(&self) -> (Coverage, Result<(), String>) {
        let threads = thread::available_parallelism().map_or(1, |n| n.get());
        let all = Mutex::new((Coverage::default(), Ok(())));
        thread::scope(|scope| {
            for _ in 0..threads {
                scope.spawn(|| {
                    let (coverage, result) = self.take();
                    let mut all = all.lock().expect("no thread panicked");
                    all.0.merge(coverage);
                    if all.1.is_ok() {
                        all.1 = result;
                    }
                });
            }
        });
        all.into_inner().expect("no thread panicked")
    }
}
