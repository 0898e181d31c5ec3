//! The library's side of a frame: buffers with a pattern in and around them, the call, and what it
//! left behind.

use koftabasin::{Answer, Buffers, Frame, LFE, McState, OUTPUT, RAW, decode_packed};
use oracle::flat::Flat;
use oracle::input::DESKS;
use oracle::{FrameInput, scope};

/// The lengths of raw, work, output and lfe.
pub const LENGTHS: [usize; 4] = [RAW, RAW, OUTPUT, LFE];
const NAMES: [&str; 4] = ["raw", "work", "output", "lfe"];

/// Elements before and after each buffer, which no call may write.
pub const MARGIN: usize = 8;

/// A place where library and oracle differ.
#[derive(Debug)]
pub struct Difference {
    pub field: String,
    pub found: String,
    pub wanted: String,
}

pub type Compared = Result<(), Difference>;

/// Two floats are the same in all 64 bits, or differ at this place of a field.
fn same_float(field: &str, at: i64, found: f64, wanted: f64) -> Compared {
    if found.to_bits() == wanted.to_bits() {
        return Ok(());
    }
    let words = |value: f64| format!("{value:?} ({:#018x})", value.to_bits());
    Err(Difference {
        field: format!("{field}[{at}]"),
        found: words(found),
        wanted: words(wanted),
    })
}

fn same_floats(field: &str, found: &[f64], wanted: &[f64]) -> Compared {
    assert_eq!(found.len(), wanted.len(), "{field}");
    for (at, (found, wanted)) in found.iter().zip(wanted).enumerate() {
        same_float(field, at as i64, *found, *wanted)?;
    }
    Ok(())
}

pub fn same_number(field: &str, found: u64, wanted: u64) -> Compared {
    match found == wanted {
        true => Ok(()),
        false => Err(Difference {
            field: field.to_string(),
            found: format!("{found} ({found:#x})"),
            wanted: format!("{wanted} ({wanted:#x})"),
        }),
    }
}

/// The library's state is this one.
pub fn same_state(found: &McState, wanted: &scope::State) -> Compared {
    same_but_for_tallies(found, wanted)?;
    same_tallies(found, &wanted.accepted)
}

/// The library's state is this one, but that its tallies may be any.
pub fn same_but_for_tallies(found: &McState, wanted: &scope::State) -> Compared {
    same_floats("history", found.history(), &wanted.history)?;
    let count = u64::from(found.layout_len());
    same_number("layout count", count, u64::from(wanted.count))?;
    let layout = u64::from(found.layout());
    same_number("layout", layout, u64::from(wanted.layout))
}

pub fn same_tallies(found: &McState, wanted: &[u32; DESKS]) -> Compared {
    for (desk, (found, wanted)) in found.accepted().iter().zip(wanted).enumerate() {
        if found != wanted {
            let field = format!("tally of desk {desk}");
            same_number(&field, u64::from(*found), u64::from(*wanted))?;
        }
    }
    Ok(())
}

/// What lies in a buffer before a call.
fn pattern(at: usize) -> f64 {
    f64::from_bits(0x4321_0000_0000_0000 + at as u64)
}

/// The four buffers, each with its margins.
pub struct Lent([Vec<f64>; 4]);

impl Lent {
    pub fn new() -> Lent {
        let fresh = |length| (0..length + 3 * MARGIN).map(pattern).collect();
        Lent(LENGTHS.map(fresh))
    }

    /// Calls the library on a frame, with buffers of these lengths, at most a margin above the right
    /// ones.
    pub fn call(&mut self, state: &mut McState, frame: &Frame, lengths: [usize; 4]) -> Answer {
        let mut parts = self.0.iter_mut().zip(lengths);
        let mut next = || {
            let (buffer, length) = parts.next().expect("four buffers");
            &mut buffer[MARGIN..MARGIN + length]
        };
        let mut buffers = Buffers {
            raw: next(),
            work: next(),
            output: next(),
            lfe: next(),
        };
        decode_packed(state, frame, &mut buffers)
    }

    /// The buffers hold these values, or without any are untouched, and so are their margins. Then
    /// the pattern is put back.
    pub fn compare(&mut self, wanted: Option<&scope::Buffers>) -> Compared {
        let values = wanted.map(|lent| [&lent.raw, &lent.work, &lent.output, &lent.lfe]);
        for (k, buffer) in self.0.iter_mut().enumerate() {
            if let Some(values) = values {
                let inside = MARGIN..MARGIN + LENGTHS[k];
                same_floats(NAMES[k], &buffer[inside.clone()], values[k])?;
                inside.for_each(|at| buffer[at] = pattern(at));
            }
            untouched(NAMES[k], buffer)?;
        }
        Ok(())
    }
}

/// A buffer and its margins hold the pattern.
fn untouched(field: &str, buffer: &[f64]) -> Compared {
    for (at, found) in buffer.iter().enumerate() {
        same_float(field, at as i64 - MARGIN as i64, *found, pattern(at)).map_err(|words| {
            let wanted = "untouched".to_string();
            Difference { wanted, ..words }
        })?;
    }
    Ok(())
}

/// The sum of the bits of floats.
pub fn float_sum<'a>(values: impl IntoIterator<Item = &'a f64>) -> u64 {
    let bits = values.into_iter().map(|value| value.to_bits());
    bits.fold(0, u64::wrapping_add)
}

/// A sum over all that is lent to be read only.
pub fn loan_sum(input: &FrameInput, flat: &Flat) -> u64 {
    let steps = flat.base_nb_steps.iter().chain(&flat.nb_steps);
    let steps = steps.map(|steps| u64::from(*steps));
    let bytes = input.head.iter().chain(&input.payload);
    let bytes = bytes.map(|byte| u64::from(*byte));
    let sums = [
        float_sum(flat.base.iter().flatten()),
        steps.sum(),
        bytes.sum(),
    ];
    sums.into_iter().fold(0, u64::wrapping_add)
}
