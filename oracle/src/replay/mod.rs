//! The list for the crate `replay`: frames with the oracle's answers, in a layout that a program reads
//! with reads of fixed sizes. README.md describes it; a number of several bytes has its lowest first.

pub mod list;
mod record;
mod spoil;
pub mod values;

pub use record::{Expected, OPENING, Record};

use crate::scope::Buffers;

/// The first bytes of a list.
pub const NAME: &[u8; 8] = b"MCREPLAY";

/// The size of the list's opening and of each block of a payload.
pub const BLOCK: usize = 64;

/// What the four buffers hold before the first frame: 1 in every element.
pub fn buffers() -> Buffers {
    Buffers {
        raw: vec![1.0; 3456],
        work: vec![1.0; 3456],
        output: vec![1.0; 5760],
        lfe: vec![1.0; 12],
    }
}

/// The bytes of a list.
pub fn write(records: &[Record]) -> Vec<u8> {
    let mut bytes = NAME.to_vec();
    bytes.extend((records.len() as u32).to_le_bytes());
    bytes.resize(BLOCK, 0);
    for record in records {
        record.write(&mut bytes);
    }
    bytes
}

/// The frames of a list; none where the bytes are no list.
pub fn read(bytes: &[u8]) -> Option<Vec<Record>> {
    let (opening, mut rest) = bytes.split_at_checked(BLOCK)?;
    let count = u32::from_le_bytes(opening[8..12].try_into().ok()?);
    if &opening[..8] != NAME {
        return None;
    }
    let records: Option<_> = (0..count).map(|_| Record::read(&mut rest)).collect();
    records.filter(|_| rest.is_empty())
}
