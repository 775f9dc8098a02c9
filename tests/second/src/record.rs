//! The start-up record: magic, begin, end and 64 revision bytes, little-endian.

use crate::calls::Answer;
use crate::geometry::Sizes;
use crate::refusal::*;
use crate::sound::sound;

pub const LENGTH: usize = 76;
pub const REVISION: usize = 64;
pub const MAGIC_BYTES: [u8; 4] = [0xFE, 0xCA, 0xAD, 0xDE];

/// What the reader answers; begin and end are 0 when it refuses.
#[derive(Clone, Copy, PartialEq, Eq, Debug)]
pub struct Extent {
    pub answer: Answer,
    pub begin: u32,
    pub end: u32,
}

/// Writes the first 76 bytes of the buffer; bytes past them stay.
pub fn write(mem: &[u32], revision: &[u8], buffer: &mut [u8]) -> Answer {
    sound(mem).map_err(|_| DAMAGED)?;
    let sizes = Sizes::of(mem).ok_or(DAMAGED)?;
    let page_bytes = sizes.edition.page_bytes();
    let revision = revision.get(..REVISION).ok_or(SHORT)?;
    let record = buffer.get_mut(..LENGTH).ok_or(SHORT)?;
    record[..4].copy_from_slice(&MAGIC_BYTES);
    record[4..8].copy_from_slice(&page_bytes.to_le_bytes());
    record[8..12].copy_from_slice(&(page_bytes * (sizes.free + 1)).to_le_bytes());
    record[12..].copy_from_slice(revision);
    Ok(0)
}

pub fn read(bytes: &[u8]) -> Extent {
    match extent(bytes) {
        Ok((begin, end)) => Extent { answer: Ok(0), begin, end },
        Err(refusal) => Extent { answer: Err(refusal), begin: 0, end: 0 },
    }
}

/// The revision as a part of the caller's bytes; empty exactly when the reader refuses.
pub fn revision(bytes: &[u8]) -> &[u8] {
    match extent(bytes) {
        Ok(_) => &bytes[12..LENGTH],
        Err(_) => &[],
    }
}

fn extent(bytes: &[u8]) -> Result<(u32, u32), u32> {
    let record = bytes.get(..LENGTH).ok_or(SHORT)?;
    let number = |at: usize| u32::from_le_bytes([record[at], record[at + 1], record[at + 2], record[at + 3]]);
    let (begin, end) = (number(4), number(8));
    if record[..4] != MAGIC_BYTES || begin > end {
        return Err(MAGIC);
    }
    Ok((begin, end))
}
