//! The start-up record, read.
use crate::answer::done;
use crate::raw;
use crate::refusal::Refusal;

/// Bytes of a record.
pub const RECORD_BYTES: usize = 76;

/// Bytes of a record's revision, its last part.
pub const REVISION_BYTES: usize = 64;

/// Where the revision starts.
const REVISION_AT: usize = RECORD_BYTES - REVISION_BYTES;

/// A start-up record that is not refused.
#[derive(Clone, Copy, Debug, PartialEq, Eq)]
pub struct Record<'a> {
    /// Where the root's pages begin.
    pub begin: u32,
    /// Where they end.
    pub end: u32,
    /// The revision, 64 bytes, as a part of the bytes that were read.
    pub revision: &'a [u8],
}

/// Reads the record that the bytes begin with; more bytes are ignored.
///
/// Refusals: Short, Magic.
pub fn read_record(bytes: &[u8]) -> Result<Record<'_>, Refusal> {
    done(unsafe { raw::tumashqin_record_refusal(bytes.as_ptr(), bytes.len()) }).map(|()| Record {
        begin: record_begin(bytes),
        end: record_end(bytes),
        revision: revision(bytes),
    })
}

/// The record's begin alone, or 0 where it is refused.
pub fn record_begin(bytes: &[u8]) -> u32 {
    unsafe { raw::tumashqin_record_begin(bytes.as_ptr(), bytes.len()) }
}

/// The record's end alone, or 0 where it is refused.
pub fn record_end(bytes: &[u8]) -> u32 {
    unsafe { raw::tumashqin_record_end(bytes.as_ptr(), bytes.len()) }
}

/// The record's revision alone, as a part of the bytes: an empty part exactly where the record is refused.
pub fn revision(bytes: &[u8]) -> &[u8] {
    match unsafe { raw::tumashqin_record_revision_length(bytes.as_ptr(), bytes.len()) } {
        0 => &bytes[..0],
        length => &bytes[REVISION_AT..REVISION_AT + length],
    }
}
