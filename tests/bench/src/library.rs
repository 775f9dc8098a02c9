//! The library's functions by their addresses, called with what they take and nothing of Rust's in between.

use crate::call::{Answer, Call, Words, RESUME};
use crate::ordinary::CONTEXT_WORDS;
use crate::painted::{self, Called, Function};

extern "C" {
    fn tumashqin_format();
    fn tumashqin_create_partition();
    fn tumashqin_delete_partition();
    fn tumashqin_add_vaddr();
    fn tumashqin_remove_vaddr();
    fn tumashqin_page_count();
    fn tumashqin_prepare();
    fn tumashqin_collect();
    fn tumashqin_mapped_in_child();
    fn tumashqin_enter();
    fn tumashqin_leave();
    fn tumashqin_load();
    fn tumashqin_store();
    fn tumashqin_notify();
    fn tumashqin_dispatch();
    fn tumashqin_resume();
    fn tumashqin_verdict();
    fn tumashqin_write_record();
    fn tumashqin_record_refusal();
    fn tumashqin_record_begin();
    fn tumashqin_record_end();
    fn tumashqin_record_revision_length();
}

/// By number; format stands at 0, and the verdict behind resume.
const CALLS: [Function; 17] = [
    tumashqin_format,
    tumashqin_create_partition,
    tumashqin_delete_partition,
    tumashqin_add_vaddr,
    tumashqin_remove_vaddr,
    tumashqin_page_count,
    tumashqin_prepare,
    tumashqin_collect,
    tumashqin_mapped_in_child,
    tumashqin_enter,
    tumashqin_leave,
    tumashqin_load,
    tumashqin_store,
    tumashqin_notify,
    tumashqin_dispatch,
    tumashqin_resume,
    tumashqin_verdict,
];

/// The record's readers.
pub const READERS: [(&str, Function); 4] = [
    ("record refusal", tumashqin_record_refusal),
    ("record begin", tumashqin_record_begin),
    ("record end", tumashqin_record_end),
    ("record revision", tumashqin_record_revision_length),
];

/// A call; its answer is the refusal, or the word or words where there is none. A resume writes its words to a slice of its own.
pub fn call(call: &Call, words: &mut [u32]) -> (Answer, usize) {
    let mut out = [7; CONTEXT_WORDS];
    let mut arguments = [0; painted::ARGUMENTS];
    arguments[..2].copy_from_slice(&[words.as_mut_ptr() as usize, words.len()]);
    arguments[2..].copy_from_slice(&call.arguments.map(|argument| argument as usize));
    if call.number == RESUME {
        arguments[4..6].copy_from_slice(&[out.as_mut_ptr() as usize, out.len()]);
    }
    // The slices are lent for the call alone, and each call takes words and any numbers.
    let Called { answer, stack } = unsafe { painted::call(CALLS[call.number as usize], arguments) };
    let (refusal, word) = match call.number {
        0 | 16 => (answer as u32, 0),
        _ => ((answer >> 32) as u32, answer as u32),
    };
    if call.number == RESUME {
        assert_eq!(word, 0);
        assert!(refusal == 0 || out == [0; CONTEXT_WORDS], "words beside a refusal: {out:?}");
    }
    let answer = match (refusal, call.number) {
        (0, RESUME) => Ok(Words::Eleven(out)),
        (0, _) => Ok(Words::One(word)),
        _ => Err(refusal),
    };
    (answer, stack)
}

/// Writes the record; its answer is 0 or the refusal.
pub fn write_record(words: &[u32], revision: &[u8], out: &mut [u8]) -> (u32, usize) {
    let mut arguments = [0; painted::ARGUMENTS];
    arguments[..6].copy_from_slice(&[
        words.as_ptr() as usize,
        words.len(),
        revision.as_ptr() as usize,
        revision.len(),
        out.as_mut_ptr() as usize,
        out.len(),
    ]);
    // The three slices are lent for the call alone, and out is no part of the others.
    let Called { answer, stack } = unsafe { painted::call(tumashqin_write_record, arguments) };
    (answer as u32, stack)
}

/// One of the record's readers.
pub fn read(reader: Function, bytes: &[u8]) -> (u32, usize) {
    let mut arguments = [0; painted::ARGUMENTS];
    arguments[..2].copy_from_slice(&[bytes.as_ptr() as usize, bytes.len()]);
    // The bytes are lent for the call alone, and a reader takes any bytes.
    let Called { answer, stack } = unsafe { painted::call(reader, arguments) };
    (answer as u32, stack)
}
