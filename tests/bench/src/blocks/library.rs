//! The library's functions by their addresses, called with what they take and nothing of Rust's in between.

use super::call::{Answer, Call, Words, FIND, READ_ENABLED};
use crate::painted::{self, Called, Function};

extern "C" {
    fn tumashqin_block_format();
    fn tumashqin_block_create();
    fn tumashqin_block_delete();
    fn tumashqin_block_prepare();
    fn tumashqin_block_collect();
    fn tumashqin_block_add();
    fn tumashqin_block_remove();
    fn tumashqin_block_cut();
    fn tumashqin_block_merge();
    fn tumashqin_block_enable();
    fn tumashqin_block_read_enabled();
    fn tumashqin_block_find();
    fn tumashqin_block_enter();
    fn tumashqin_block_leave();
    fn tumashqin_block_verdict();
}

/// By number; the verdict stands behind leave.
const CALLS: [Function; 15] = [
    tumashqin_block_format,
    tumashqin_block_create,
    tumashqin_block_delete,
    tumashqin_block_prepare,
    tumashqin_block_collect,
    tumashqin_block_add,
    tumashqin_block_remove,
    tumashqin_block_cut,
    tumashqin_block_merge,
    tumashqin_block_enable,
    tumashqin_block_read_enabled,
    tumashqin_block_find,
    tumashqin_block_enter,
    tumashqin_block_leave,
    tumashqin_block_verdict,
];

const TOLD_WORDS: usize = 6;

/// A call, with the bytes of stack that it takes. Read enabled and find write what they tell to a slice of their own.
pub fn call(call: &Call, words: &mut [u32]) -> (Answer, usize) {
    let mut out = [7; TOLD_WORDS];
    let tells = [READ_ENABLED, FIND].contains(&call.number);
    let mut arguments = [0; painted::ARGUMENTS];
    arguments[..2].copy_from_slice(&[words.as_mut_ptr() as usize, words.len()]);
    arguments[2..5].copy_from_slice(&call.arguments.map(|argument| argument as usize));
    if tells {
        arguments[4..6].copy_from_slice(&[out.as_mut_ptr() as usize, out.len()]);
    }
    // The slices are lent for the call alone, and each call takes words and any numbers.
    let Called { answer, stack } = unsafe { painted::call(CALLS[call.number as usize], arguments) };
    let (refusal, word) = ((answer >> 32) as u32, answer as u32);
    if tells && (refusal != 0 || word == 0) {
        assert_eq!(out, [0; TOLD_WORDS], "words where no block is told");
    }
    let told = (word == 1).then_some(out);
    let answer = match refusal {
        0 if tells => Ok(Words::Told(told)),
        0 => Ok(Words::One(word)),
        _ => Err(refusal),
    };
    (answer, stack)
}
