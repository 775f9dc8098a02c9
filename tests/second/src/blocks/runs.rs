//! What the program block_runs writes for its input (tests/runs).

use super::calls::{perform, Said, CALLS};
use super::cover::Cover;
use super::refusal::DAMAGED;
use super::sound::sound;
use crate::words::hash32;

/// How many numbers of answers the program lends to the run of a part.
const ROOM: usize = 64;

/// The lines, and what the calls cover. Each number that the run of a part fills in has a line: an answer, and where a block may be told its six words. The run
/// stops before a call whose answer has no room.
pub fn runs(input: Vec<u32>) -> (String, Cover) {
    let (mut lines, mut cover) = (String::new(), Cover::default());
    let mut input = input.into_iter();
    while let Some(length @ 1..) = input.next() {
        let (mut mem, mut formatted) = (vec![7; length as usize], false);
        while let Some(count @ 1..) = input.next() {
            let part: Vec<u32> = input.by_ref().take(count as usize).collect();
            let (mut rest, mut room) = (&part[..], ROOM);
            while let Some((call, after)) = split_call(rest) {
                let before = mem.clone();
                let Some(left) = room.checked_sub(places(call[0])) else { break };
                let Some(Said { answer, told }) = perform(&mut mem, call[0], &call[1..]) else { break };
                // A memory's first format is counted only where it is refused.
                let first_format = call[0] == 0 && answer.is_ok() && !formatted;
                formatted |= first_format;
                if !first_format {
                    cover.count(&before, call, answer);
                }
                for number in std::iter::once(answer).chain(told.into_iter().flatten().map(Ok)) {
                    lines += &number.map_or_else(|refusal| format!("no {refusal}\n"), |word| format!("ok {word}\n"));
                }
                (rest, room) = (after, left);
            }
            lines += &format!("{}\n", hash32(mem.iter().copied()));
        }
        lines += &format!("verdict {}\n", if sound(&mem) { 0 } else { DAMAGED });
    }
    (lines, cover)
}

/// The first call of a sequence of words and the words behind it; none where its number is unknown or it is cut.
fn split_call(words: &[u32]) -> Option<(&[u32], &[u32])> {
    let (_, arguments) = CALLS.get(*words.first()? as usize)?;
    words.split_at_checked(1 + arguments)
}

/// How many numbers a call's answer takes: read enabled's and find's have six words beside.
fn places(number: u32) -> usize {
    match number {
        10 | 11 => 7,
        _ => 1,
    }
}
