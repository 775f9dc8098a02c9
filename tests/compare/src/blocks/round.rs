//! A round: a guided sequence from format, with changed memories and any numbers as arguments in between, and a short one of another length.

use crate::both::Both;
use crate::kernel::Kernel;
use crate::tally::Tally;
use crate::{any_numbers, free, memories};
use second::blocks::geometry::words_of_kib;
use second::blocks::make::guide;
use second::random::Random;
use std::ops::RangeInclusive;

/// Guided calls of a round's sequence, and of its short one.
pub const CALLS: usize = 2000;
const FEW_CALLS: usize = 200;

/// The permitted lengths.
pub const KIB: RangeInclusive<usize> = 16..=64;

/// Small memories, in which refusals come soon: the lengths of most sequences.
const SMALL_KIB: RangeInclusive<usize> = 16..=24;

/// All of a round follows from its seed. With a flip one bit of the kernel's memory is changed after the call of that index.
pub fn round(kernel: &Kernel, seed: u32, flip: Option<usize>, tally: &mut Tally) -> Result<(), String> {
    let mut random = Random::new(seed);
    let mut both = Both { kernel, tally };
    let turn = seed as usize;
    let kib = if turn.is_multiple_of(4) { nth(KIB, turn / 4) } else { nth(SMALL_KIB, turn) };
    let other = nth(KIB, turn);
    memories::other_length(&mut both, &mut random)
        .and_then(|()| memories::any_words(&mut both, kib, &mut random))
        .and_then(|()| sequence(&mut both, kib, CALLS, Random::new(!seed), flip, &mut random))
        .and_then(|()| {
            let guiding = Random::new(random.draw() as u32);
            let done = sequence(&mut both, other, FEW_CALLS, guiding, None, &mut random);
            done.map_err(|text| format!("then {other} KiB, {text}"))
        })
        .map_err(|text| format!("seed {seed}, {kib} KiB, {text}"))
}

/// Goes through all of the range.
fn nth(range: RangeInclusive<usize>, turn: usize) -> usize {
    range.start() + turn % (range.end() - range.start() + 1)
}

/// Guided calls from format. Every few of them the free words are written in both memories.
fn sequence(
    both: &mut Both,
    kib: usize,
    count: usize,
    mut guiding: Random,
    flip: Option<usize>,
    random: &mut Random,
) -> Result<(), String> {
    let mut second: Vec<u32> = (0..words_of_kib(kib)).map(|_| random.draw() as u32).collect();
    let mut proved = second.clone();
    let mut result = both.perform(&mut proved, &mut second, &[0]);
    let mut index = 0;
    while index < count && result.is_ok() {
        free::write(&mut proved, &mut second, random);
        let some = count.min(index + 20 + guiding.below(200)) - index;
        guide(&mut second, &mut guiding, some, |line, said, after| {
            if result.is_err() {
                return;
            }
            let flip = (flip == Some(index)).then(|| (random.below(proved.len()), random.below(32)));
            result = before(both, &proved, line, random)
                .and_then(|()| both.follow(&mut proved, line, said, after, flip))
                .and_then(|()| between(both, after, random))
                .map_err(|text| format!("call {index}: {text}"));
            index += 1;
        });
    }
    both.tally.sequence(kib, count);
    result
}

/// What is compared before a call, on copies of the memory.
fn before(both: &mut Both, mem: &[u32], line: &[u32], random: &mut Random) -> Result<(), String> {
    if random.once_in(10) {
        any_numbers::compare(both, mem, line, random)?;
    }
    Ok(())
}

/// What is compared after a call, on copies of the memory that it left.
fn between(both: &mut Both, mem: &[u32], random: &mut Random) -> Result<(), String> {
    if random.once_in(20) {
        both.verdict(mem)?;
        (0..4).try_for_each(|_| memories::changed(both, mem, random))?;
    }
    Ok(())
}
