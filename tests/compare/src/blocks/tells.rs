//! Read enabled and find with any number of words lent for the six: as many are written as there are, and the words past them stay.

use crate::both::Both;
use compare::answers::shown;
use compare::lent::mixed;
use second::blocks::calls::Said;
use second::blocks::memory::CURRENT;

const TOLD: usize = 6;

/// The numbers of words that are lent.
pub const LENGTHS: std::ops::RangeInclusive<usize> = 0..=8;

/// Where the call tells a block, makes it with fewer words than six and with six or more. The numbers follow from the call and its memory.
pub fn compare(both: &mut Both, words: &[u32], line: &[u32], expected: Said) -> Result<(), String> {
    let Some(told) = expected.told else { return Ok(()) };
    let mixed = mixed(line.iter().chain(words.get(CURRENT)).chain(&told));
    for length in [mixed % TOLD, TOLD + mixed / TOLD % (LENGTHS.end() - TOLD + 1)] {
        both.tally.tells.compare(length, &told, |out, length| {
            let said = (both.kernel.tell)(words, line, out, length);
            let text = || {
                let [said, expected] = [said, expected.answer].map(|answer| shown(answer, None));
                format!("  with {length} words lent: proved {said}, second {expected}")
            };
            (said == expected.answer).then_some(()).ok_or_else(text)
        })?;
    }
    Ok(())
}
