//! Format: the root alone, with the starting block in hand.

use super::memory::CURRENT;
use super::partition::*;
use super::refusal::*;
use super::sizes::Sizes;
use super::slot::{ALL_RIGHTS, IN_HAND};

pub fn format(words: &mut [u32]) -> Answer {
    let sizes = Sizes::of(words.len()).ok_or(LENGTH)?;
    let (root, structure) = (sizes.root as usize, sizes.root_structure() as usize);
    words.fill(0);
    words[..CURRENT].copy_from_slice(&sizes.header());
    words[CURRENT] = sizes.root;
    words[table_word(sizes.root)] = sizes.root;
    words[root + BEFORE_ENTRIES + 1] = SLOTS;
    words[root + BEFORE_STRUCTURES + 1] = sizes.root_structure();
    let starting = [sizes.first_byte, sizes.end(), ALL_RIGHTS, IN_HAND];
    words[structure + BEFORE_SLOTS..][..starting.len()].copy_from_slice(&starting);
    Ok(0)
}
