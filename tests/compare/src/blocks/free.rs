//! Words that the rules leave free: partitions write them, and no call but format and those that take a block changes them.

use second::blocks::geometry::{Geometry, DESCRIPTOR_WORDS, STRUCTURE_WORDS};
use second::blocks::memory::partitions;
use second::random::Random;
use std::ops::Range;

/// Whether each word is free, of a sound memory.
fn free(mem: &[u32]) -> Vec<bool> {
    let mut free = vec![true; mem.len()];
    let mut taken = |words: Range<usize>| free[words].fill(false);
    taken(0..Geometry::of_length(mem.len()).map_or(mem.len(), |geometry| geometry.first_byte as usize / 4));
    for partition in partitions(mem) {
        taken(partition.at..partition.at + DESCRIPTOR_WORDS);
        partition.structures.iter().for_each(|one| taken(one.at..one.at + STRUCTURE_WORDS));
    }
    free
}

/// Writes the same random words to the free words of both memories, or to half of them.
pub fn write(proved: &mut [u32], second: &mut [u32], random: &mut Random) {
    let some = random.once_in(2);
    for index in (0..).zip(free(second)).filter_map(|(index, free)| free.then_some(index)) {
        let word = random.draw();
        if !some || word >> 32 & 1 == 0 {
            proved[index] = word as u32;
            second[index] = word as u32;
        }
    }
}
