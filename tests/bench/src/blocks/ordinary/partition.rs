//! A descriptor's words, and the slots that its structures have. What isn't there is none, so that the judge may read any words.

use super::sizes::*;
use super::slot::{Slot, SLOT_WORDS};

pub type Descriptor = [u32; DESCRIPTOR_WORDS];
pub type Structure = [u32; STRUCTURE_WORDS];

/// Descriptor words before entry 1 and before structure 1.
pub const BEFORE_ENTRIES: usize = 7;
pub const BEFORE_STRUCTURES: usize = 15;
pub const ENTRIES: usize = 8;
pub const STRUCTURES: u32 = 16;
/// Words of a structure before its slots.
pub const BEFORE_SLOTS: usize = 2;
pub const SLOTS: u32 = 8;

/// The words of what stands at an index.
pub fn standing<const N: usize>(words: &[u32], at: u32) -> Option<&[u32; N]> {
    words.get(at as usize..)?.first_chunk()
}

/// The words at an index of what is known to stand there.
pub fn known<const N: usize>(words: &[u32], at: u32) -> &[u32; N] {
    standing(words, at).expect("sound memory")
}

/// In a memory of permitted length, whose table has a word for each index.
pub fn is_partition(words: &[u32], at: u32) -> bool {
    at != 0 && (at as usize) < words.len() && words[table_word(at)] == at
}

pub fn table_word(at: u32) -> usize {
    HEADER_WORDS + at as usize / DESCRIPTOR_WORDS
}

/// The entries of enabled blocks.
pub fn entries(descriptor: &Descriptor) -> &[u32] {
    &descriptor[BEFORE_ENTRIES + 1..][..ENTRIES]
}

/// The numbers and indices of the structures that are there.
pub fn structures(descriptor: &Descriptor) -> impl Iterator<Item = (u32, u32)> + '_ {
    (1..).zip(descriptor[BEFORE_STRUCTURES + 1..].iter().copied()).filter(|&(_, at)| at != 0)
}

/// Where the slot of a number begins.
pub fn slot_at(descriptor: &Descriptor, number: u32) -> Option<usize> {
    let k = number / SLOTS;
    if k == 0 || k > STRUCTURES {
        return None;
    }
    let structure = descriptor[BEFORE_STRUCTURES + k as usize];
    (structure != 0).then_some(structure as usize + BEFORE_SLOTS + SLOT_WORDS * (number % SLOTS) as usize)
}

pub fn slot(words: &[u32], descriptor: &Descriptor, number: u32) -> Option<Slot> {
    words.get(slot_at(descriptor, number)?..)?.first_chunk().map(Slot::of)
}

/// The slots of a structure, with their numbers.
pub fn slots_of(k: u32, structure: &Structure) -> impl Iterator<Item = (u32, Slot)> + '_ {
    let (slots, _) = structure[BEFORE_SLOTS..].as_chunks();
    (SLOTS * k..).zip(slots.iter().map(Slot::of))
}
