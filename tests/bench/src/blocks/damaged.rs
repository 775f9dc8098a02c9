//! Damaged memories: sound ones with a word changed late, and ones made to cost a judge as much as they can.

use super::call::Call;
use crate::damaged::{costliest, with, Damaged};
use second::blocks::geometry::{Geometry, HEADER_WORDS, STRUCTURES};
use second::blocks::memory::{partitions, slot, table_word, Partition, Slot, BEFORE_STRUCTURES, CURRENT};
use second::random::Random;
use std::ops::Range;

/// All of them, the ones of small change from a sound memory whose tree is the given one.
pub fn damaged(sound: &[u32]) -> Vec<Damaged> {
    let root = Geometry::of_length(sound.len()).expect("a length that is permitted").root;
    let partitions = partitions(sound);
    let last = partitions.last().expect("the root");
    let last_block = partitions.iter().rev().find_map(|one| one.blocks().last()).expect("a block");
    let mut random = Random::new(7);
    let mut noise = |from: usize| {
        let mut words = sound.to_vec();
        words[from..].fill_with(|| random.draw() as u32);
        words
    };
    let mut all = vec![
        Damaged { name: "current is no partition", words: with(sound, |m| m[CURRENT] += 1) },
        Damaged { name: "last block's next", words: with(sound, |m| next_wrong(m, last_block)) },
        Damaged { name: "last partition's word 7", words: with(sound, |m| m[last.at + 7] = 1) },
        Damaged { name: "last partition, every structure the same", words: with(sound, |m| shared(m, last)) },
        Damaged { name: "every structure the same", words: with(sound, |m| all_shared(m, &partitions)) },
        Damaged { name: "every table word set", words: with(sound, |m| table_set(m, HEADER_WORDS + 1..root)) },
        Damaged { name: "every later table word set", words: with(sound, |m| table_set(m, table_word(last.at)..root)) },
        Damaged { name: "every partition's parent the last", words: with(sound, |m| one_parent(m, &partitions)) },
        Damaged { name: "random after the kernel's own part", words: noise(root + 32 + 74) },
        Damaged { name: "random", words: noise(0) },
        Damaged { name: "costliest of random changes", words: costliest::<Call>(sound) },
        Damaged { name: "all zeros", words: vec![0; sound.len()] },
        Damaged { name: "all ones", words: vec![u32::MAX; sound.len()] },
    ];
    all.retain(|damaged| damaged.words != sound);
    all
}

fn next_wrong(m: &mut [u32], block: &Slot) {
    m[block.at + slot::NEXT] ^= 1;
}

/// Every structure word of a partition names one structure: its own first, or the root's where it has none.
fn shared(m: &mut [u32], partition: &Partition) {
    let root = m[1] + 32;
    let structure = partition.structures.first().map_or(root, |structure| structure.at as u32);
    m[partition.at + BEFORE_STRUCTURES + 1..][..STRUCTURES].fill(structure);
}

fn all_shared(m: &mut [u32], partitions: &[Partition]) {
    partitions.iter().for_each(|partition| shared(m, partition));
}

/// Each of these table words that is 0 names the first index that it may.
fn table_set(m: &mut [u32], words: Range<usize>) {
    for index in words {
        if m[index] == 0 {
            m[index] = 32 * (index - HEADER_WORDS) as u32;
        }
    }
}

/// Below the root each partition's parent is the last one, which stands below itself.
fn one_parent(m: &mut [u32], partitions: &[Partition]) {
    let last = partitions.last().map_or(0, |last| last.at as u32);
    partitions.iter().skip(1).for_each(|partition| m[partition.at] = last);
}
