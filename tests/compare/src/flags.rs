//! Memories whose live flags, or the words behind them, are changed: what of that has to occur.

use second::geometry::{Edition, PPage, EDITIONS, SMALL};
use second::memory::{word, FLAG, ROOT_PAGE};
use second::tree::tree;
use std::collections::BTreeMap;

/// The words of a descriptor that are asked about, by edition: index, value, and whether a memory with it alone is sound.
const SMALL_WORDS: [(usize, u32, bool); 4] =
    [(FLAG, 1, true), (FLAG, 2, false), (FLAG, 3, false), (FLAG + 1, 1, false)];
const LARGE_WORDS: [(usize, u32, bool); 3] = [(FLAG, 1, false), (FLAG, 2, false), (FLAG + 1, 1, false)];

/// How often each occurred, by its text.
#[derive(Default)]
pub struct Flags(BTreeMap<String, u64>);

fn words(edition: Edition) -> &'static [(usize, u32, bool)] {
    if edition == SMALL {
        &SMALL_WORDS
    } else {
        &LARGE_WORDS
    }
}

fn name(edition: Edition, (index, value, sound): (usize, u32, bool), whose: &str) -> String {
    let verdict = if sound { "sound" } else { "damaged" };
    format!("edition {}: {value} in word {index} of {whose} descriptor, {verdict}", edition.number)
}

impl Flags {
    /// A memory and the sentences that it breaks. Word 13 of the root's descriptor breaks 2 besides 1.
    pub fn count(&mut self, mem: &[u32], broken: &[u32]) {
        let Some(edition) = Edition::named(mem) else { return };
        if !matches!(broken, [] | [1] | [1, 2]) {
            return;
        }
        let nodes = tree(mem);
        for &(index, value, sound) in words(edition) {
            let has = |page: PPage| word(mem, page, index) == value;
            if sound != broken.is_empty() {
                continue;
            }
            let descriptors: Vec<_> = nodes.iter().map(|node| node.partition.descriptor).filter(|&d| has(d)).collect();
            for (whose, met) in [
                ("the root's", descriptors.contains(&ROOT_PAGE)),
                ("a child's", descriptors.iter().any(|&d| d != ROOT_PAGE)),
            ] {
                *self.0.entry(name(edition, (index, value, sound), whose)).or_default() += u64::from(met);
            }
        }
    }

    pub fn add(&mut self, other: &Flags) {
        other.0.iter().for_each(|(name, count)| *self.0.entry(name.clone()).or_default() += count);
    }

    pub fn missing(&self) -> Vec<String> {
        let all = EDITIONS.into_iter().flat_map(|edition| {
            let whose = ["the root's", "a child's"].into_iter();
            whose.flat_map(move |whose| words(edition).iter().map(move |&word| name(edition, word, whose)))
        });
        all.filter(|name| self.0.get(name).is_none_or(|&count| count == 0)).collect()
    }

    pub fn each(&self) -> impl Iterator<Item = (&String, &u64)> {
        self.0.iter()
    }
}
