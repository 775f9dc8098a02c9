//! A partition as the judge sees it: its descriptor, its entries and its structures.

use super::super::partition::*;
use super::super::sizes::*;
use super::super::slot::*;
use super::{sound, Judged};

pub struct View<'a> {
    pub words: &'a [u32],
    pub sizes: Sizes,
    pub at: u32,
    pub own: &'a Descriptor,
    /// The root has none.
    pub parent: Option<&'a Descriptor>,
}

impl<'a> View<'a> {
    pub fn at(words: &'a [u32], sizes: Sizes, at: u32) -> Option<View<'a>> {
        let own: &Descriptor = standing(words, at)?;
        let parent = if at == sizes.root {
            None
        } else {
            sound(is_partition(words, own[0]))?;
            Some(standing(words, own[0])?)
        };
        Some(View { words, sizes, at, own, parent })
    }

    /// Its number in the parent's pool.
    pub fn number(&self) -> u32 {
        self.own[1]
    }

    pub fn judge(&self) -> Judged {
        self.descriptor()?;
        self.entries()?;
        sound(self.parent.is_some() || self.own[BEFORE_STRUCTURES + 1] == self.sizes.root_structure())?;
        for (k, at) in structures(self.own) {
            let structure = standing(self.words, at)?;
            self.structure(k, structure)?;
            self.slots(k, structure)?;
        }
        Some(())
    }

    /// Sentence 3.
    fn descriptor(&self) -> Judged {
        let [above, number, level, zeros @ ..] = self.own;
        sound(zeros[..5] == [0; 5])?;
        let Some(parent) = self.parent else { return sound([*above, *number, *level] == [0; 3]) };
        let block = slot(self.words, parent, *number)?;
        sound(block.usage == HAS_DESCRIPTOR && block.place() == self.at)?;
        sound(parent[2].checked_add(1) == Some(*level) && (*level as usize) < self.sizes.table().len())
    }

    /// Sentence 4: a bit for each number that was met.
    fn entries(&self) -> Judged {
        let mut met = 0u128;
        for &number in entries(self.own).iter().filter(|&&entry| entry != 0) {
            sound(slot(self.words, self.own, number)?.usage == IN_HAND)?;
            let bit = 1 << (number - SLOTS);
            sound(met & bit == 0)?;
            met |= bit;
        }
        Some(())
    }

    /// Sentence 5.
    fn structure(&self, k: u32, structure: &Structure) -> Judged {
        let [number, own, ..] = *structure;
        let (pool, child) = match (own, self.parent) {
            (0, None) if k == 1 => return self.starting(number, structure),
            (0, Some(parent)) => (parent, self.number()),
            (1, _) => (self.own, 0),
            _ => return None,
        };
        let block = slot(self.words, pool, number)?;
        sound(block.usage == HAS_STRUCTURE && block.link == k && block.child == child)
    }

    /// The root's first structure stands in no block, and has the first piece of the starting block.
    fn starting(&self, number: u32, structure: &Structure) -> Judged {
        let (_, first) = slots_of(1, structure).next()?;
        sound(number == 0 && first.usage != FREE && first.previous == 0)
    }
}
