//! The walk of the tree: what is asked of each partition, and one mark for each page that is in a hand or in kernel use.

use super::super::address::*;
use super::super::memory::*;
use super::cells::Row;
use super::view::View;
use super::{sound, Judged};

pub struct Walk<'a, const W: usize> {
    pub pages: &'a [Page<W>],
    pub sizes: Sizes<W>,
    /// A mark for each of as many pages as there can be, four times W.
    used: [[bool; W]; 4],
    pub current_met: bool,
}

/// How many mappings and kernel pages a partition has, or its children together.
#[derive(Default)]
pub struct Counts {
    pub mapped: u32,
    pub kernel: u32,
}

impl<'a, const W: usize> Walk<'a, W> {
    pub fn new(pages: &'a [Page<W>], sizes: Sizes<W>) -> Walk<'a, W> {
        let mut used = [[false; W]; 4];
        used[0][0] = true;
        Walk { pages, sizes, used, current_met: false }
    }

    /// Marks the page that a word names, unless it has its mark.
    pub fn mark(&mut self, word: u32) -> Judged {
        let page = (word / page_bytes::<W>()) as usize;
        let used = self.used.as_flattened_mut();
        sound(page < self.pages.len() && !std::mem::replace(used.get_mut(page)?, true))
    }

    pub fn all_used(&self) -> bool {
        self.used.as_flattened()[..self.pages.len()].iter().all(|&used| used)
    }

    /// A partition and all below it. Kernel pages are marked before the children are met, so the walk ends on any memory.
    pub fn partition(&mut self, own: &View<'a, W>, parent: Option<&View<'a, W>>, depth: u32) -> Option<Counts> {
        sound(depth <= MOST_DEPTH)?;
        self.current_met |= own.address == self.pages[0][CURRENT];
        let mut kernel = 0;
        for [at, address] in own.pairs() {
            if let Some(parent) = parent {
                // "mapped inaccessible in its parent, not lent"
                let (word, shadow1) = parent.lookup(at)?;
                let here = word & PRESENT != 0 && word & frame::<W>() == address;
                sound(here && word & ACCESSIBLE == 0 && shadow1 <= IS_CHILD)?;
            }
            self.mark(address)?;
            kernel += 1;
        }
        let mapped = self.tables(own, parent, depth)?;
        Some(Counts { mapped, kernel })
    }

    /// The tables of a partition: how many mappings they have.
    fn tables(&mut self, own: &View<'a, W>, parent: Option<&View<'a, W>>, depth: u32) -> Option<u32> {
        let mut row = Row { own, parent, depth, mapped: 0, lent: 0, shut: 0, children: Counts::default() };
        let mut standing = 0u32;
        for i in 0..W {
            let links = [own.directory[i], own.shadow1[i], own.shadow2[i]];
            if links == [0; 3] {
                continue;
            }
            let three = own.threes().iter().position(|three| three.map(|[_, address]| address + PRESENT) == links)?;
            sound(standing & 1 << three == 0)?;
            standing |= 1 << three;
            row.judge(self, i, links)?;
        }
        // Each three stands once. "no other page that isn't lent is inaccessible", and each lent page is mapped in its child once: since
        // each page has one use, it is enough that the numbers agree.
        sound(standing.count_ones() as usize == own.threes().len())?;
        sound(row.shut == row.children.kernel && row.lent == row.children.mapped)?;
        Some(row.mapped)
    }
}
