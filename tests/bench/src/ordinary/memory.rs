//! The memory as pages, and the words of tables.

use super::address::*;
use super::judge::is_sound;
use super::partition::Partition;
use super::refusal::{require, DAMAGED};

pub type Page<const W: usize> = [u32; W];

/// Header word that holds the current partition's descriptor address.
pub const CURRENT: usize = 4;
/// Header word that holds the edition: 0 for small pages, 1 for large ones.
pub const EDITION: usize = 5;
/// Descriptor word that holds the parent's descriptor address.
pub const PARENT: usize = 11;
/// Descriptor word that holds the live flag, 0 or 1; with large pages 0.
pub const FLAG: usize = 12;
/// Shadow 1 word of a page that is a child's descriptor.
pub const IS_CHILD: u32 = 1;

/// The pages of words, as large as the header's edition says.
pub enum Pages<'a> {
    Small(&'a mut [Page<SMALL>]),
    Large(&'a mut [Page<LARGE>]),
}

impl<'a> Pages<'a> {
    /// Words that name no edition or are not whole pages of it are damaged.
    pub fn of(words: &'a mut [u32]) -> Result<Pages<'a>, u32> {
        match words.get(EDITION) {
            Some(0) => whole_pages(words, DAMAGED).map(Pages::Small),
            Some(1) => whole_pages(words, DAMAGED).map(Pages::Large),
            _ => Err(DAMAGED),
        }
    }
}

/// The words as pages, or the refusal where some words are left over.
pub fn whole_pages<const W: usize>(words: &mut [u32], refusal: u32) -> Result<&mut [Page<W>], u32> {
    let (pages, rest) = words.as_chunks_mut();
    require(rest.is_empty(), refusal)?;
    Ok(pages)
}

/// Memory that is sound: every page that a word names is there.
pub struct Memory<'a, const W: usize>(&'a mut [Page<W>]);

impl<'a, const W: usize> Memory<'a, W> {
    pub const HEADER: PPage<W> = PPage(0);

    pub fn judged(pages: &'a mut [Page<W>]) -> Result<Memory<'a, W>, u32> {
        require(is_sound(pages), DAMAGED)?;
        Ok(Memory(pages))
    }

    /// Pages that are known to be sound.
    pub fn trusted(pages: &'a mut [Page<W>]) -> Memory<'a, W> {
        Memory(pages)
    }

    pub fn page(&self, page: PPage<W>) -> &Page<W> {
        &self.0[page.0 as usize]
    }

    pub fn page_mut(&mut self, page: PPage<W>) -> &mut Page<W> {
        &mut self.0[page.0 as usize]
    }

    pub fn sizes(&self) -> Sizes<W> {
        let (pages, threes) = (self.page(Self::HEADER)[0], self.page(Self::HEADER)[1]);
        Sizes { pages, threes, flat: pages - 6 - 3 * threes }
    }

    /// The current partition.
    pub fn caller(&self) -> Partition<W> {
        Partition::at(self, PPage::of(self.page(Self::HEADER)[CURRENT]))
    }

    /// The table that a directory or a shadow has for a virtual page.
    fn table(&self, root: PPage<W>, v: VPage<W>) -> Option<PPage<W>> {
        let link = self.page(root)[v.directory_index()];
        (link != 0).then_some(PPage::of(link))
    }

    /// A word in an absent table counts as 0.
    pub fn table_word(&self, root: PPage<W>, v: VPage<W>) -> u32 {
        self.table(root, v).map_or(0, |table| self.page(table)[v.table_index()])
    }

    pub fn set_table_word(&mut self, root: PPage<W>, v: VPage<W>, word: u32) {
        if let Some(table) = self.table(root, v) {
            self.page_mut(table)[v.table_index()] = word;
        }
    }
}
