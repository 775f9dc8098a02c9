//! A partition's pages, and what it maps.

use super::address::*;
use super::memory::*;
use super::refusal::*;

#[derive(Clone, Copy)]
pub struct Partition<const W: usize> {
    pub descriptor: PPage<W>,
    pub directory: PPage<W>,
    pub shadow1: PPage<W>,
    pub shadow2: PPage<W>,
    pub list: PPage<W>,
    pub parent: PPage<W>,
}

impl<const W: usize> Partition<W> {
    pub const ROOT_PAGE: PPage<W> = PPage(1);

    pub fn at(m: &Memory<W>, descriptor: PPage<W>) -> Partition<W> {
        let words = m.page(descriptor);
        let [directory, shadow1, shadow2, list, parent] = [3, 5, 7, 9, PARENT].map(|i| PPage::of(words[i]));
        Partition { descriptor, directory, shadow1, shadow2, list, parent }
    }

    pub fn is_root(&self) -> bool {
        self.descriptor == Self::ROOT_PAGE
    }

    /// The page table word, 0 where nothing is mapped.
    pub fn mapping(&self, m: &Memory<W>, v: VPage<W>) -> u32 {
        m.table_word(self.directory, v)
    }

    pub fn shadow1(&self, m: &Memory<W>, v: VPage<W>) -> u32 {
        m.table_word(self.shadow1, v)
    }

    pub fn shadow2(&self, m: &Memory<W>, v: VPage<W>) -> u32 {
        m.table_word(self.shadow2, v)
    }

    pub fn has_three(&self, m: &Memory<W>, target: VPage<W>) -> bool {
        m.page(self.directory)[target.directory_index()] != 0
    }

    pub fn threes(&self, m: &Memory<W>) -> u32 {
        m.page(self.list)[0] / 6
    }

    /// The page table word of a page in hand: mapped, accessible, and neither lent nor a child's descriptor.
    pub fn in_hand(&self, m: &Memory<W>, v: VPage<W>) -> Result<u32, u32> {
        let word = self.mapping(m, v);
        require(word & ACCESSIBLE != 0 && self.shadow1(m, v) == 0, HAND)?;
        Ok(word)
    }

    /// The child whose descriptor stands at this address.
    pub fn child(&self, m: &Memory<W>, at: VPage<W>) -> Result<Partition<W>, u32> {
        require(self.shadow1(m, at) == IS_CHILD, CHILD)?;
        Ok(Partition::at(m, PPage::of(self.mapping(m, at))))
    }
}

/// The virtual pages of page addresses.
pub fn pages_at<const K: usize, const W: usize>(addresses: [u32; K]) -> Result<[VPage<W>; K], u32> {
    require(addresses.iter().all(|&a| good_address::<W>(a, page_bytes::<W>())), ADDRESS)?;
    Ok(addresses.map(VPage::of))
}
