//! A partition as the judge sees it: its pages in memory that may be damaged.

use super::super::address::*;
use super::super::memory::*;
use super::{is_virtual, is_zero, sound};

pub struct View<'a, const W: usize> {
    pages: &'a [Page<W>],
    /// The descriptor's physical address, and its virtual address in the parent.
    pub address: u32,
    pub place: u32,
    pub descriptor: &'a Page<W>,
    pub directory: &'a Page<W>,
    pub shadow1: &'a Page<W>,
    pub shadow2: &'a Page<W>,
    pub list: &'a Page<W>,
}

/// The page at an address, where it is one of the memory's.
fn page_at<const W: usize>(pages: &[Page<W>], address: u32) -> Option<&Page<W>> {
    sound(address.is_multiple_of(page_bytes::<W>()))?;
    pages.get((address / page_bytes::<W>()) as usize)
}

impl<'a, const W: usize> View<'a, W> {
    /// The partition whose descriptor is at an address, if its descriptor and list have their forms.
    pub fn at(pages: &'a [Page<W>], address: u32, place: u32) -> Option<View<'a, W>> {
        let descriptor = page_at(pages, address)?;
        let list = page_at(pages, descriptor[9])?;
        let used = list[0];
        let most_flag = if W == SMALL { 1 } else { 0 };
        sound(descriptor[10] == 0 && descriptor[FLAG] <= most_flag && is_zero(&descriptor[FLAG + 1..]))?;
        sound(used % 6 == 1 && used <= 1 + 6 * MOST_THREES && is_zero(&list[used as usize..]))?;
        Some(View {
            pages,
            address,
            place,
            descriptor,
            directory: page_at(pages, descriptor[3])?,
            shadow1: page_at(pages, descriptor[5])?,
            shadow2: page_at(pages, descriptor[7])?,
            list,
        })
    }

    /// The listed pairs of virtual address in the parent and physical address.
    pub fn listed(&self) -> &'a [[u32; 2]] {
        self.list[1..self.list[0] as usize].as_chunks().0
    }

    /// The listed pairs by threes.
    pub fn threes(&self) -> &'a [[[u32; 2]; 3]] {
        self.listed().as_chunks().0
    }

    /// All pairs: the descriptor's five, then the list's.
    pub fn pairs(&self) -> impl Iterator<Item = [u32; 2]> + 'a {
        let (five, _) = self.descriptor[..10].as_chunks();
        five.iter().chain(self.listed()).copied()
    }

    /// The page table word and the shadow 1 word at a virtual address, both 0 where there is no table.
    pub fn lookup(&self, address: u32) -> Option<(u32, u32)> {
        sound(is_virtual::<W>(address))?;
        let v = VPage::<W>::of(address);
        let word = |root: &Page<W>| match root[v.directory_index()] {
            0 => Some(0),
            link => Some(self.pages.get((link / page_bytes::<W>()) as usize)?[v.table_index()]),
        };
        Some((word(self.directory)?, word(self.shadow1)?))
    }
}
