//! Sizes, addresses and the words of page tables, all by W: the words of a page, and the entries of a directory or table.

/// W by edition.
pub const SMALL: usize = 64;
pub const LARGE: usize = 1024;

pub const MOST_THREES: u32 = 10;
pub const MOST_DEPTH: u32 = 8;

pub const PRESENT: u32 = 1;
pub const ACCESSIBLE: u32 = 2;
pub const READ: u32 = 4;
pub const WRITE: u32 = 8;
pub const WRITE_EXECUTE: u32 = 24;
/// The three rights of a page table word.
pub const RIGHTS_BITS: u32 = 28;

pub const fn page_bytes<const W: usize>() -> u32 {
    4 * W as u32
}

/// The part of a page table word that is its page's address.
pub const fn frame<const W: usize>() -> u32 {
    !(page_bytes::<W>() - 1)
}

pub const fn last_address<const W: usize>() -> u32 {
    (W * W * 4 * W - 1) as u32
}

pub const fn most_pages<const W: usize>() -> usize {
    4 * W
}

/// A virtual page number.
#[derive(Clone, Copy, PartialEq, Eq)]
pub struct VPage<const W: usize>(pub u32);

/// A physical page number.
#[derive(Clone, Copy, PartialEq, Eq)]
pub struct PPage<const W: usize>(pub u32);

impl<const W: usize> VPage<W> {
    pub fn of(address: u32) -> VPage<W> {
        VPage(address / page_bytes::<W>())
    }
    pub fn address(self) -> u32 {
        self.0 * page_bytes::<W>()
    }
    pub fn directory_index(self) -> usize {
        self.0 as usize / W % W
    }
    pub fn table_index(self) -> usize {
        self.0 as usize % W
    }
}

impl<const W: usize> PPage<W> {
    /// The page that an address or a table word names.
    pub fn of(word: u32) -> PPage<W> {
        PPage(word / page_bytes::<W>())
    }
    pub fn address(self) -> u32 {
        self.0 * page_bytes::<W>()
    }
}

/// An address that is a multiple of a unit and not on page 0.
pub fn good_address<const W: usize>(address: u32, unit: u32) -> bool {
    (page_bytes::<W>()..=last_address::<W>()).contains(&address) && address.is_multiple_of(unit)
}

/// N, T and F.
#[derive(Clone, Copy)]
pub struct Sizes<const W: usize> {
    pub pages: u32,
    pub threes: u32,
    pub flat: u32,
}

impl<const W: usize> Sizes<W> {
    pub fn of(pages: usize) -> Option<Sizes<W>> {
        if !(16..=most_pages::<W>()).contains(&pages) {
            return None;
        }
        let pages = pages as u32;
        let threes = (pages - 5).div_ceil(W as u32 + 3);
        Some(Sizes { pages, threes, flat: pages - 6 - 3 * threes })
    }

    /// The first page handed to the root.
    pub fn first_flat(self) -> PPage<W> {
        PPage(6 + 3 * self.threes)
    }
}
