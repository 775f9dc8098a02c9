//! The editions with their sizes and field widths, and the two kinds of page number.

/// Header word that holds the edition's number.
pub const EDITION: usize = 5;

/// An edition: by the width of a directory or table index every other width follows.
#[derive(Clone, Copy, PartialEq, Eq, Debug)]
pub struct Edition {
    pub number: u32,
    index_bits: u32,
}

/// Pages of 256 bytes.
pub const SMALL: Edition = Edition { number: 0, index_bits: 6 };
/// Pages of 4,096 bytes.
pub const LARGE: Edition = Edition { number: 1, index_bits: 10 };
/// By number.
pub const EDITIONS: [Edition; 2] = [SMALL, LARGE];

pub const LEAST_PAGES: usize = 16;
pub const MOST_THREES: usize = 10;
pub const MOST_DEPTH: usize = 8;
/// The root's five pages follow the header; its threes follow them.
pub const FIRST_THREE: u32 = 6;

pub const READ: u32 = 1;
pub const WRITE: u32 = 2;
pub const EXECUTE: u32 = 4;
pub const ALL_RIGHTS: u32 = 7;
/// Write and execute together: of the rights 0 to 7 those from here on hold both.
pub const WRITE_EXECUTE: u32 = WRITE + EXECUTE;

impl Edition {
    pub fn numbered(number: u32) -> Option<Edition> {
        EDITIONS.get(number as usize).copied()
    }

    /// The edition that a memory's header names; none for any other word, or where there is none.
    pub fn named(mem: &[u32]) -> Option<Edition> {
        Edition::numbered(*mem.get(EDITION)?)
    }

    /// As of which edition the words of a memory are read. Memory that names none is not sound: any will do for it.
    pub fn of(mem: &[u32]) -> Edition {
        Edition::named(mem).unwrap_or(SMALL)
    }

    pub fn place_bits(self) -> u32 {
        self.index_bits + 2
    }

    /// Words of a page, and entries of a directory or table.
    pub const fn page_words(self) -> usize {
        1 << self.index_bits
    }

    pub fn page_bytes(self) -> u32 {
        1 << self.place_bits()
    }

    /// How many virtual pages there are, page 0 with them.
    pub fn virtual_pages(self) -> u32 {
        1 << (2 * self.index_bits)
    }

    /// First number that is no virtual address.
    pub fn virtual_end(self) -> u64 {
        u64::from(self.virtual_pages()) << self.place_bits()
    }

    pub fn most_pages(self) -> usize {
        4 << self.index_bits
    }
}

/// A virtual page number.
#[derive(Clone, Copy, PartialEq, Eq, PartialOrd, Ord, Debug)]
pub struct VPage(pub u32);

/// A physical page number.
#[derive(Clone, Copy, PartialEq, Eq, PartialOrd, Ord, Debug)]
pub struct PPage(pub u32);

impl VPage {
    pub fn of(edition: Edition, address: u32) -> VPage {
        VPage(address >> edition.place_bits())
    }
    pub fn address(self, edition: Edition) -> u32 {
        self.0 << edition.place_bits()
    }
    pub fn at(edition: Edition, directory: usize, table: usize) -> VPage {
        VPage((directory << edition.index_bits | table) as u32)
    }
    pub fn directory_index(self, edition: Edition) -> usize {
        (self.0 >> edition.index_bits) as usize
    }
    pub fn table_index(self, edition: Edition) -> usize {
        self.0 as usize % edition.page_words()
    }
}

impl PPage {
    pub fn of(edition: Edition, address: u32) -> PPage {
        PPage(address >> edition.place_bits())
    }
    pub fn address(self, edition: Edition) -> u32 {
        self.0 << edition.place_bits()
    }
}

/// N, T and F of a memory.
#[derive(Clone, Copy, PartialEq, Eq, Debug)]
pub struct Sizes {
    pub edition: Edition,
    pub pages: u32,
    pub threes: u32,
    pub free: u32,
}

impl Sizes {
    /// None when the page count is out of the edition's bounds.
    pub fn of_pages(edition: Edition, pages: usize) -> Option<Sizes> {
        if !(LEAST_PAGES..=edition.most_pages()).contains(&pages) {
            return None;
        }
        let pages = pages as u32;
        let threes = (pages - 5).div_ceil(edition.page_words() as u32 + 3);
        Some(Sizes { edition, pages, threes, free: pages - FIRST_THREE - 3 * threes })
    }

    /// None when the length in words is not that of whole pages, or of too few or too many.
    pub fn of_length(edition: Edition, words: usize) -> Option<Sizes> {
        let whole = words.is_multiple_of(edition.page_words());
        whole.then(|| Sizes::of_pages(edition, words / edition.page_words()))?
    }

    /// Those of a memory by its header's edition and its length.
    pub fn of(mem: &[u32]) -> Option<Sizes> {
        Sizes::of_length(Edition::named(mem)?, mem.len())
    }

    /// The first page handed to the root.
    pub fn first_flat(&self) -> PPage {
        PPage(FIRST_THREE + 3 * self.threes)
    }
}
