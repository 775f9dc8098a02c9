//! The editions of a memory.

/// Words of a page of 256 bytes.
pub const PAGE_WORDS: usize = Edition::Pages256.page_words();

/// The geometry that format chooses, and that the memory's header then names.
#[derive(Clone, Copy, PartialEq, Eq, Debug)]
pub enum Edition {
    /// Pages of 256 bytes, 16 to 256 of them; addresses below 2^20.
    Pages256 = 0,
    /// Pages of 4,096 bytes, 16 to 4,096 of them; any 32-bit address.
    Pages4096 = 1,
}

impl Edition {
    /// Bytes of a page, and the most pages of a memory.
    pub const fn page_bytes(self) -> usize {
        match self {
            Edition::Pages256 => 256,
            Edition::Pages4096 => 4096,
        }
    }

    /// Words of a page.
    pub const fn page_words(self) -> usize {
        self.page_bytes() / 4
    }
}
