//! The sizes of a memory: they follow from its length.

pub const HEADER_WORDS: usize = 8;
pub const DESCRIPTOR_WORDS: usize = 32;
pub const STRUCTURE_WORDS: usize = 74;
/// The fewest bytes of a block.
pub const LEAST_BYTES: u32 = 32;

const KIB_WORDS: usize = 256;

/// What a permitted length fixes.
#[derive(Clone, Copy)]
pub struct Sizes {
    pub words: u32,
    /// The index of the root's descriptor; its first structure follows.
    pub root: u32,
    /// The first byte of the starting block, which ends with the memory.
    pub first_byte: u32,
}

impl Sizes {
    pub fn of(words: usize) -> Option<Sizes> {
        let permitted = words.is_multiple_of(KIB_WORDS) && (16..=64).contains(&(words / KIB_WORDS));
        permitted.then(|| {
            let root = HEADER_WORDS + words / 32;
            let first_byte = 4 * (root + DESCRIPTOR_WORDS + STRUCTURE_WORDS);
            Sizes { words: words as u32, root: root as u32, first_byte: first_byte as u32 }
        })
    }

    /// The byte after the last.
    pub fn end(&self) -> u32 {
        4 * self.words
    }

    pub fn root_structure(&self) -> u32 {
        self.root + DESCRIPTOR_WORDS as u32
    }

    /// The words of the table.
    pub fn table(&self) -> std::ops::Range<usize> {
        HEADER_WORDS..self.root as usize
    }

    /// The first words of the header.
    pub fn header(&self) -> [u32; 3] {
        [self.words, self.root, self.first_byte]
    }
}
