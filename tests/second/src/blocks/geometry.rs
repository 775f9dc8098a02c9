//! The sizes of a memory of blocks: they follow from its length alone.

pub const HEADER_WORDS: usize = 8;
pub const DESCRIPTOR_WORDS: usize = 32;
pub const STRUCTURE_WORDS: usize = 74;
pub const SLOT_WORDS: usize = 9;
/// Slots of a structure.
pub const SLOTS: usize = 8;
/// The most structures of a partition; they count from 1.
pub const STRUCTURES: usize = 16;
/// Entries of enabled blocks; they count from 1.
pub const ENTRIES: usize = 8;
/// The fewest bytes of a block.
pub const LEAST_BYTES: u32 = 32;
pub const ALL_RIGHTS: u32 = 7;

const KIB_WORDS: usize = 256;
const FEWEST_KIB: usize = 16;
const MOST_KIB: usize = 64;

/// What a permitted length fixes.
#[derive(Clone, Copy, PartialEq, Eq, Debug)]
pub struct Geometry {
    /// W.
    pub words: usize,
    /// D, the index of the root's descriptor.
    pub root: usize,
    /// The first byte of the starting block, which ends with the memory.
    pub first_byte: u32,
}

impl Geometry {
    /// None where the length isn't permitted.
    pub fn of_length(words: usize) -> Option<Geometry> {
        let permitted = words.is_multiple_of(KIB_WORDS) && (FEWEST_KIB..=MOST_KIB).contains(&(words / KIB_WORDS));
        // The root's first structure is the last of the kernel's own part.
        let root = HEADER_WORDS + words / 32;
        let first_byte = 4 * (root + DESCRIPTOR_WORDS + STRUCTURE_WORDS) as u32;
        permitted.then_some(Geometry { words, root, first_byte })
    }

    /// The byte after the last.
    pub fn end(&self) -> u32 {
        4 * self.words as u32
    }

    /// F, the bytes of the starting block.
    pub fn free(&self) -> u32 {
        self.end() - self.first_byte
    }

    /// The index of the root's first structure.
    pub fn root_structure(&self) -> usize {
        self.root + DESCRIPTOR_WORDS
    }

    /// How many words the table has; a level is below this too.
    pub fn table_words(&self) -> usize {
        self.words / 32
    }
}

/// The words of so many KiB, permitted or not.
pub fn words_of_kib(kib: usize) -> usize {
    KIB_WORDS * kib
}
