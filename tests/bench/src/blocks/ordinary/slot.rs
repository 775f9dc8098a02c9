//! A slot's nine words.

pub const SLOT_WORDS: usize = 9;
/// The words of a slot that calls write one by one.
pub const END: usize = 1;
pub const USE: usize = 3;
pub const PREVIOUS: usize = 7;
pub const NEXT: usize = 8;

/// Uses.
pub const FREE: u32 = 0;
pub const IN_HAND: u32 = 1;
pub const LENT: u32 = 2;
pub const HAS_DESCRIPTOR: u32 = 3;
pub const HAS_STRUCTURE: u32 = 4;

pub const ALL_RIGHTS: u32 = 7;

#[derive(Clone, Copy)]
pub struct Slot {
    pub start: u32,
    pub end: u32,
    pub rights: u32,
    /// Word 3: the use.
    pub usage: u32,
    pub child: u32,
    pub link: u32,
    pub source: u32,
    pub previous: u32,
    pub next: u32,
}

impl Slot {
    pub fn of(words: &[u32; SLOT_WORDS]) -> Slot {
        let [start, end, rights, usage, child, link, source, previous, next] = *words;
        Slot { start, end, rights, usage, child, link, source, previous, next }
    }

    /// The index of its first whole word, where what stands in it stands.
    pub fn place(&self) -> u32 {
        self.start.div_ceil(4)
    }

    pub fn has_room(&self, words: usize) -> bool {
        4 * (self.place() as usize + words) <= self.end as usize
    }

    pub fn is_lent_to(&self, child: u32) -> bool {
        self.usage == LENT && self.child == child
    }

    pub fn has_byte(&self, address: u32) -> bool {
        self.start <= address && address < self.end
    }
}
