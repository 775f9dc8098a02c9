//! A block as it is told.

/// The use of a block in hand: only such a one is accessible, and may be cut, lent or given to the kernel.
pub const IN_HAND: u32 = 1;
/// The use of a block that is lent to a child.
pub const LENT: u32 = 2;
/// The use of a block that a child's descriptor stands in.
pub const HAS_DESCRIPTOR: u32 = 3;
/// The use of a block that a structure stands in.
pub const HAS_STRUCTURE: u32 = 4;

/// Words of a block that is told.
pub const TOLD_WORDS: usize = 6;

/// A block as it is told, in the order of its six words.
#[derive(Clone, Copy, PartialEq, Eq, Debug)]
pub struct Block {
    /// Its number in the pool, 8 to 135.
    pub number: u32,
    /// Its first byte.
    pub start: u32,
    /// The byte after its last.
    pub end: u32,
    /// Its rights: [`READ`](crate::READ), [`WRITE`](crate::WRITE) and [`EXECUTE`](crate::EXECUTE), added.
    pub rights: u32,
    /// Its use: [`IN_HAND`], [`LENT`], [`HAS_DESCRIPTOR`] or [`HAS_STRUCTURE`].
    pub usage: u32,
    /// Lent: the child that has it. Where a structure stands in it: the child whose structure that is, 0 if the partition's own. Else 0.
    pub child: u32,
}

impl From<[u32; TOLD_WORDS]> for Block {
    fn from(words: [u32; TOLD_WORDS]) -> Block {
        let [number, start, end, rights, usage, child] = words;
        Block { number, start, end, rights, usage, child }
    }
}
