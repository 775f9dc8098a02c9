//! Format and the thirteen services, over lent words.
use super::raw;
use super::refusal::Refusal;
use super::told::{Block, TOLD_WORDS};
use crate::answer::answered;
use std::fmt;

/// Words of a KiB: a memory has 16 to 64 times as many.
pub const KIB_WORDS: usize = 256;

/// The verdict of any words: whether they are sound. Every call but [`Memory::format`] asks this first.
///
/// Refusal: Damaged.
pub fn verdict(words: &[u32]) -> Result<(), Refusal> {
    answered(unsafe { raw::tumashqin_block_verdict(words.as_ptr(), words.len()) }).map(|_| ())
}

/// What a call that tells a block answers: 1 and the six words of the block, or 0 for none.
fn told(call: impl FnOnce(*mut u32, usize) -> u64) -> Result<Option<Block>, Refusal> {
    let mut out = [0; TOLD_WORDS];
    answered(call(out.as_mut_ptr(), out.len())).map(|is| (is == 1).then(|| Block::from(out)))
}

/// A memory: lent words, and the calls on them.
///
/// The caller of a call is the current partition. A block is named by its number in the caller's pool, unless said; a child by the number of the block that its
/// descriptor stands in. A partition is 0 for the caller, or a child. A call answers 0 unless said; one that refuses changes no word.
pub struct Memory<'a> {
    words: &'a mut [u32],
}

// Every call below passes the words' own pointer and length, and the library reads and writes only these words, and the six that are told: it asks no more.
impl<'a> Memory<'a> {
    /// Wipes all words, writes the header and the root partition, and leaves all other bytes in the root's hand as block 8, with all rights and enabled. Root
    /// is current. It asks nothing of what the words held.
    ///
    /// Refusal: Length.
    pub fn format(words: &'a mut [u32]) -> Result<Memory<'a>, Refusal> {
        answered(unsafe { raw::tumashqin_block_format(words.as_mut_ptr(), words.len()) }).map(|_| Memory { words })
    }

    /// Any words, as they are: each call judges them, and refuses what is not sound with Damaged.
    pub fn over(words: &'a mut [u32]) -> Memory<'a> {
        Memory { words }
    }

    /// The words. Byte x is in word x / 4, the lowest byte first.
    pub fn words(&self) -> &[u32] {
        self.words
    }

    /// The [`verdict`] of the words.
    ///
    /// Refusal: Damaged.
    pub fn verdict(&self) -> Result<(), Refusal> {
        verdict(self.words)
    }

    /// Call 1: a child, whose descriptor stands in the block and whose name is the block's number.
    ///
    /// Refusals: Damaged, Block, Structure.
    pub fn create(&mut self, block: u32) -> Result<u32, Refusal> {
        let (words, length) = self.parts();
        answered(unsafe { raw::tumashqin_block_create(words, length, block) })
    }

    /// Call 2: ends the child and all below it. The block that it stood in, the blocks lent to it and those given for its structures are in the caller's hand
    /// again; the words of the ended partitions' descriptors and structures are wiped, all others stay.
    ///
    /// Refusals: Damaged, Child.
    pub fn delete(&mut self, child: u32) -> Result<u32, Refusal> {
        let (words, length) = self.parts();
        answered(unsafe { raw::tumashqin_block_delete(words, length, child) })
    }

    /// Call 3: takes the block for a structure of the partition: slots for eight blocks more.
    ///
    /// Refusals: Damaged, Child, Block, Structure.
    pub fn prepare(&mut self, partition: u32, block: u32) -> Result<u32, Refusal> {
        let (words, length) = self.parts();
        answered(unsafe { raw::tumashqin_block_prepare(words, length, partition, block) })
    }

    /// Call 4: undoes [`Memory::prepare`] for the first structure whose eight slots are free; answers the number of its block if that is in the caller's pool,
    /// else 0.
    ///
    /// Refusals: Damaged, Child, Empty.
    pub fn collect(&mut self, partition: u32) -> Result<u32, Refusal> {
        let (words, length) = self.parts();
        answered(unsafe { raw::tumashqin_block_collect(words, length, partition) })
    }

    /// Call 5: lends the block to the child with rights ([`READ`](crate::READ), [`WRITE`](crate::WRITE), [`EXECUTE`](crate::EXECUTE), added); answers its
    /// number in the child.
    ///
    /// Refusals: Damaged, Child, Block, Rights, Slot.
    pub fn add(&mut self, child: u32, block: u32, rights: u32) -> Result<u32, Refusal> {
        let (words, length) = self.parts();
        answered(unsafe { raw::tumashqin_block_add(words, length, child, block, rights) })
    }

    /// Call 6: takes a lent block back, which the child has whole and in hand.
    ///
    /// Refusals: Damaged, Child, Block (not lent to the child), Unmerged, Block (not in the child's hand).
    pub fn remove(&mut self, child: u32, block: u32) -> Result<u32, Refusal> {
        let (words, length) = self.parts();
        answered(unsafe { raw::tumashqin_block_remove(words, length, child, block) })
    }

    /// Call 7: cuts the block in two at the address: the lower keeps the number, and the upper's is answered.
    ///
    /// Refusals: Damaged, Block, Piece, Slot.
    pub fn cut(&mut self, block: u32, address: u32) -> Result<u32, Refusal> {
        let (words, length) = self.parts();
        answered(unsafe { raw::tumashqin_block_cut(words, length, block, address) })
    }

    /// Call 8: undoes [`Memory::cut`]: two pieces side by side, in either order, are one; answers the lower's number, which it keeps.
    ///
    /// Refusals: Damaged, Block, Apart.
    pub fn merge(&mut self, first: u32, second: u32) -> Result<u32, Refusal> {
        let (words, length) = self.parts();
        answered(unsafe { raw::tumashqin_block_merge(words, length, first, second) })
    }

    /// Call 9: disables the block, one of the partition's pool, where on is 0, else enables it; answers its entry, 1 to 8, or 0.
    ///
    /// Refusals: Damaged, Child, Block, Enabled.
    pub fn enable(&mut self, partition: u32, block: u32, on: u32) -> Result<u32, Refusal> {
        let (words, length) = self.parts();
        answered(unsafe { raw::tumashqin_block_enable(words, length, partition, block, on) })
    }

    /// Call 10: changes nothing; tells the block in that entry of the partition, 1 to 8, if there is one.
    ///
    /// Refusals: Damaged, Child.
    pub fn read_enabled(&self, partition: u32, entry: u32) -> Result<Option<Block>, Refusal> {
        let (words, length) = (self.words.as_ptr(), self.words.len());
        told(|out, room| unsafe { raw::tumashqin_block_read_enabled(words, length, partition, entry, out, room) })
    }

    /// Call 11: changes nothing; tells the block of the partition's pool that has the byte of that address, if there is one.
    ///
    /// Refusals: Damaged, Child.
    pub fn find(&self, partition: u32, address: u32) -> Result<Option<Block>, Refusal> {
        let (words, length) = (self.words.as_ptr(), self.words.len());
        told(|out, room| unsafe { raw::tumashqin_block_find(words, length, partition, address, out, room) })
    }

    /// Call 12: current is the child.
    ///
    /// Refusals: Damaged, Child.
    pub fn enter(&mut self, child: u32) -> Result<u32, Refusal> {
        let (words, length) = self.parts();
        answered(unsafe { raw::tumashqin_block_enter(words, length, child) })
    }

    /// Call 13: current is the parent.
    ///
    /// Refusals: Damaged, Root.
    pub fn leave(&mut self) -> Result<u32, Refusal> {
        let (words, length) = self.parts();
        answered(unsafe { raw::tumashqin_block_leave(words, length) })
    }

    fn parts(&mut self) -> (*mut u32, usize) {
        (self.words.as_mut_ptr(), self.words.len())
    }
}

impl fmt::Debug for Memory<'_> {
    fn fmt(&self, f: &mut fmt::Formatter<'_>) -> fmt::Result {
        f.debug_struct("Memory").field("length", &self.words.len()).finish_non_exhaustive()
    }
}
