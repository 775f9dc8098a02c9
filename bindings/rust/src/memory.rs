//! Format and the twelve calls of document 01, over lent words.
use crate::answer::{answered, done};
use crate::edition::Edition;
use crate::raw;
use crate::refusal::Refusal;
use std::fmt;

/// The right to read a page.
pub const READ: u32 = 1;
/// The right to write a page.
pub const WRITE: u32 = 2;
/// The right to execute a page.
pub const EXECUTE: u32 = 4;

/// The verdict of any words: whether they are sound. Every call but [`Memory::format`] asks this first.
///
/// Refusal: Damaged.
pub fn verdict(words: &[u32]) -> Result<(), Refusal> {
    done(unsafe { raw::tumashqin_verdict(words.as_ptr(), words.len()) })
}

/// A memory: lent words, and the calls on them.
///
/// The caller of a call is the current partition. Addresses are virtual, in the caller; a target is one in the child, and a child is
/// named by its descriptor's address in the caller. A page that is returned is in the caller's hand again, and wiped if it was a kernel
/// page or if the caller may write it. A call answers 0 unless said; one that refuses changes no word.
pub struct Memory<'a> {
    words: &'a mut [u32],
}

// Every call below passes the words' own pointer and length, and the library reads and writes only these words: it asks no more.
impl<'a> Memory<'a> {
    /// Wipes all words, writes the header and the root partition, and maps every page that is left in the root, with all rights.
    /// Root is current. It asks nothing of what the words held, and may change a memory's edition where both have the length.
    ///
    /// Refusal: Size.
    pub fn format(words: &'a mut [u32], edition: Edition) -> Result<Memory<'a>, Refusal> {
        done(unsafe { raw::tumashqin_format(words.as_mut_ptr(), words.len(), edition as u32) })
            .map(|()| Memory { words })
    }

    /// Any words, as they are: each call judges them, and refuses what is not sound with Damaged.
    pub fn over(words: &'a mut [u32]) -> Memory<'a> {
        Memory { words }
    }

    /// The words, page after page; the edition tells how many each has.
    pub fn words(&self) -> &[u32] {
        self.words
    }

    /// The [`verdict`] of the words.
    ///
    /// Refusal: Damaged.
    pub fn verdict(&self) -> Result<(), Refusal> {
        verdict(self.words)
    }

    /// Call 1: takes five pages as one group, for descriptor, directory, shadow 1, shadow 2 and list: a new child.
    ///
    /// Refusals: Damaged, Address, Twice, Hand, Rights, Depth.
    pub fn create_partition(&mut self, five: [u32; 5]) -> Result<u32, Refusal> {
        let [descriptor, directory, shadow1, shadow2, list] = five;
        let (words, length) = self.parts();
        answered(unsafe {
            raw::tumashqin_create_partition(words, length, descriptor, directory, shadow1, shadow2, list)
        })
    }

    /// Call 2: ends the child, and all below it: returns its kernel pages and every page lent to it.
    ///
    /// A lent page that the caller may not write keeps its words, unless it was a kernel page of a partition below the child; the
    /// child's rights do not count. All others come back wiped. The root may write every page.
    ///
    /// Refusals: Damaged, Address, Child.
    pub fn delete_partition(&mut self, child: u32) -> Result<u32, Refusal> {
        let (words, length) = self.parts();
        answered(unsafe { raw::tumashqin_delete_partition(words, length, child) })
    }

    /// Call 3: maps page at target in the child, accessible, with rights ([`READ`], [`WRITE`], [`EXECUTE`], added).
    ///
    /// Write and execute can't be lent together. Memory in which an older version lent both is damaged.
    ///
    /// Refusals: Damaged, Address, Rights (6 or above), Child, Hand, Rights (not held), Table, Taken.
    pub fn add_vaddr(&mut self, page: u32, child: u32, target: u32, rights: u32) -> Result<u32, Refusal> {
        let (words, length) = self.parts();
        answered(unsafe { raw::tumashqin_add_vaddr(words, length, page, child, target, rights) })
    }

    /// Call 4: undoes [`Memory::add_vaddr`]; answers the caller's address. The page keeps its words.
    ///
    /// Refusals: Damaged, Address, Child, Table, Unmapped, Hand.
    pub fn remove_vaddr(&mut self, child: u32, target: u32) -> Result<u32, Refusal> {
        let (words, length) = self.parts();
        answered(unsafe { raw::tumashqin_remove_vaddr(words, length, child, target) })
    }

    /// Call 5: changes nothing; answers 0 if the three tables for target are there, else 3.
    ///
    /// Refusals: Damaged, Address, Child, List.
    pub fn page_count(&self, child: u32, target: u32) -> Result<u32, Refusal> {
        answered(unsafe { raw::tumashqin_page_count(self.words.as_ptr(), self.words.len(), child, target) })
    }

    /// Call 6: takes three chained pages as the child's tables for target: word 0 of a page holds the next page's address, the third's is 0.
    ///
    /// Refusals: Damaged, Address, Child, Taken, List; for each page in turn Chain, Hand, Rights; then Chain.
    pub fn prepare(&mut self, child: u32, target: u32, first: u32) -> Result<u32, Refusal> {
        let (words, length) = self.parts();
        answered(unsafe { raw::tumashqin_prepare(words, length, child, target, first) })
    }

    /// Call 7: drops the three tables for target and returns the pages, chained again; answers the first.
    ///
    /// Refusals: Damaged, Address, Child, Table, FullTable.
    pub fn collect(&mut self, child: u32, target: u32) -> Result<u32, Refusal> {
        let (words, length) = self.parts();
        answered(unsafe { raw::tumashqin_collect(words, length, child, target) })
    }

    /// Call 8: changes nothing; answers the descriptor address of the child that page is lent to, or 0 if it is in the caller's hand.
    ///
    /// Refusals: Damaged, Address, Unmapped, Kernel (a child's kernel page; a lent page is answered even where it is inaccessible).
    pub fn mapped_in_child(&self, page: u32) -> Result<u32, Refusal> {
        answered(unsafe { raw::tumashqin_mapped_in_child(self.words.as_ptr(), self.words.len(), page) })
    }

    /// Call 9: current is the child.
    ///
    /// Refusals: Damaged, Address, Child.
    pub fn enter(&mut self, child: u32) -> Result<u32, Refusal> {
        let (words, length) = self.parts();
        answered(unsafe { raw::tumashqin_enter(words, length, child) })
    }

    /// Call 10: current is the parent.
    ///
    /// Refusals: Damaged, Root.
    pub fn leave(&mut self) -> Result<u32, Refusal> {
        let (words, length) = self.parts();
        answered(unsafe { raw::tumashqin_leave(words, length) })
    }

    /// Call 11: answers the word at the address.
    ///
    /// Refusals: Damaged, Address, Unmapped, Kernel, Rights.
    pub fn load(&self, address: u32) -> Result<u32, Refusal> {
        answered(unsafe { raw::tumashqin_load(self.words.as_ptr(), self.words.len(), address) })
    }

    /// Call 12: writes the word at the address.
    ///
    /// Refusals: Damaged, Address, Unmapped, Kernel, Rights.
    pub fn store(&mut self, address: u32, word: u32) -> Result<u32, Refusal> {
        let (words, length) = self.parts();
        answered(unsafe { raw::tumashqin_store(words, length, address, word) })
    }

    /// Writes the start-up record to the first 76 bytes of `out`; bytes past 76 stay. The first 64 bytes of `revision` count.
    ///
    /// Refusals: Damaged, Short.
    pub fn write_record(&self, revision: &[u8], out: &mut [u8]) -> Result<(), Refusal> {
        done(unsafe {
            raw::tumashqin_write_record(
                self.words.as_ptr(),
                self.words.len(),
                revision.as_ptr(),
                revision.len(),
                out.as_mut_ptr(),
                out.len(),
            )
        })
    }

    pub(crate) fn parts(&mut self) -> (*mut u32, usize) {
        (self.words.as_mut_ptr(), self.words.len())
    }
}

impl fmt::Debug for Memory<'_> {
    fn fmt(&self, f: &mut fmt::Formatter<'_>) -> fmt::Result {
        f.debug_struct("Memory").field("length", &self.words.len()).finish_non_exhaustive()
    }
}
