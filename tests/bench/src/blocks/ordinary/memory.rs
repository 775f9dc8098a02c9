//! Memory that is sound: whatever a word names is there.

use super::judge::is_sound;
use super::partition::*;
use super::refusal::*;
use super::sizes::*;
use super::slot::*;

/// Header word that holds the index of the current partition's descriptor.
pub const CURRENT: usize = 3;

pub struct Memory<'a>(&'a mut [u32]);

/// A block of a partition: its number, where its slot is, and the slot's words.
#[derive(Clone, Copy)]
pub struct Block {
    pub number: u32,
    pub at: usize,
    pub slot: Slot,
}

impl<'a> Memory<'a> {
    pub fn judged(words: &'a mut [u32]) -> Result<Memory<'a>, u32> {
        require(is_sound(words), DAMAGED)?;
        Ok(Memory(words))
    }

    /// Words that are known to be sound.
    pub fn trusted(words: &'a mut [u32]) -> Memory<'a> {
        Memory(words)
    }

    pub fn words(&self) -> &[u32] {
        self.0
    }

    pub fn set(&mut self, index: usize, word: u32) {
        self.0[index] = word;
    }

    pub fn wipe(&mut self, at: u32, words: usize) {
        self.0[at as usize..][..words].fill(0);
    }

    /// The index of the caller's descriptor.
    pub fn caller(&self) -> u32 {
        self.0[CURRENT]
    }

    pub fn descriptor(&self, partition: u32) -> &Descriptor {
        known(self.0, partition)
    }

    pub fn structure(&self, at: u32) -> &Structure {
        known(self.0, at)
    }

    /// The slot at an index.
    pub fn slot(&self, at: usize) -> Slot {
        Slot::of(known(self.0, at as u32))
    }

    /// The root's parent is 0.
    pub fn parent(&self, partition: u32) -> u32 {
        self.descriptor(partition)[0]
    }

    /// The block of a number.
    pub fn block(&self, partition: u32, number: u32) -> Option<Block> {
        let at = slot_at(self.descriptor(partition), number)?;
        let slot = self.slot(at);
        (slot.usage != FREE).then_some(Block { number, at, slot })
    }

    pub fn in_hand(&self, partition: u32, number: u32) -> Result<Block, u32> {
        self.block(partition, number).filter(|block| block.slot.usage == IN_HAND).ok_or(BLOCK)
    }

    /// The child that stands in the block of a number.
    pub fn child(&self, partition: u32, number: u32) -> Result<u32, u32> {
        let block = self.block(partition, number).filter(|block| block.slot.usage == HAS_DESCRIPTOR);
        block.map(|block| block.slot.place()).ok_or(CHILD)
    }

    /// The caller for 0, else a child of it.
    pub fn named(&self, number: u32) -> Result<u32, u32> {
        match number {
            0 => Ok(self.caller()),
            _ => self.child(self.caller(), number),
        }
    }

    /// The slots of a partition, from the lowest number on, free or not.
    pub fn slots(&self, partition: u32) -> impl Iterator<Item = (u32, Slot)> + '_ {
        structures(self.descriptor(partition)).flat_map(|(k, at)| slots_of(k, self.structure(at)))
    }

    /// The lowest number of a free slot, and where that is.
    pub fn free_slot(&self, partition: u32) -> Option<(u32, usize)> {
        let (number, _) = self.slots(partition).find(|(_, slot)| slot.usage == FREE)?;
        Some((number, slot_at(self.descriptor(partition), number)?))
    }

    pub fn write_slot(&mut self, at: usize, words: [u32; SLOT_WORDS]) {
        self.0[at..][..SLOT_WORDS].copy_from_slice(&words);
    }

    /// A block's use, child and link.
    pub fn set_use(&mut self, at: usize, words: [u32; 3]) {
        self.0[at + USE..][..3].copy_from_slice(&words);
    }

    pub fn give_back(&mut self, at: usize) {
        self.set_use(at, [IN_HAND, 0, 0]);
    }

    /// The block leaves the entries.
    pub fn disable(&mut self, partition: u32, number: u32) {
        let entries = &mut self.0[partition as usize + BEFORE_ENTRIES + 1..][..ENTRIES];
        entries.iter_mut().filter(|entry| **entry == number).for_each(|entry| *entry = 0);
    }

    /// Takes a block in hand of the caller: so many words are wiped in it, and the first of them filled.
    pub fn take(&mut self, block: &Block, words: [u32; 3], wiped: usize, filled: &[u32]) {
        self.disable(self.caller(), block.number);
        self.set_use(block.at, words);
        let place = block.slot.place();
        self.wipe(place, wiped);
        self.0[place as usize..][..filled.len()].copy_from_slice(filled);
    }

    /// A partition's structures, descriptor and table word.
    pub fn wipe_partition(&mut self, partition: u32) {
        let descriptor = *self.descriptor(partition);
        structures(&descriptor).for_each(|(_, at)| self.wipe(at, STRUCTURE_WORDS));
        self.wipe(partition, DESCRIPTOR_WORDS);
        self.set(table_word(partition), 0);
    }

    /// All partitions whose descriptors stand in the bytes of a block.
    pub fn wipe_partitions_in(&mut self, block: &Slot) {
        for index in table_word(block.start / 4)..=table_word((block.end - 1) / 4) {
            let at = self.0[index];
            if at != 0 && block.has_byte(4 * at) {
                self.wipe_partition(at);
            }
        }
    }
}
