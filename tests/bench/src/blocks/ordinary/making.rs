//! Create and delete.

use super::memory::Memory;
use super::partition::{structures, table_word, BEFORE_SLOTS, SLOTS};
use super::refusal::*;
use super::sizes::DESCRIPTOR_WORDS;
use super::slot::*;

pub fn create(m: &mut Memory, block: u32) -> Answer {
    let here = m.caller();
    let block = m.in_hand(here, block)?;
    require(block.slot.has_room(DESCRIPTOR_WORDS), STRUCTURE)?;
    let level = m.descriptor(here)[2] + 1;
    m.take(&block, [HAS_DESCRIPTOR, 0, 0], DESCRIPTOR_WORDS, &[here, block.number, level]);
    m.set(table_word(block.slot.place()), block.slot.place());
    Ok(0)
}

/// The partitions below the child stand in the blocks that are lent to it.
pub fn delete(m: &mut Memory, child: u32) -> Answer {
    let here = m.caller();
    let gone = m.child(here, child)?;
    m.wipe_partition(gone);
    let descriptor = *m.descriptor(here);
    for (k, structure) in structures(&descriptor) {
        for i in 0..SLOTS {
            let at = structure as usize + BEFORE_SLOTS + SLOT_WORDS * i as usize;
            let slot = m.slot(at);
            if slot.is_lent_to(child) {
                m.wipe_partitions_in(&slot);
            }
            if slot.child == child || SLOTS * k + i == child {
                m.give_back(at);
            }
        }
    }
    Ok(0)
}
