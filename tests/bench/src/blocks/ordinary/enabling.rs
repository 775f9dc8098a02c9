//! Enable, read enabled and find.

use super::memory::Memory;
use super::partition::{entries, BEFORE_ENTRIES};
use super::refusal::*;
use super::slot::{Slot, FREE};

/// A block that is told: number, start, end, rights, use, child.
pub type Told = Option<[u32; 6]>;

fn told(number: u32, slot: Slot) -> [u32; 6] {
    [number, slot.start, slot.end, slot.rights, slot.usage, slot.child]
}

pub fn enable(m: &mut Memory, partition: u32, block: u32, on: u32) -> Answer {
    let of = m.named(partition)?;
    let block = m.in_hand(of, block)?;
    if on == 0 {
        m.disable(of, block.number);
        return Ok(0);
    }
    let place = |number: u32| entries(m.descriptor(of)).iter().position(|&entry| entry == number);
    let entry = 1 + place(block.number).or_else(|| place(0)).ok_or(ENABLED)?;
    m.set(of as usize + BEFORE_ENTRIES + entry, block.number);
    Ok(entry as u32)
}

pub fn read_enabled(m: &Memory, partition: u32, entry: u32) -> Result<Told, u32> {
    let of = m.named(partition)?;
    let number = (entry as usize).checked_sub(1).and_then(|place| entries(m.descriptor(of)).get(place).copied());
    Ok(number.and_then(|number| m.block(of, number)).map(|block| told(block.number, block.slot)))
}

pub fn find(m: &Memory, partition: u32, address: u32) -> Result<Told, u32> {
    let of = m.named(partition)?;
    let found = m.slots(of).find(|(_, slot)| slot.usage != FREE && slot.has_byte(address));
    Ok(found.map(|(number, slot)| told(number, slot)))
}
