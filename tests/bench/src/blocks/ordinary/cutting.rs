//! Cut and merge.

use super::memory::Memory;
use super::refusal::*;
use super::sizes::LEAST_BYTES;
use super::slot::*;

pub fn cut(m: &mut Memory, block: u32, address: u32) -> Answer {
    let here = m.caller();
    let block = m.in_hand(here, block)?;
    let Slot { start, end, rights, source, next, .. } = block.slot;
    let long = |from: u32, to: u32| to.checked_sub(from).is_some_and(|bytes| bytes >= LEAST_BYTES);
    require(long(start, address) && long(address, end), PIECE)?;
    let (number, at) = m.free_slot(here).ok_or(SLOT)?;
    m.write_slot(at, [address, end, rights, IN_HAND, 0, 0, source, block.number, next]);
    set_previous(m, here, next, number);
    m.set(block.at + END, address);
    m.set(block.at + NEXT, number);
    Ok(number)
}

pub fn merge(m: &mut Memory, first: u32, second: u32) -> Answer {
    let here = m.caller();
    let (first, second) = (m.in_hand(here, first)?, m.in_hand(here, second)?);
    let (lower, higher) = match () {
        () if first.slot.next == second.number => (first, second),
        () if second.slot.next == first.number => (second, first),
        () => return Err(APART),
    };
    m.set(lower.at + END, higher.slot.end);
    m.set(lower.at + NEXT, higher.slot.next);
    set_previous(m, here, higher.slot.next, lower.number);
    m.disable(here, higher.number);
    m.write_slot(higher.at, [0; SLOT_WORDS]);
    Ok(lower.number)
}

/// The piece before a block, if there is such a block.
fn set_previous(m: &mut Memory, pool: u32, number: u32, previous: u32) {
    if let Some(block) = m.block(pool, number) {
        m.set(block.at + PREVIOUS, previous);
    }
}
