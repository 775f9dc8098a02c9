//! Add and remove.

use super::memory::Memory;
use super::refusal::*;
use super::slot::*;

pub fn add(m: &mut Memory, child: u32, block: u32, rights: u32) -> Answer {
    let here = m.caller();
    let to = m.child(here, child)?;
    let block = m.in_hand(here, block)?;
    require(rights & !block.slot.rights == 0, RIGHTS)?;
    let (number, at) = m.free_slot(to).ok_or(SLOT)?;
    m.write_slot(at, [block.slot.start, block.slot.end, rights, IN_HAND, 0, 0, block.number, 0, 0]);
    m.disable(here, block.number);
    m.set_use(block.at, [LENT, child, number]);
    Ok(number)
}

pub fn remove(m: &mut Memory, child: u32, block: u32) -> Answer {
    let here = m.caller();
    let of = m.child(here, child)?;
    let block = m.block(here, block).filter(|block| block.slot.is_lent_to(child)).ok_or(BLOCK)?;
    let first = m.block(of, block.slot.link).expect("sound memory");
    require(first.slot.end == block.slot.end, UNMERGED)?;
    require(first.slot.usage == IN_HAND, BLOCK)?;
    m.disable(of, first.number);
    m.write_slot(first.at, [0; SLOT_WORDS]);
    m.give_back(block.at);
    Ok(0)
}
