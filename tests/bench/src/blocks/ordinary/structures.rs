//! Prepare and collect.

use super::memory::Memory;
use super::partition::*;
use super::refusal::*;
use super::sizes::STRUCTURE_WORDS;
use super::slot::{FREE, HAS_STRUCTURE};

pub fn prepare(m: &mut Memory, partition: u32, block: u32) -> Answer {
    let of = m.named(partition)?;
    let block = m.in_hand(m.caller(), block)?;
    require(block.slot.has_room(STRUCTURE_WORDS), STRUCTURE)?;
    let free = (1..=STRUCTURES).find(|&k| m.descriptor(of)[BEFORE_STRUCTURES + k as usize] == 0);
    let k = free.ok_or(STRUCTURE)?;
    let own = u32::from(partition == 0);
    m.take(&block, [HAS_STRUCTURE, partition, k], STRUCTURE_WORDS, &[block.number, own]);
    m.set(of as usize + BEFORE_STRUCTURES + k as usize, block.slot.place());
    Ok(0)
}

pub fn collect(m: &mut Memory, partition: u32) -> Answer {
    let of = m.named(partition)?;
    let is_empty = |&(k, at): &(u32, u32)| slots_of(k, m.structure(at)).all(|(_, slot)| slot.usage == FREE);
    let (k, at) = structures(m.descriptor(of)).find(is_empty).ok_or(EMPTY)?;
    let [number, own, ..] = *m.structure(at);
    let pool = if own == 1 { of } else { m.parent(of) };
    let block = m.block(pool, number).expect("sound memory");
    m.wipe(at, STRUCTURE_WORDS);
    m.set(of as usize + BEFORE_STRUCTURES + k as usize, 0);
    m.give_back(block.at);
    Ok(if pool == m.caller() { number } else { 0 })
}
