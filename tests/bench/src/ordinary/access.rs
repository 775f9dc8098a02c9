//! Enter and leave, load and store.

use super::address::*;
use super::memory::*;
use super::partition::pages_at;
use super::refusal::*;

pub fn enter<const W: usize>(m: &mut Memory<W>, child: u32) -> Answer {
    let [at] = pages_at([child])?;
    let child = m.caller().child(m, at)?;
    set_current(m, child.descriptor)
}

pub fn leave<const W: usize>(m: &mut Memory<W>) -> Answer {
    let caller = m.caller();
    require(!caller.is_root(), ROOT)?;
    set_current(m, caller.parent)
}

fn set_current<const W: usize>(m: &mut Memory<W>, descriptor: PPage<W>) -> Answer {
    m.page_mut(Memory::HEADER)[CURRENT] = descriptor.address();
    Ok(0)
}

/// The page and the index of the word at an address for which the caller holds a right.
fn walk<const W: usize>(m: &Memory<W>, address: u32, right: u32) -> Result<(PPage<W>, usize), u32> {
    require(good_address::<W>(address, 4), ADDRESS)?;
    let word = m.caller().mapping(m, VPage::of(address));
    require(word != 0, UNMAPPED)?;
    require(word & ACCESSIBLE != 0, KERNEL)?;
    require(word & right != 0, RIGHTS)?;
    Ok((PPage::of(word), (address % page_bytes::<W>() / 4) as usize))
}

pub fn load<const W: usize>(m: &Memory<W>, address: u32) -> Answer {
    let (page, index) = walk(m, address, READ)?;
    Ok(m.page(page)[index])
}

pub fn store<const W: usize>(m: &mut Memory<W>, address: u32, value: u32) -> Answer {
    let (page, index) = walk(m, address, WRITE)?;
    m.page_mut(page)[index] = value;
    Ok(0)
}
