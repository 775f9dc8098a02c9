//! Pages lent to a child and taken back.

use super::address::*;
use super::memory::*;
use super::partition::pages_at;
use super::refusal::*;

pub fn add_vaddr<const W: usize>(m: &mut Memory<W>, page: u32, child: u32, target: u32, rights: u32) -> Answer {
    let [page, at, target] = pages_at([page, child, target])?;
    require(rights < 6, RIGHTS)?;
    let caller = m.caller();
    let child = caller.child(m, at)?;
    let word = caller.in_hand(m, page)?;
    require((4 * rights) & !word == 0, RIGHTS)?;
    require(child.has_three(m, target), TABLE)?;
    require(child.mapping(m, target) == 0, TAKEN)?;
    m.set_table_word(child.directory, target, word & !RIGHTS_BITS | (4 * rights));
    m.set_table_word(child.shadow2, target, page.address());
    m.set_table_word(caller.shadow1, page, at.address());
    Ok(0)
}

pub fn remove_vaddr<const W: usize>(m: &mut Memory<W>, child: u32, target: u32) -> Answer {
    let [at, target] = pages_at([child, target])?;
    let caller = m.caller();
    let child = caller.child(m, at)?;
    require(child.has_three(m, target), TABLE)?;
    require(child.mapping(m, target) != 0, UNMAPPED)?;
    child.in_hand(m, target)?;
    let lender = child.shadow2(m, target);
    m.set_table_word(child.directory, target, 0);
    m.set_table_word(child.shadow2, target, 0);
    m.set_table_word(caller.shadow1, VPage::of(lender), 0);
    Ok(lender)
}

pub fn mapped_in_child<const W: usize>(m: &Memory<W>, page: u32) -> Answer {
    let [page] = pages_at([page])?;
    let caller = m.caller();
    let word = caller.mapping(m, page);
    require(word != 0, UNMAPPED)?;
    let lent_to = caller.shadow1(m, page);
    require(word & ACCESSIBLE != 0 || lent_to > IS_CHILD, KERNEL)?;
    Ok(lent_to)
}
