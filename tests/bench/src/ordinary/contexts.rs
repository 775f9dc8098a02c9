//! Saved contexts: notify, dispatch and resume between a partition and its child or its parent.

use super::address::*;
use super::memory::*;
use super::partition::{pages_at, Partition};
use super::refusal::{require, Answer, EDITION, EMPTY_SLOT, ROOT, SLOT, SLOT_PAGE};

/// Eip, pipflags, eflags and eight registers: a slot's first words. Valid is the next.
pub type Context = [u32; CONTEXT_WORDS];
pub const CONTEXT_WORDS: usize = 11;
const PIPFLAGS: usize = 1;
const VALID: usize = CONTEXT_WORDS;
const SLOT_WORDS: usize = 16;

/// The slots of a partition that notified a child, and its parent.
const TO_CHILD: usize = 2;
const TO_PARENT: usize = 3;

pub fn notify<const W: usize>(m: &mut Memory<W>, target: u32, eip: u32, eflags: u32, registers: [u32; 8]) -> Answer {
    let caller = m.caller();
    let to = named(m, &caller, target)?;
    let page = slot_page(m, &caller)?;
    let flag = m.page(caller.descriptor)[FLAG];
    let slot = slot(m, page, if target == 0 { TO_PARENT } else { TO_CHILD });
    slot[..3].copy_from_slice(&[eip, flag, eflags]);
    slot[3..VALID].copy_from_slice(&registers);
    slot[VALID] = 1;
    interrupt(m, &caller, &to, target)
}

pub fn dispatch<const W: usize>(m: &mut Memory<W>, target: u32) -> Answer {
    let caller = m.caller();
    let to = named(m, &caller, target)?;
    interrupt(m, &caller, &to, target)
}

/// The saved words. Where the parent has none the root becomes current, and they are zeros.
pub fn resume<const W: usize>(m: &mut Memory<W>, target: u32, number: u32) -> Result<Context, u32> {
    let caller = m.caller();
    let to = named(m, &caller, target)?;
    let number = number as usize;
    require(if target == 0 { number == TO_CHILD } else { number <= TO_PARENT }, SLOT)?;
    let page = slot_page(m, &to)?;
    let slot = slot(m, page, number);
    if slot[VALID] != 1 {
        require(target == 0, EMPTY_SLOT)?;
        switch(m, &caller, Partition::<W>::ROOT_PAGE, 0, 1);
        return Ok([0; CONTEXT_WORDS]);
    }
    slot[VALID] = 0;
    let mut context = [0; CONTEXT_WORDS];
    context.copy_from_slice(&slot[..CONTEXT_WORDS]);
    switch(m, &caller, to.descriptor, 0, context[PIPFLAGS] & 1);
    Ok(context)
}

/// The target: a child, or the parent under address 0.
fn named<const W: usize>(m: &Memory<W>, caller: &Partition<W>, target: u32) -> Result<Partition<W>, u32> {
    require(W == SMALL, EDITION)?;
    if target == 0 {
        require(!caller.is_root(), ROOT)?;
        return Ok(Partition::at(m, caller.parent));
    }
    let [at] = pages_at([target])?;
    caller.child(m, at)
}

/// The page with a partition's slots: its last virtual page, and the root's last flat one.
fn slot_page<const W: usize>(m: &Memory<W>, owner: &Partition<W>) -> Result<PPage<W>, u32> {
    let v = if owner.is_root() { m.sizes().flat } else { (W * W - 1) as u32 };
    let word = owner.in_hand(m, VPage(v)).map_err(|_| SLOT_PAGE)?;
    require(!word & (READ | WRITE) == 0, SLOT_PAGE)?;
    Ok(PPage::of(word))
}

fn slot<'a, const W: usize>(m: &'a mut Memory<W>, page: PPage<W>, number: usize) -> &'a mut [u32; SLOT_WORDS] {
    &mut m.page_mut(page).as_chunks_mut().0[number]
}

/// The target has flag 1; the caller's is 0 where that is a child, and stays where it is the parent.
fn interrupt<const W: usize>(m: &mut Memory<W>, caller: &Partition<W>, to: &Partition<W>, target: u32) -> Answer {
    let own = if target == 0 { m.page(caller.descriptor)[FLAG] } else { 0 };
    switch(m, caller, to.descriptor, own, 1);
    Ok(0)
}

/// Sets both flags, and the other partition is current.
fn switch<const W: usize>(m: &mut Memory<W>, caller: &Partition<W>, other: PPage<W>, own: u32, flag: u32) {
    m.page_mut(caller.descriptor)[FLAG] = own;
    m.page_mut(other)[FLAG] = flag;
    m.page_mut(Memory::HEADER)[CURRENT] = other.address();
}
