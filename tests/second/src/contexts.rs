//! Saved contexts (document 02, L8): notify, dispatch and resume. A refusal is decided before any word changes.

use crate::calls::*;
use crate::geometry::{Edition, PPage, Sizes, VPage, READ, SMALL, WRITE};
use crate::memory::*;
use crate::refusal::{EDITION, EMPTY_SLOT, ROOT, SLOT, SLOT_PAGE};

/// What a slot saves: eip, pipflags, eflags and eight registers. Valid follows, then padding.
pub const CONTEXT_WORDS: usize = 11;
pub type Context = [u32; CONTEXT_WORDS];

pub const SLOTS: u32 = 4;
pub const SLOT_WORDS: usize = 16;
/// Words of a slot.
pub const PIPFLAGS: usize = 1;
pub const VALID: usize = 11;
/// The slots of the caller that notify saves in.
pub const TO_CHILD: u32 = 2;
pub const TO_PARENT: u32 = 3;

/// The target of a call: a child of the caller, or its parent.
struct Target {
    partition: Partition,
    is_parent: bool,
}

/// Where a partition has its slots: its last virtual page, 0xFFF00, and the root its last flat page, 256F.
pub fn slots_at(mem: &[u32], partition: &Partition) -> VPage {
    match (partition.descriptor, Sizes::of(mem)) {
        (ROOT_PAGE, Some(sizes)) => VPage(sizes.free),
        _ => VPage(SMALL.virtual_pages() - 1),
    }
}

/// The index of a slot's word in its page.
pub fn slot_word(slot: u32, index: usize) -> usize {
    SLOT_WORDS * slot as usize + index
}

/// Caller and target. Address 0 is the parent; every other has to be good, and a child's.
fn target_of(mem: &[u32], target: u32) -> Result<(Partition, Target), u32> {
    let caller = caller_of(mem)?;
    require(Edition::of(mem) == SMALL, EDITION)?;
    if target == 0 {
        let parent = parent_of(mem, caller.descriptor).ok_or(ROOT)?;
        return Ok((caller, Target { partition: Partition::at(mem, parent), is_parent: true }));
    }
    let [at] = page_addresses(mem, [target])?;
    let child = child_at(mem, &caller, at)?;
    Ok((caller, Target { partition: child, is_parent: false }))
}

/// The slot page of a partition, in its own hand with read and write.
pub fn slot_page(mem: &[u32], owner: &Partition) -> Result<PPage, u32> {
    let at = slots_at(mem, owner);
    let mapping = owner.mapping(mem, at).filter(|_| owner.in_hand(mem, at));
    mapping.filter(|&mapping| holds(mapping, READ + WRITE)).map(|mapping| mapping.page).ok_or(SLOT_PAGE)
}

fn set_flag(mem: &mut [u32], partition: &Partition, flag: u32) {
    set_word(mem, partition.descriptor, FLAG, flag);
}

fn make_current(mem: &mut [u32], partition: &Partition) {
    set_word(mem, HEADER, CURRENT, partition.descriptor.address(Edition::of(mem)));
}

/// "the target becomes current", with flag 1; the caller's flag is 0 where the target is its child, and stays where it is its parent.
fn switch(mem: &mut [u32], caller: &Partition, target: &Target) {
    if !target.is_parent {
        set_flag(mem, caller, 0);
    }
    set_flag(mem, &target.partition, 1);
    make_current(mem, &target.partition);
}

pub fn notify(mem: &mut [u32], target: u32, eip: u32, eflags: u32, registers: [u32; 8]) -> Answer {
    let (caller, target) = target_of(mem, target)?;
    let page = slot_page(mem, &caller)?;
    let slot = if target.is_parent { TO_PARENT } else { TO_CHILD };
    let saved = [eip, word(mem, caller.descriptor, FLAG), eflags].into_iter().chain(registers).chain([1]);
    for (index, value) in saved.enumerate() {
        set_word(mem, page, slot_word(slot, index), value);
    }
    switch(mem, &caller, &target);
    Ok(0)
}

pub fn dispatch(mem: &mut [u32], target: u32) -> Answer {
    let (caller, target) = target_of(mem, target)?;
    switch(mem, &caller, &target);
    Ok(0)
}

/// The saved words; eleven zeros where the parent's slot isn't valid, and the root is current then.
pub fn resume(mem: &mut [u32], target: u32, slot: u32) -> Result<Context, u32> {
    let (caller, target) = target_of(mem, target)?;
    require(slot < SLOTS && (!target.is_parent || slot == TO_CHILD), SLOT)?;
    let page = slot_page(mem, &target.partition)?;
    let is_valid = word(mem, page, slot_word(slot, VALID)) == 1;
    require(is_valid || target.is_parent, EMPTY_SLOT)?;
    set_flag(mem, &caller, 0);
    if !is_valid {
        let root = Partition::at(mem, ROOT_PAGE);
        set_flag(mem, &root, 1);
        make_current(mem, &root);
        return Ok([0; CONTEXT_WORDS]);
    }
    let saved: Context = std::array::from_fn(|index| word(mem, page, slot_word(slot, index)));
    set_word(mem, page, slot_word(slot, VALID), 0);
    set_flag(mem, &target.partition, saved[PIPFLAGS] & 1);
    make_current(mem, &target.partition);
    Ok(saved)
}
