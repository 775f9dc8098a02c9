//! The fourteen calls, each by its number. A refusal is decided before any word changes. Where a number leads to a record and a search finds it too, it is
//! searched for: that the two agree is what soundness says.

use super::geometry::*;
use super::memory::*;
use super::refusal::*;
use super::sound::sound;

/// The answer, or the number of the first refusal.
pub type Answer = Result<u32, u32>;

/// All that a call answers: read enabled and find tell six words beside, zeros for none and beside a refusal.
#[derive(Clone, Copy, PartialEq, Eq, Debug)]
pub struct Said {
    pub answer: Answer,
    pub told: Option<[u32; 6]>,
}

/// Each call's name and how many arguments it has, by its number.
pub const CALLS: [(&str, usize); 14] = [
    ("format", 0),
    ("create", 1),
    ("delete", 1),
    ("prepare", 2),
    ("collect", 1),
    ("add", 3),
    ("remove", 2),
    ("cut", 2),
    ("merge", 2),
    ("enable", 3),
    ("read enabled", 2),
    ("find", 2),
    ("enter", 1),
    ("leave", 0),
];

/// Performs a call by its number; none when the number or the argument count is wrong.
pub fn perform(mem: &mut [u32], number: u32, arguments: &[u32]) -> Option<Said> {
    let answer = match (number, arguments) {
        (0, []) => format(mem),
        (1, &[block]) => create(mem, block),
        (2, &[child]) => delete(mem, child),
        (3, &[partition, block]) => prepare(mem, partition, block),
        (4, &[partition]) => collect(mem, partition),
        (5, &[child, block, rights]) => add(mem, child, block, rights),
        (6, &[child, block]) => remove(mem, child, block),
        (7, &[block, address]) => cut(mem, block, address),
        (8, &[one, other]) => merge(mem, one, other),
        (9, &[partition, block, on]) => enable(mem, partition, block, on),
        (10, &[partition, entry]) => return Some(tell(read_enabled(mem, partition, entry))),
        (11, &[partition, address]) => return Some(tell(find(mem, partition, address))),
        (12, &[child]) => enter(mem, child),
        (13, []) => leave(mem),
        _ => return None,
    };
    Some(Said { answer, told: None })
}

fn tell(found: Result<Option<Slot>, u32>) -> Said {
    let told = found.ok().flatten().map_or([0; 6], |block| block.told());
    Said { answer: found.map(|block| u32::from(block.is_some())), told: Some(told) }
}

// Checks.

fn require(holds: bool, refusal: u32) -> Result<(), u32> {
    holds.then_some(()).ok_or(refusal)
}

fn caller(mem: &[u32]) -> Result<Partition, u32> {
    require(sound(mem), DAMAGED)?;
    Ok(Partition::current(mem))
}

/// The child of a number, searched for by its parent and number.
fn child_of(mem: &[u32], here: &Partition, number: u32) -> Result<Partition, u32> {
    let found = partitions(mem).into_iter().find(|one| one.parent == here.at && one.number == number);
    found.ok_or(CHILD)
}

/// The caller itself for 0, else a child.
fn partition_of(mem: &[u32], here: &Partition, number: u32) -> Result<Partition, u32> {
    match number {
        0 => Ok(here.clone()),
        _ => child_of(mem, here, number),
    }
}

fn in_hand(pool: &Partition, number: u32) -> Result<Slot, u32> {
    pool.hand(number).ok_or(BLOCK)
}

/// The block that was cut from this one's end.
fn next_of(pool: &Partition, block: &Slot) -> Option<Slot> {
    pool.blocks().find(|other| other.previous == block.number).copied()
}

/// The first piece of a block in the child that it is lent to.
fn first_piece(child: &Partition, block: &Slot) -> Option<Slot> {
    child.blocks().find(|piece| piece.source == block.number && piece.previous == 0).copied()
}

// Effects that several calls share, or that are wanted without their checks.

fn disable(mem: &mut [u32], pool: &Partition, number: u32) {
    let entries = pool.at + BEFORE_ENTRIES;
    for (e, entry) in (1..).zip(pool.entries) {
        if entry == number {
            set(mem, entries + e, 0);
        }
    }
}

fn set_use(mem: &mut [u32], block: &Slot, words: [u32; 3]) {
    (slot::USE..).zip(words).for_each(|(place, value)| set(mem, block.at + place, value));
}

fn write_slot(mem: &mut [u32], slot: &Slot, words: [u32; SLOT_WORDS]) {
    (slot.at..).zip(words).for_each(|(index, value)| set(mem, index, value));
}

/// "Take": with so many words wiped, the first ones then filled.
fn take(mem: &mut [u32], pool: &Partition, block: &Slot, words: [u32; 3], wiped: usize, filled: &[u32]) {
    disable(mem, pool, block.number);
    set_use(mem, block, words);
    wipe(mem, block.place(), wiped);
    (block.place()..).zip(filled).for_each(|(index, &value)| set(mem, index, value));
}

fn give_back(mem: &mut [u32], block: &Slot) {
    set_use(mem, block, [IN_HAND, 0, 0]);
}

/// Wipes partitions whole, with their table words.
fn erase(mem: &mut [u32], partitions: &[Partition]) {
    for partition in partitions {
        for structure in &partition.structures {
            wipe(mem, structure.at, STRUCTURE_WORDS);
        }
        wipe(mem, partition.at, DESCRIPTOR_WORDS);
        set(mem, table_word(partition.at), 0);
    }
}

/// The effect of delete, with no check and for these partitions.
pub fn end_partitions(mem: &mut [u32], here: &Partition, child: u32, ended: &[Partition]) {
    erase(mem, ended);
    for block in here.blocks().filter(|block| block.number == child || block.child == child) {
        give_back(mem, block);
    }
}

/// The effect of remove, with no check.
pub fn withdraw(mem: &mut [u32], child: &Partition, first: &Slot, block: &Slot) {
    disable(mem, child, first.number);
    write_slot(mem, first, [0; SLOT_WORDS]);
    give_back(mem, block);
}

/// The effect of merge, with no check.
pub fn join(mem: &mut [u32], pool: &Partition, lower: &Slot, higher: &Slot) {
    set(mem, lower.at + slot::END, higher.end);
    set(mem, lower.at + slot::NEXT, higher.next);
    if let Some(next) = next_of(pool, higher) {
        set(mem, next.at + slot::PREVIOUS, lower.number);
    }
    disable(mem, pool, higher.number);
    write_slot(mem, higher, [0; SLOT_WORDS]);
}

// The calls, by number.

pub fn format(mem: &mut [u32]) -> Answer {
    let geometry = Geometry::of_length(mem.len()).ok_or(LENGTH)?;
    let (root, structure) = (geometry.root, geometry.root_structure());
    mem.fill(0);
    mem[..4].copy_from_slice(&[geometry.words as u32, root as u32, geometry.first_byte, root as u32]);
    mem[table_word(root)] = root as u32;
    mem[root + BEFORE_ENTRIES + 1] = 8;
    mem[root + BEFORE_STRUCTURES + 1] = structure as u32;
    let start = [geometry.first_byte, geometry.end(), ALL_RIGHTS, IN_HAND];
    mem[structure + BEFORE_SLOTS..][..start.len()].copy_from_slice(&start);
    Ok(0)
}

pub fn create(mem: &mut [u32], block: u32) -> Answer {
    let here = caller(mem)?;
    let block = in_hand(&here, block)?;
    require(block.has_room(DESCRIPTOR_WORDS), STRUCTURE)?;
    let filled = [here.at as u32, block.number, here.level + 1];
    take(mem, &here, &block, [HAS_DESCRIPTOR, 0, 0], DESCRIPTOR_WORDS, &filled);
    set(mem, table_word(block.place()), block.place() as u32);
    Ok(0)
}

pub fn delete(mem: &mut [u32], child: u32) -> Answer {
    let here = caller(mem)?;
    let ended = family(mem, child_of(mem, &here, child)?.at);
    end_partitions(mem, &here, child, &ended);
    Ok(0)
}

pub fn prepare(mem: &mut [u32], partition: u32, block: u32) -> Answer {
    let here = caller(mem)?;
    let of = partition_of(mem, &here, partition)?;
    let block = in_hand(&here, block)?;
    require(block.has_room(STRUCTURE_WORDS), STRUCTURE)?;
    let k = of.free_k().ok_or(STRUCTURE)?;
    let filled = [block.number, u32::from(partition == 0)];
    take(mem, &here, &block, [HAS_STRUCTURE, partition, k], STRUCTURE_WORDS, &filled);
    set(mem, of.at + BEFORE_STRUCTURES + k as usize, block.place() as u32);
    Ok(0)
}

pub fn collect(mem: &mut [u32], partition: u32) -> Answer {
    let here = caller(mem)?;
    let of = partition_of(mem, &here, partition)?;
    let empty = of.structures.iter().filter(|structure| structure.is_empty()).min_by_key(|structure| structure.k);
    let Structure { k, at, .. } = *empty.ok_or(EMPTY)?;
    // The block is searched for in all pools.
    let stands_in = |block: &&Slot| block.usage == HAS_STRUCTURE && block.place() == at;
    let pools = partitions(mem);
    let found = pools.iter().find_map(|pool| Some((pool.at, *pool.blocks().find(stands_in)?)));
    let (pool, block) = found.ok_or(DAMAGED)?;
    wipe(mem, at, STRUCTURE_WORDS);
    set(mem, of.at + BEFORE_STRUCTURES + k as usize, 0);
    give_back(mem, &block);
    Ok(if pool == here.at { block.number } else { 0 })
}

pub fn add(mem: &mut [u32], child: u32, block: u32, rights: u32) -> Answer {
    let here = caller(mem)?;
    let to = child_of(mem, &here, child)?;
    let block = in_hand(&here, block)?;
    require(rights & !block.rights == 0, RIGHTS)?;
    let slot = to.free_slot().ok_or(SLOT)?;
    write_slot(mem, &slot, [block.start, block.end, rights, IN_HAND, 0, 0, block.number, 0, 0]);
    disable(mem, &here, block.number);
    set_use(mem, &block, [LENT, child, slot.number]);
    Ok(slot.number)
}

pub fn remove(mem: &mut [u32], child: u32, block: u32) -> Answer {
    let here = caller(mem)?;
    let of = child_of(mem, &here, child)?;
    let block = here.block(block).filter(|block| block.lent_to(child)).ok_or(BLOCK)?;
    let first = first_piece(&of, &block).ok_or(DAMAGED)?;
    require(first.end == block.end, UNMERGED)?;
    require(first.in_hand(), BLOCK)?;
    withdraw(mem, &of, &first, &block);
    Ok(0)
}

pub fn cut(mem: &mut [u32], block: u32, address: u32) -> Answer {
    let here = caller(mem)?;
    let block = in_hand(&here, block)?;
    let (below, above) = (address.checked_sub(block.start), block.end.checked_sub(address));
    require([below, above].iter().all(|bytes| bytes.is_some_and(|bytes| bytes >= LEAST_BYTES)), PIECE)?;
    let slot = here.free_slot().ok_or(SLOT)?;
    let Slot { number, end, rights, source, next, .. } = block;
    write_slot(mem, &slot, [address, end, rights, IN_HAND, 0, 0, source, number, next]);
    if let Some(next) = next_of(&here, &block) {
        set(mem, next.at + slot::PREVIOUS, slot.number);
    }
    set(mem, block.at + slot::END, address);
    set(mem, block.at + slot::NEXT, slot.number);
    Ok(slot.number)
}

pub fn merge(mem: &mut [u32], one: u32, other: u32) -> Answer {
    let here = caller(mem)?;
    let (one, other) = (in_hand(&here, one)?, in_hand(&here, other)?);
    let (lower, higher) = if one.previous == other.number { (other, one) } else { (one, other) };
    require(higher.previous == lower.number, APART)?;
    join(mem, &here, &lower, &higher);
    Ok(lower.number)
}

pub fn enable(mem: &mut [u32], partition: u32, block: u32, on: u32) -> Answer {
    let here = caller(mem)?;
    let of = partition_of(mem, &here, partition)?;
    let block = in_hand(&of, block)?;
    if on == 0 {
        disable(mem, &of, block.number);
        return Ok(0);
    }
    let entry = of.entry_of(block.number).or(of.entry_of(0)).ok_or(ENABLED)?;
    set(mem, of.at + BEFORE_ENTRIES + entry as usize, block.number);
    Ok(entry)
}

pub fn read_enabled(mem: &[u32], partition: u32, entry: u32) -> Result<Option<Slot>, u32> {
    let here = caller(mem)?;
    let of = partition_of(mem, &here, partition)?;
    Ok((1..).zip(of.entries).find(|&(e, _)| e == entry).and_then(|(_, number)| of.block(number)))
}

pub fn find(mem: &[u32], partition: u32, address: u32) -> Result<Option<Slot>, u32> {
    let here = caller(mem)?;
    let of = partition_of(mem, &here, partition)?;
    let found = of.blocks().find(|block| block.has_byte(address)).copied();
    Ok(found)
}

pub fn enter(mem: &mut [u32], child: u32) -> Answer {
    let here = caller(mem)?;
    let to = child_of(mem, &here, child)?;
    set(mem, CURRENT, to.at as u32);
    Ok(0)
}

pub fn leave(mem: &mut [u32]) -> Answer {
    let here = caller(mem)?;
    // The parent is the one that has a block in which this partition stands; none has the root's.
    let has_here =
        |pool: &&Partition| pool.blocks().any(|block| block.usage == HAS_DESCRIPTOR && block.place() == here.at);
    let pools = partitions(mem);
    let parent = pools.iter().find(has_here).ok_or(ROOT)?;
    set(mem, CURRENT, parent.at as u32);
    Ok(0)
}
