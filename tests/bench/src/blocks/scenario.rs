//! Memories to measure on: trees of several shapes, each by a recipe for any number of KiB.

use super::builder::{Builder, DESCRIPTOR, STRUCTURE};
use super::call::{Call, Step};
use crate::kernel::{numbered, KernelCall, Tree};
use second::blocks::geometry::{LEAST_BYTES, SLOTS, STRUCTURES};

/// What a caller keeps in hand for its calls.
const SPARE: u32 = 512;
/// The least that a child with a structure and a block takes.
const CHILD: u32 = DESCRIPTOR + STRUCTURE + LEAST_BYTES;
/// About what a partition takes whose slots are all used by the least pieces.
const FULL: u32 = 8704;
/// The most levels that have blocks to lend on where each block is lent by itself.
const LEVELS: usize = 15;

/// A tree, and the calls that are measured on it.
pub struct Scenario {
    pub name: &'static str,
    pub kib: usize,
    /// Of the calls that built it and those made on it the last of each number, mostly on the whole tree.
    passing: Vec<Step>,
    /// Calls that are refused after the judgement.
    refused: Vec<Step>,
    /// The memory when the tree was whole.
    pub whole: Vec<u32>,
}

impl Scenario {
    /// The last child of the tree, one of the caller's, ends.
    fn of(name: &'static str, kib: usize, mut built: Builder, child: Option<u32>) -> Scenario {
        let child = child.expect("a child");
        let (whole, refused) = (built.memory.clone(), built.refused(child));
        built.finish(child);
        Scenario { name, kib, passing: built.last_calls(&whole), refused, whole }
    }
}

impl Tree for Scenario {
    type Call = Call;

    fn title(&self) -> String {
        format!("{} {}", self.kib, self.name)
    }

    fn whole(&self) -> &[u32] {
        &self.whole
    }

    fn passing(&self, number: u32) -> Option<&Step> {
        numbered(&self.passing, number)
    }

    fn refused(&self, number: u32) -> Option<&Step> {
        numbered(&self.refused, number)
    }
}

/// A tree in a memory of so many KiB.
pub type Recipe = fn(usize) -> Scenario;

/// Partitions and structures of a memory.
pub fn parts(words: &[u32]) -> usize {
    Call::counts(words).iter().take(2).map(|(_, count)| count).sum()
}

/// A child with one structure and one block.
fn family(built: &mut Builder) -> Option<u32> {
    built.attempt(|built| {
        let child = built.child()?;
        built.lend(child, LEAST_BYTES)?;
        Some(child)
    })
}

pub fn one_child(kib: usize) -> Scenario {
    let mut built = Builder::new(kib);
    let child = family(&mut built);
    Scenario::of("one child", kib, built, child)
}

/// A chain, each partition with one structure, that lends on all that it has left as long as there is more than is to be kept.
fn dig(built: &mut Builder, kept: u32) {
    while built.left() > CHILD + kept {
        let child = built.child().expect("room");
        built.lend_rest(child);
        built.enter(child);
    }
}

/// A chain as deep as there is room; the caller is the parent of the last.
pub fn deep(kib: usize) -> Scenario {
    let mut built = Builder::new(kib);
    dig(&mut built, CHILD + SPARE);
    let child = family(&mut built);
    Scenario::of("deep", kib, built, child)
}

/// As many children of the caller as fit by this work; the last.
fn children(built: &mut Builder, work: impl Fn(&mut Builder) -> Option<u32>) -> Option<u32> {
    std::iter::from_fn(|| built.attempt(&work)).last()
}

/// Children of the root with one structure and one block each.
pub fn broad(kib: usize) -> Scenario {
    let mut built = Builder::new(kib);
    let child = children(&mut built, family);
    Scenario::of("broad", kib, built, child)
}

/// Children of the root without structures.
pub fn bare(kib: usize) -> Scenario {
    let mut built = Builder::new(kib);
    let child = children(&mut built, Builder::bare_child);
    Scenario::of("bare", kib, built, child)
}

/// A child whose one structure is full of children without structures: as much as fits of it.
fn bush(built: &mut Builder) -> Option<u32> {
    let child = built.child()?;
    built.lend(child, SLOTS as u32 * DESCRIPTOR)?;
    built.enter(child)?;
    for _ in 1..SLOTS {
        let block = built.cut_off(DESCRIPTOR)?;
        built.call(1, &[block])?;
    }
    built.call(1, &[built.rest()])?;
    built.leave()?;
    Some(child)
}

/// As many partitions as fit: children of the root that each have eight.
pub fn bushy(kib: usize) -> Scenario {
    let mut built = Builder::new(kib);
    let child = children(&mut built, bush);
    Scenario::of("bushy", kib, built, child)
}

/// A chain of partitions whose blocks are lent one by one, as many as there are slots for: those that a partition does not need for its child it lends on.
pub fn many_blocks(kib: usize) -> Scenario {
    let deepest = (1..=LEVELS).rev().find_map(|levels| {
        let mut built = Builder::new(kib);
        chain_of_many(&mut built, levels).map(|child| (built, child))
    });
    let (built, child) = deepest.expect("room for one level");
    Scenario::of("many blocks", kib, built, Some(child))
}

/// So many levels below the root; the root's child.
fn chain_of_many(built: &mut Builder, levels: usize) -> Option<u32> {
    // How many structures the child of each level has: with its descriptor and its blocks these are all that the parent has to give.
    let mut blocks = SLOTS * STRUCTURES - STRUCTURES;
    let mut structures = Vec::new();
    for _ in 0..levels {
        let of_child = (blocks - 1).div_ceil(SLOTS + 1);
        blocks = blocks.checked_sub(1 + of_child)?;
        structures.push(of_child);
    }
    let taken = |&count: &usize| std::iter::once(DESCRIPTOR).chain(std::iter::repeat_n(STRUCTURE, count));
    let sizes = structures.iter().flat_map(taken).chain(std::iter::repeat_n(LEAST_BYTES, blocks));
    let mut numbers: Vec<u32> = sizes.map(|bytes| built.take(bytes)).collect::<Option<_>>()?;
    let mut first = None;
    for of_child in structures {
        let lent = numbers.split_off(1 + of_child);
        let child = numbers[0];
        built.call(1, &[child])?;
        built.prepare(child, &numbers[1..])?;
        numbers = lent.iter().map(|&block| built.add(child, block)).collect::<Option<_>>()?;
        built.enter(child)?;
        first = first.or(Some(child));
    }
    built.climb();
    first
}

/// Partitions with sixteen structures, each slot used by a piece of one block: the root and as many children as there is room for. Where there is room for
/// none the one child has as many pieces as fit.
pub fn many_pieces(kib: usize) -> Scenario {
    let mut built = Builder::new(kib);
    let count = (built.left() / FULL).saturating_sub(1).max(1);
    built.fill(3 * count as usize - 1);
    let mut child = None;
    for others in (0..count).rev() {
        let share = built.left() / (others + 1) - CHILD;
        child = built.attempt(|built| {
            let child = built.child()?;
            if others == 0 {
                built.lend_rest(child)?;
            } else {
                built.lend(child, share / 4 * 4)?;
            }
            built.enter(child)?;
            built.fill(0);
            built.leave()?;
            Some(child)
        });
    }
    Scenario::of("many pieces", kib, built, child)
}

/// Children of the root that have much below them.
pub const BELOW: [Recipe; 5] = [deep_below, broad_below, bushy_below, bushy_below_full, lent_one_by_one];

/// The root's child with all that is left; and what it makes of it, with the last child on the way down.
fn below(name: &'static str, kib: usize, mut built: Builder, work: impl Fn(&mut Builder) -> Option<u32>) -> Scenario {
    let child = built.attempt(|built| {
        built.take(SPARE)?;
        let child = built.child()?;
        built.lend_rest(child)?;
        built.enter(child)?;
        Some(child)
    });
    work(&mut built);
    built.climb();
    Scenario::of(name, kib, built, child)
}

/// A chain as deep as there is room.
fn deep_below(kib: usize) -> Scenario {
    below("deep below", kib, Builder::new(kib), |built| {
        dig(built, CHILD);
        family(built)
    })
}

/// As many children as fit.
fn broad_below(kib: usize) -> Scenario {
    below("broad below", kib, Builder::new(kib), |built| children(built, family))
}

/// As many partitions as fit.
fn bushy_below(kib: usize) -> Scenario {
    below("bushy below", kib, Builder::new(kib), |built| children(built, bush))
}

/// The same, and all slots of the root are used: the last number is the block that is lent to the child.
fn bushy_below_full(kib: usize) -> Scenario {
    let mut built = Builder::new(kib);
    built.fill(3);
    below("bushy below, full root", kib, built, |built| children(built, bush))
}

/// As many blocks as there is room for, lent one by one, and the child of the root has a child in each.
fn lent_one_by_one(kib: usize) -> Scenario {
    let most = (1..SLOTS * STRUCTURES).rev().find_map(|count| {
        let mut built = Builder::new(kib);
        child_with(&mut built, count).map(|child| (built, child))
    });
    let (built, child) = most.expect("room for one block");
    Scenario::of("lent one by one", kib, built, Some(child))
}

/// A child with so many blocks and structures for them.
fn child_with(built: &mut Builder, count: usize) -> Option<u32> {
    let child = built.bare_child()?;
    let structures: Vec<u32> = (0..count.div_ceil(SLOTS)).map(|_| built.take(STRUCTURE)).collect::<Option<_>>()?;
    built.prepare(child, &structures)?;
    let lent: Vec<u32> = (0..count).map(|_| built.lend(child, DESCRIPTOR)).collect::<Option<_>>()?;
    built.enter(child)?;
    for block in lent {
        built.call(1, &[block])?;
    }
    built.leave()?;
    Some(child)
}
