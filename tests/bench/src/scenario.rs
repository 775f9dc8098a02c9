//! Memories to measure on: trees of several shapes, each by a recipe for any number of pages of either edition.

use crate::builder::Builder;
use crate::call::{Call, Step};
use crate::kernel::{numbered, Tree};
use second::geometry::{Edition, VPage, LARGE};
use second::memory::{Mapping, Partition};
use second::tree::tree;

pub const MOST_DEPTH: usize = 8;
const MOST_THREES: usize = 10;
/// About as many pages as the partitions of one chain can use.
const CHAIN: usize = 256;
/// More pages than there can be.
const ALL: usize = usize::MAX;

/// A tree, and the calls that are measured on it.
pub struct Scenario {
    pub name: &'static str,
    pub edition: Edition,
    /// Of the calls that built it and those made on it the last of each number, mostly on the whole tree.
    passing: Vec<Step>,
    /// Calls that are refused after the judgement.
    pub refused: Vec<Step>,
    /// A call for each of builder::WAYS, on the whole tree; none where the caller or its child has no slot page.
    pub ways: Vec<Step>,
    /// The memory when the tree was whole.
    pub whole: Vec<u32>,
}

impl Scenario {
    pub fn pages(&self) -> usize {
        self.whole.len() / self.edition.page_words()
    }

    /// The last child of the tree ends; without one the tree is the root alone.
    fn of(name: &'static str, mut built: Builder, child: Option<u32>) -> Scenario {
        let whole = built.memory.clone();
        let (mut refused, mut ways) = (Vec::new(), Vec::new());
        if let Some(child) = child {
            (refused, ways) = (built.refused(child), built.ways(child));
            built.finish(child);
        }
        Scenario { name, edition: built.edition, passing: built.last_calls(&whole), refused, ways, whole }
    }
}

impl Tree for Scenario {
    type Call = Call;

    fn title(&self) -> String {
        format!("{}{} {}", prefix(self.edition), self.pages(), self.name)
    }

    fn whole(&self) -> &[u32] {
        &self.whole
    }

    fn passing(&self, number: u32) -> Option<&Step> {
        numbered(&self.passing, number)
    }

    fn refused(&self, number: u32) -> Option<&Step> {
        numbered(&self.refused, number)
    }
}

/// A tree in a memory of so many pages.
pub type Recipe = fn(Edition, usize) -> Scenario;

/// How a title tells the edition.
pub fn prefix(edition: Edition) -> &'static str {
    if edition == LARGE {
        "large "
    } else {
        ""
    }
}

/// Kernel pages of a sound memory: page 0, and each page that is a partition's or a table.
pub fn kernel_pages(memory: &[u32]) -> usize {
    1 + tree(memory).iter().map(|node| node.partition.kernel_pairs(memory).len()).sum::<usize>()
}

/// Mappings of all partitions.
pub fn mappings(memory: &[u32]) -> usize {
    tree(memory).iter().map(|node| node.partition.mappings(memory).count()).sum()
}

/// The caller's mappings of the pages that it has lent to the child at this address.
pub fn lent_pages(memory: &[u32], child: u32) -> Vec<Mapping> {
    let caller = Partition::current(memory);
    let lent = |&(v, _): &(VPage, Mapping)| caller.shadow1(memory, v) == child;
    caller.mappings(memory).filter(lent).map(|(_, mapping)| mapping).collect()
}

/// One child with as many threes as there are pages for: with 16 pages none.
pub fn one_child(edition: Edition, pages: usize) -> Scenario {
    let mut built = Builder::new(edition, pages);
    let child = built.create();
    let threes = (built.left() / 3).min(MOST_THREES);
    built.prepare(child, threes);
    Scenario::of("one child", built, Some(child))
}

/// So many chains of partitions that share the root's pages, each partition with so many threes, down to the deepest level or as far as there are pages;
/// each lends on all that it has left.
fn chains(name: &'static str, mut built: Builder, chains: usize, threes: usize) -> Scenario {
    let mut last = None;
    for others in (0..chains).rev() {
        built.climb();
        let kept = built.left() * others / (others + 1);
        let mut child = built.create();
        for level in 1..MOST_DEPTH {
            let kept = if level == 1 { kept } else { 0 };
            let Some(lent @ 5..) = built.left().checked_sub(3 * threes + kept) else { break };
            built.prepare(child, threes);
            (0..lent).for_each(|k| built.lend(child, k));
            built.lend_again(child, lent - 1);
            built.enter(child, lent);
            child = built.create();
        }
        last = Some(child);
    }
    Scenario::of(name, built, last)
}

/// As many threes as fit, so that most pages are kernel pages: one chain, or several where one cannot use all pages.
pub fn deep(edition: Edition, pages: usize) -> Scenario {
    let built = Builder::new(edition, pages);
    let count = pages.div_ceil(CHAIN);
    let left = (built.left() / count).saturating_sub(5 * MOST_DEPTH);
    chains("deep", built, count, (left / (3 * (MOST_DEPTH - 1))).clamp(1, MOST_THREES))
}

/// One chain with as few threes as the lent pages need, so that there are many mappings for each kernel page.
pub fn deep_few_tables(edition: Edition, pages: usize) -> Scenario {
    let built = Builder::new(edition, pages);
    let threes = built.left().div_ceil(edition.page_words());
    chains("deep, few tables", built, 1, threes)
}

/// As many children of the root as there are pages for, each with so many threes and with a lent page at each of these places, in this order; the pages
/// are lent in turn.
fn children(name: &'static str, mut built: Builder, threes: usize, places: &[usize]) -> Scenario {
    let mut all = Vec::new();
    while built.left() >= 5 + 3 * threes + (all.len() + 1) * places.len() {
        let child = built.create();
        built.prepare(child, threes);
        all.push(child);
    }
    for &k in places {
        all.iter().for_each(|&child| built.lend(child, k));
        all.last().into_iter().for_each(|&child| built.lend_again(child, k));
    }
    Scenario::of(name, built, all.last().copied())
}

/// One three and one lent page each.
pub fn broad(edition: Edition, pages: usize) -> Scenario {
    children("broad", Builder::new(edition, pages), 1, &[0])
}

/// One three each, and twenty lent pages.
pub fn broad_few_tables(edition: Edition, pages: usize) -> Scenario {
    children("broad, few tables", Builder::new(edition, pages), 1, &Vec::from_iter(0..20))
}

/// One three each, and two lent pages that are mapped in falling order: the judge then counts what is lent to each child.
pub fn broad_falling(edition: Edition, pages: usize) -> Scenario {
    children("broad, falling", Builder::new(edition, pages), 1, &[1, 0])
}

/// One three and a slot page each.
pub fn broad_slots(edition: Edition, pages: usize) -> Scenario {
    let built = Builder::with_slots(edition, pages);
    let slot_page = built.slot_page();
    children("broad, slot pages", built, 1, &[slot_page])
}

/// Children without tables.
pub fn bare(edition: Edition, pages: usize) -> Scenario {
    children("bare", Builder::new(edition, pages), 0, &[])
}

/// A chain down to this level, one three each, on which every call is made: the parent of the last partition is the caller, and has lent it a page, its slot
/// page; the caller has one, too. Where the root is alone it is the caller, and has no child to name.
pub fn down_to(level: usize, edition: Edition, pages: usize) -> Scenario {
    let mut built = Builder::with_slots(edition, pages);
    let slot_page = built.slot_page();
    for above in (1..level).rev() {
        let child = built.create();
        built.prepare(child, 1);
        if above == 1 {
            built.lend(child, slot_page);
        }
        let lent = built.left().min(slot_page);
        (0..lent).for_each(|k| built.lend(child, k));
        built.enter(child, lent);
    }
    let name = "down to a level";
    if level == 0 {
        let (whole, refused) = (built.memory.clone(), built.refused(built.nowhere()));
        built.access();
        built.create();
        return Scenario { name, edition, passing: built.last_calls(&whole), refused, ways: Vec::new(), whole };
    }
    let child = built.create();
    built.prepare(child, 1);
    built.lend(child, slot_page);
    built.lend_again(child, slot_page);
    built.create();
    Scenario::of(name, built, Some(child))
}

/// Children to which the caller, their parent, has lent all that it had left.
pub const LENT: [Recipe; 5] = [lent, lent_deep, lent_deep_read_alone, lent_used_below, lent_deep_used_below];

/// By the root.
fn lent(edition: Edition, pages: usize) -> Scenario {
    all_lent("lent by the root", caller_at(0, edition, pages), ALL)
}

/// By a caller whose child is at the deepest level.
fn lent_deep(edition: Edition, pages: usize) -> Scenario {
    all_lent("lent deep", caller_at(MOST_DEPTH - 1, edition, pages), ALL)
}

/// The same, but the caller has write only on the pages that it takes for the child, and read alone on those that it lends.
fn lent_deep_read_alone(edition: Edition, pages: usize) -> Scenario {
    let mut built = caller_at(MOST_DEPTH - 2, edition, pages);
    let caller = child_for_rest(&mut built);
    let taken = 5 + 3 * threes_for(edition, built.left() - 5);
    let lent = built.lend_rest(caller, taken);
    built.enter(caller, lent);
    all_lent("lent deep, read alone", built, 0)
}

/// By the root, and the child has made of them as many children of its own as it could, so that nearly all are kernel pages.
fn lent_used_below(edition: Edition, pages: usize) -> Scenario {
    used_below("lent by the root, used below", caller_at(0, edition, pages))
}

/// The same by a caller whose grandchildren are at the deepest level.
fn lent_deep_used_below(edition: Edition, pages: usize) -> Scenario {
    used_below("lent deep, used below", caller_at(MOST_DEPTH - 2, edition, pages))
}

/// The caller is at this level, and has all that the partitions above it could lend on. Each page in hand has a word that is not 0.
fn caller_at(level: usize, edition: Edition, pages: usize) -> Builder {
    let mut built = Builder::new(edition, pages);
    built.write();
    for _ in 0..level {
        let child = child_for_rest(&mut built);
        let lent = built.lend_rest(child, ALL);
        built.enter(child, lent);
    }
    built
}

/// A child with as few threes as it needs for all that is left.
fn child_for_rest(built: &mut Builder) -> u32 {
    let child = built.create();
    built.prepare(child, threes_for(built.edition, built.left()));
    child
}

/// As few as are enough to lend what is left of so many pages when the threes are taken.
fn threes_for(edition: Edition, pages: usize) -> usize {
    pages.div_ceil(edition.page_words() + 3)
}

/// The child has so many of the pages with write.
fn all_lent(name: &'static str, mut built: Builder, writable: usize) -> Scenario {
    let child = child_for_rest(&mut built);
    built.lend_rest(child, writable);
    Scenario::of(name, built, Some(child))
}

fn used_below(name: &'static str, mut built: Builder) -> Scenario {
    let child = child_for_rest(&mut built);
    let lent = built.lend_rest(child, ALL);
    built.enter(child, lent);
    while built.left() >= 5 {
        built.create();
    }
    built.leave();
    Scenario::of(name, built, Some(child))
}
