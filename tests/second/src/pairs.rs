//! Makers of pairs of memories that show B the same and differ in all else that may (document 02, L11).

use crate::calls::{call, format};
use crate::contexts::{slot_page, slot_word, TO_CHILD, VALID};
use crate::geometry::*;
use crate::make::{grow, guide_but, Work};
use crate::memory::*;
use crate::neighbours::Around;
use crate::places::elsewhere;
use crate::random::Random;
use crate::tree::tree;

/// What differs between the memories of a pair.
#[derive(Clone, Copy, PartialEq, Eq, Debug)]
pub enum Kind {
    /// Words of pages in the hands of partitions that are neither B nor below it, and their live flags.
    Words,
    /// What these partitions did: siblings of B made and ended, tables, pages lent and with which rights.
    Calls,
    /// Their rights, on the pages that B maps too.
    Rights,
    /// Their pages and addresses.
    Places,
    /// All of these.
    All,
}

pub const KINDS: [Kind; 5] = [Kind::Words, Kind::Calls, Kind::Rights, Kind::Places, Kind::All];

/// Guided calls of the partitions above B and beside it, or of B and those below it.
const CALLS: usize = 40;

impl Kind {
    fn has(self, kind: Kind) -> bool {
        self == kind || self == Kind::All
    }

    /// A pair from a sound memory whose current partition is B. With B the root both are equal.
    pub fn pair(self, mem: &[u32], random: &mut Random) -> [Vec<u32>; 2] {
        let mut pair = [mem.to_vec(), mem.to_vec()];
        if self.has(Kind::Calls) {
            pair.iter_mut().for_each(|mem| calls_outside(mem, random));
        }
        let other = &mut pair[1];
        let Some(around) = Around::current(other).filter(|around| around.place != 0) else { return pair };
        if self.has(Kind::Rights) {
            other_rights(other, &around, random);
        }
        if self.has(Kind::Words) {
            other_words(other, &around, random);
        }
        if self.has(Kind::Places) {
            *other = elsewhere(other, &around, random);
        }
        pair
    }
}

/// A memory from format by guided calls, with B current, so deep where the pages last. The partitions above B keep pages and have other children; B has
/// children, tables and pages of its own.
pub fn grown(edition: Edition, pages: usize, depth: usize, random: &mut Random) -> Vec<u32> {
    let mut mem = vec![0; pages * edition.page_words()];
    let _ = format(&mut mem, edition.number);
    grow(&mut mem, random, depth);
    calls_outside(&mut mem, random);
    calls_within(&mut mem, random, &[Work::Calls(CALLS)]);
    mem
}

/// Makes any partition of the tree current, now and then the root.
pub fn enter_any(mem: &mut [u32], random: &mut Random) {
    let descriptors: Vec<_> = tree(mem).iter().map(|node| node.partition.descriptor).collect();
    if let Some(descriptor) = random.pick(&descriptors) {
        make_current(mem, descriptor);
    }
}

/// As enter and leave do, one after the other.
fn make_current(mem: &mut [u32], descriptor: PPage) {
    set_word(mem, HEADER, CURRENT, descriptor.address(Edition::of(mem)));
}

/// Performs guided calls of B, which is current, and of partitions below it, and leaves up to B again; no other partition becomes current. The calls.
pub fn calls_within(mem: &mut [u32], random: &mut Random, works: &[Work]) -> Vec<Vec<u32>> {
    let (own, mut lines) = (Partition::current(mem).descriptor, Vec::new());
    let is_own = |mem: &[u32]| Partition::current(mem).descriptor == own;
    let leaves = |mem: &[u32], line: &[u32]| match *line {
        [0, ..] => true,
        [10] => is_own(mem) && own != ROOT_PAGE,
        [13..=15, 0, ..] => own != ROOT_PAGE && leads_out(mem, own, line),
        _ => false,
    };
    for &work in works {
        guide_but(mem, random, work, &leaves, |line, _, _| lines.push(line.to_vec()));
    }
    while !is_own(mem) && call(mem, 10, &[]).is_some_and(|answer| answer.is_ok()) {
        lines.push(vec![10]);
    }
    lines
}

/// Whether a call makes a partition current that is neither B nor below it.
fn leads_out(mem: &[u32], own: PPage, line: &[u32]) -> bool {
    let mut after = mem.to_vec();
    let passes = call(&mut after, line[0], &line[1..]).is_some_and(|answer| answer.is_ok());
    passes && Around::of(&after, own).is_none_or(|around| !around.is_current(&after))
}

/// Performs guided calls of partitions above B, which is current, and beside it, but for those that change a word that is shown to B or that enter it.
fn calls_outside(mem: &mut [u32], random: &mut Random) {
    let Some(around) = Around::current(mem) else { return };
    let own = around.own().partition.descriptor;
    let above: Vec<_> = around.ancestors().map(|node| node.partition.descriptor).collect();
    let left_out = |mem: &[u32], line: &[u32]| {
        let (caller, edition) = (Partition::current(mem), Edition::of(mem));
        let page = |address| caller.mapping(mem, VPage::of(edition, address)).map(|mapping| mapping.page);
        match *line {
            [0, ..] => true,
            // The end of a partition above B is B's end.
            [2, child] => page(child).is_some_and(|page| page == own || above.contains(&page)),
            [3, _, child, ..] | [4 | 6 | 7 | 9 | 13..=15, child, ..] => page(child) == Some(own),
            [12, address, _] => page(address).is_some_and(|page| around.shown[page.0 as usize]),
            _ => false,
        }
    };
    // The parent first, for B's siblings.
    for caller in above.first().copied().into_iter().chain(random.pick(&above)) {
        make_current(mem, caller);
        for work in [Work::Dig, Work::Talk] {
            if random.once_in(2) {
                guide_but(mem, random, work, &left_out, |_, _, _| ());
            }
        }
        guide_but(mem, random, Work::Calls(CALLS / 2), &left_out, |_, _, _| ());
    }
    make_current(mem, own);
}

/// Random words, and words like the kernel's; any flags, and slots that are valid or not.
fn other_words(mem: &mut [u32], around: &Around, random: &mut Random) {
    let (tables, edition) = (mem.to_vec(), Edition::of(mem));
    let pages = mem.len() / edition.page_words();
    for node in around.others() {
        if edition == SMALL {
            set_word(mem, node.partition.descriptor, FLAG, random.below(2) as u32);
        }
        for &(_, mapping) in node.mappings.iter().filter(|&&(v, _)| node.partition.in_hand(&tables, v)) {
            for word in words_of_mut(mem, mapping.page) {
                let any = random.draw() as u32;
                let address = PPage(any % pages as u32).address(edition);
                *word = random.pick(&[0, 1, any, any, address, address + any % 32]).unwrap_or(any);
            }
        }
        if let (SMALL, Ok(page)) = (edition, slot_page(&tables, &node.partition)) {
            set_word(mem, page, slot_word(TO_CHILD, VALID), random.below(3) as u32);
        }
    }
}

/// Any rights below the root that hold what B holds of the page, and that the parent's hold; never write and execute together.
fn other_rights(mem: &mut [u32], around: &Around, random: &mut Random) {
    let edition = Edition::of(mem);
    let mut held = vec![0; around.shown.len()];
    around.own().mappings.iter().for_each(|(_, m)| held[m.page.0 as usize] = m.rights);
    // A parent's mappings are changed before its children's.
    for node in around.others() {
        let Some((parent, _)) = node.parent else { continue };
        for &(v, mapping) in &node.mappings {
            let lender = VPage::of(edition, node.partition.shadow2(mem, v));
            let most = around.nodes[parent].partition.mapping(mem, lender).map_or(0, |m| m.rights);
            let least = held[mapping.page.0 as usize];
            let mut rights = least | most & random.below(8) as u32;
            if rights & WRITE_EXECUTE == WRITE_EXECUTE {
                let kept = if least & WRITE_EXECUTE != 0 { least } else { random.pick(&[WRITE, EXECUTE]).unwrap_or(0) };
                rights = rights & READ | kept;
            }
            set_table_word(mem, node.partition.directory, v, Mapping { rights, ..mapping }.encode(edition));
        }
    }
}
