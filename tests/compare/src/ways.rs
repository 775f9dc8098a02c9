//! Ways to an answer that the table of calls and answers does not tell apart.

use second::calls::{follow_chain, Answer};
use second::geometry::*;
use second::memory::{named_page, word, words_of, Mapping, Partition, IS_CHILD};
use second::refusal::*;
use second::sound::{is_lent, sound};
use second::tree::tree;
use std::fmt;

/// A call, its answer and the memory before it.
struct Look<'a> {
    mem: &'a [u32],
    edition: Edition,
    line: &'a [u32],
    answer: Answer,
    caller: Partition,
    /// Child and answer of the call before, if that was a collect from ten threes.
    collected: Option<[u32; 2]>,
}

/// A page that is lent to a child which is deleted, or that serves it as a kernel page: as the caller has it, and the child where it is lent.
struct Returned {
    own: Mapping,
    lent: Option<Mapping>,
    lent_on: bool,
    has_words: bool,
}

type Way = (&'static str, fn(&Look) -> bool);

/// With large pages no address is too large.
const TOO_LARGE: &str = "any call no 3: 2^20 or above";

const WAYS: [Way; 55] = [
    ("format ok: over a sound memory of the other edition", |l| {
        l.ok(0) && l.line[1] != l.edition.number && sound(l.mem).is_ok()
    }),
    ("format no 2: a length of the other edition", |l| {
        l.no(0, SIZE) && l.line[1] < 2 && Sizes::of_length(EDITIONS[1 - l.line[1] as usize], l.mem.len()).is_some()
    }),
    (TOO_LARGE, |l| l.address(|address| u64::from(address) >= l.edition.virtual_end())),
    ("any call no 3: on page 0", |l| l.address(|address| address < l.edition.page_bytes())),
    ("any call no 3: not a multiple", |l| l.address(|address| address % l.multiple() != 0)),
    ("createPartition ok: the child is 8 below the root", |l| l.ok(1) && l.depth() == MOST_DEPTH - 1),
    ("createPartition ok: the last virtual page", |l| l.ok(1) && l.line[1..].contains(&l.last())),
    ("deletePartition ok: the child has children", |l| {
        l.ok(2) && l.child().is_some_and(|c| children(l.mem, &c).next().is_some())
    }),
    ("deletePartition ok: a lent page with words that the caller may write", |l| {
        l.returns(|page| page.in_use() && page.writable())
    }),
    ("deletePartition ok: a lent page with words that the caller may not write", |l| {
        l.returns(|page| page.in_use() && !page.writable())
    }),
    ("deletePartition ok: a lent page with words that the child may not write and the caller may", |l| {
        l.returns(|page| page.in_use() && page.writable() && page.lent.is_some_and(|m| !may_write(m)))
    }),
    ("deletePartition ok: a page with words lent on to a grandchild, that the caller may write", |l| {
        l.returns(|page| page.in_use() && page.lent_on && page.writable())
    }),
    ("deletePartition ok: a page with words lent on to a grandchild, that the caller may not write", |l| {
        l.returns(|page| page.in_use() && page.lent_on && !page.writable())
    }),
    ("deletePartition ok: a page that serves a grandchild as a kernel page", |l| {
        l.returns(|page| page.serves_below() && !page.lent_on)
    }),
    ("deletePartition ok: a page that serves a partition below a grandchild as a kernel page", |l| {
        l.returns(|page| page.serves_below() && page.lent_on)
    }),
    ("deletePartition ok: a kernel page of the child that the caller may not write", |l| {
        l.returns(|page| page.lent.is_none() && page.has_words && !page.writable())
    }),
    ("deletePartition ok: a kernel page below the child that the caller may not write", |l| {
        l.returns(|page| page.serves_below() && !page.writable())
    }),
    ("addVAddr no 6: a number above 7", |l| l.no(3, RIGHTS) && l.line[4] > ALL_RIGHTS),
    ("addVAddr no 6: rights 6", |l| l.no(3, RIGHTS) && l.line[4] == WRITE_EXECUTE),
    ("addVAddr no 6: rights 7", |l| l.no(3, RIGHTS) && l.line[4] == ALL_RIGHTS),
    ("addVAddr no 6: rights 6 or 7, and no child there", |l| {
        l.no(3, RIGHTS) && (WRITE_EXECUTE..=ALL_RIGHTS).contains(&l.line[4]) && !l.is_child(l.line[2])
    }),
    ("addVAddr no 6: a right not held", |l| l.no(3, RIGHTS) && l.line[4] < WRITE_EXECUTE),
    ("addVAddr ok: at the last virtual page", |l| l.ok(3) && l.line[3] == l.last()),
    ("removeVAddr no 7: lent on by the child", |l| l.no(4, HAND) && l.target().is_some_and(|m| m.accessible)),
    ("removeVAddr no 7: taken by the child", |l| l.no(4, HAND) && l.target().is_some_and(|m| !m.accessible)),
    ("removeVAddr ok: a page with words", |l| l.ok(4) && l.target().is_some_and(|m| has_words(l.mem, m.page))),
    ("prepare ok: the last directory index", |l| l.ok(6) && l.line[2] >= l.last_table()),
    ("prepare ok: the last virtual page as a link", |l| l.ok(6) && l.line[3] != l.last() && l.links_last()),
    ("prepare ok: the tenth three", |l| l.ok(6) && l.threes() == MOST_THREES - 1),
    ("prepare ok: room and chain of the collect just before", |l| {
        l.ok(6) && l.collected == Some([l.line[1], l.line[3]])
    }),
    ("prepare no 7: first page", |l| l.stops(HAND, 0)),
    ("prepare no 7: second page", |l| l.stops(HAND, 1)),
    ("prepare no 7: third page", |l| l.stops(HAND, 2)),
    ("prepare no 6: first page", |l| l.stops(RIGHTS, 0)),
    ("prepare no 6: second page", |l| l.stops(RIGHTS, 1)),
    ("prepare no 6: third page", |l| l.stops(RIGHTS, 2)),
    ("prepare no 11: no address for the second page", |l| l.stops(CHAIN, 1) && !l.again()),
    ("prepare no 11: no address for the third page", |l| l.stops(CHAIN, 2) && !l.again()),
    ("prepare no 11: a page again", |l| l.no(6, CHAIN) && !l.stops(CHAIN, 3) && l.again()),
    ("prepare no 11: chain too long", |l| l.stops(CHAIN, 3)),
    ("collect ok: a table that the caller may not write", |l| l.collects_unwritable()),
    ("mappedInChild ok: 0 for a page in hand", |l| l.ok(8) && l.answer == Ok(0)),
    ("mappedInChild ok: a lent page in the child's hand", |l| l.lent() == Some([true, false])),
    ("mappedInChild ok: a lent page that the child took", |l| l.lent() == Some([false, false])),
    ("mappedInChild ok: a page lent on to a grandchild", |l| l.lent() == Some([true, true])),
    ("mappedInChild ok: a page lent on to a grandchild and taken there", |l| l.lent() == Some([false, true])),
    ("mappedInChild no 16: a child's descriptor", |l| l.serves(0)),
    ("mappedInChild no 16: a child's directory", |l| l.serves(1)),
    ("mappedInChild no 16: a child's shadow 1", |l| l.serves(2)),
    ("mappedInChild no 16: a child's shadow 2", |l| l.serves(3)),
    ("mappedInChild no 16: a child's list", |l| l.serves(4)),
    ("mappedInChild no 16: a child's page table", |l| l.serves(5)),
    ("mappedInChild no 16: a child's shadow 1 table", |l| l.serves(6)),
    ("mappedInChild no 16: a child's shadow 2 table", |l| l.serves(7)),
    ("load or store ok: on the last virtual page", |l| (l.ok(11) || l.ok(12)) && l.line[1] >= l.last()),
];

impl Look<'_> {
    fn ok(&self, number: u32) -> bool {
        self.line[0] == number && self.answer.is_ok()
    }

    fn no(&self, number: u32, refusal: u32) -> bool {
        self.line[0] == number && self.answer == Err(refusal)
    }

    /// Refused as an address, with such an address among the arguments; rights, slots and words to be saved or stored are none.
    fn address(&self, bad: impl Fn(u32) -> bool) -> bool {
        let addresses = match self.line {
            [13..=15, target, ..] => std::slice::from_ref(target),
            [3, addresses @ .., _] | [12, addresses @ .., _] | [_, addresses @ ..] => addresses,
            [] => &[],
        };
        self.answer == Err(ADDRESS) && addresses.iter().any(|&address| bad(address))
    }

    fn multiple(&self) -> u32 {
        if matches!(self.line[0], 11 | 12) {
            4
        } else {
            self.edition.page_bytes()
        }
    }

    /// The address of the last virtual page.
    fn last(&self) -> u32 {
        VPage(self.edition.virtual_pages() - 1).address(self.edition)
    }

    /// The first address of the last directory index.
    fn last_table(&self) -> u32 {
        VPage::at(self.edition, self.edition.page_words() - 1, 0).address(self.edition)
    }

    fn depth(&self) -> usize {
        tree(self.mem).iter().find(|node| node.partition == self.caller).map_or(0, |node| node.depth)
    }

    /// The child that the first argument names.
    fn child(&self) -> Option<Partition> {
        self.child_at(self.line[1])
    }

    fn child_at(&self, address: u32) -> Option<Partition> {
        let mapping = self.caller.mapping(self.mem, VPage::of(self.edition, address))?;
        Some(Partition::at(self.mem, mapping.page))
    }

    fn is_child(&self, address: u32) -> bool {
        self.caller.shadow1(self.mem, VPage::of(self.edition, address)) == IS_CHILD
    }

    fn threes(&self) -> usize {
        self.child().map_or(0, |child| child.three_count(self.mem))
    }

    /// What the child has at the second argument.
    fn target(&self) -> Option<Mapping> {
        self.child()?.mapping(self.mem, VPage::of(self.edition, self.line[2]))
    }

    /// Delete passes, and such a page comes back by it.
    fn returns(&self, such: impl Fn(&Returned) -> bool) -> bool {
        self.ok(2) && self.child().is_some_and(|child| self.returned(&child).iter().any(such))
    }

    /// The kernel pages of the child, then the pages lent to it: on sound memory it maps each of these once.
    fn returned(&self, child: &Partition) -> Vec<Returned> {
        let page = |v: VPage, lent: Option<(VPage, Mapping)>| {
            let own = self.caller.mapping(self.mem, v)?;
            let lent_on = lent.is_some_and(|(at, _)| is_lent(child.shadow1(self.mem, at)));
            Some(Returned { own, lent: lent.map(|lent| lent.1), lent_on, has_words: has_words(self.mem, own.page) })
        };
        let kernel = child.kernel_pairs(self.mem).into_iter().map(|pair| (pair.0, None));
        let above = |at| VPage::of(self.edition, child.shadow2(self.mem, at));
        let lent = child.mappings(self.mem).map(|(at, mapping)| (above(at), Some((at, mapping))));
        kernel.chain(lent).filter_map(|(v, lent)| page(v, lent)).collect()
    }

    /// Collect passes, and the caller may not write one of the three tables.
    fn collects_unwritable(&self) -> bool {
        let of = |child: Partition| {
            let index = VPage::of(self.edition, self.line[2]).directory_index(self.edition);
            let tables = child.roots().map(|root| named_page(self.mem, root, index));
            let mut three = child.list_pairs(self.mem).into_iter().filter(|pair| tables.contains(&pair.1));
            three.any(|(v, _)| self.caller.mapping(self.mem, v).is_some_and(|own| !may_write(own)))
        };
        self.ok(7) && self.child().is_some_and(of)
    }

    /// Prepare is refused so after so many pages of its chain have passed.
    fn stops(&self, refusal: u32, pages: usize) -> bool {
        self.no(6, refusal) && self.chain().len() == pages
    }

    /// The pages of prepare's chain that pass.
    fn chain(&self) -> Vec<(VPage, PPage)> {
        let mut chain = Vec::new();
        let _ = follow_chain(self.mem, &self.caller, self.line[3], &mut chain);
        chain
    }

    /// Whether the link behind them names one of them.
    fn again(&self) -> bool {
        let chain = self.chain();
        let link = chain.last().map_or(0, |&(_, page)| word(self.mem, page, 0));
        chain.iter().any(|(v, _)| v.address(self.edition) == link)
    }

    /// Whether the last virtual page is in prepare's chain.
    fn links_last(&self) -> bool {
        self.chain().iter().any(|(v, _)| v.address(self.edition) == self.last())
    }

    /// Mapped in child answers a child: whether that has the page accessible, and whether it has lent it on.
    fn lent(&self) -> Option<[bool; 2]> {
        let at = self.answer.ok().filter(|&at| self.line[0] == 8 && at != 0)?;
        let child = self.child_at(at)?;
        let (v, mapping) = child.mappings(self.mem).find(|&(v, _)| child.shadow2(self.mem, v) == self.line[1])?;
        Some([mapping.accessible, is_lent(child.shadow1(self.mem, v))])
    }

    /// Mapped in child is refused for a kernel page of a child, of this kind: its five pages in order, then the three tables.
    fn serves(&self, kind: usize) -> bool {
        let is_it = |(place, (v, _)): (usize, (VPage, PPage))| {
            v.address(self.edition) == self.line[1] && kind == if place < 5 { place } else { 5 + (place - 5) % 3 }
        };
        let of = |child: Partition| child.kernel_pairs(self.mem).into_iter().enumerate().any(is_it);
        self.no(8, KERNEL) && children(self.mem, &self.caller).any(of)
    }
}

impl Returned {
    /// Lent and no kernel page, with words.
    fn in_use(&self) -> bool {
        self.lent.is_some() && self.own.accessible && self.has_words
    }

    /// A kernel page with words, of a partition below the child.
    fn serves_below(&self) -> bool {
        self.lent.is_some() && !self.own.accessible && self.has_words
    }

    fn writable(&self) -> bool {
        may_write(self.own)
    }
}

fn may_write(mapping: Mapping) -> bool {
    mapping.rights & WRITE != 0
}

fn has_words(mem: &[u32], page: PPage) -> bool {
    words_of(mem, page).iter().any(|&word| word != 0)
}

fn children<'a>(mem: &'a [u32], partition: &'a Partition) -> impl Iterator<Item = Partition> + 'a {
    let at = partition.mappings(mem).filter(|&(v, _)| partition.shadow1(mem, v) == IS_CHILD);
    at.map(|(_, mapping)| Partition::at(mem, mapping.page))
}

pub struct Ways {
    /// By the memory's edition; format's by the one that it is to choose.
    counts: [[u64; WAYS.len()]; EDITIONS.len()],
    collected: Option<[u32; 2]>,
}

impl Default for Ways {
    fn default() -> Ways {
        Ways { counts: [[0; WAYS.len()]; EDITIONS.len()], collected: None }
    }
}

impl Ways {
    /// Counts a call with its answer, given the memory before it.
    pub fn count(&mut self, mem: &[u32], line: &[u32], answer: Answer) {
        let collected = self.collected.take();
        let edition = Edition::of(mem);
        let counts = match *line {
            [0, choice] => self.counts.get_mut(choice as usize),
            _ => self.counts.get_mut(edition.number as usize),
        };
        let Some(counts) = counts.filter(|_| answer != Err(DAMAGED)) else { return };
        let look = Look { mem, edition, line, answer, caller: Partition::current(mem), collected };
        for (count, (_, holds)) in counts.iter_mut().zip(WAYS) {
            *count += u64::from(holds(&look));
        }
        if let (&[7, child, _], Ok(first)) = (line, answer) {
            self.collected = (look.threes() == MOST_THREES).then_some([child, first]);
        }
    }

    pub fn add(&mut self, other: &Ways) {
        for (own, other) in self.counts.iter_mut().flatten().zip(other.counts.iter().flatten()) {
            *own += other;
        }
    }

    /// Each way with how often it was met, by edition.
    fn each(&self) -> impl Iterator<Item = (&'static str, [u64; EDITIONS.len()])> + '_ {
        WAYS.iter().enumerate().map(|(place, way)| (way.0, self.counts.map(|counts| counts[place])))
    }

    /// What was not met.
    pub fn missing(&self) -> Vec<String> {
        let all = self.each().flat_map(|(name, counts)| EDITIONS.map(|edition| (name, edition, counts)));
        let not_met = all.filter(|&(name, edition, counts)| {
            counts[edition.number as usize] == 0 && (name, edition) != (TOO_LARGE, LARGE)
        });
        not_met.map(|(name, edition, _)| format!("edition {}: {name}", edition.number)).collect()
    }
}

impl fmt::Display for Ways {
    fn fmt(&self, f: &mut fmt::Formatter) -> fmt::Result {
        writeln!(f, "edition 0        1")?;
        self.each().try_for_each(|(name, [small, large])| writeln!(f, "{small:9}{large:9}  {name}"))
    }
}
