//! What differs between two memories that show a partition B the same, and what a call meets there that the table of calls and answers does not tell.

use second::calls::Answer;
use second::contexts::slot_page;
use second::geometry::*;
use second::memory::{word, words_of, Mapping, Partition, ACCESSIBLE, FLAG, ROOT_PAGE};
use second::neighbours::{differences, Around};
use second::refusal::*;

/// The two memories of a pair, and the tree around B in each.
pub struct Two<'a> {
    pub mem: [&'a [u32]; 2],
    pub around: [&'a Around; 2],
}

/// A call in both, with its answers; in which of them B is left by it.
pub struct Call<'a> {
    pub line: &'a [u32],
    pub answers: [Answer; 2],
    pub before: Two<'a>,
    pub after: [&'a [u32]; 2],
    pub leaves: [bool; 2],
}

type Start = (&'static str, fn(&Two) -> bool);
type Meeting = (&'static str, fn(&Call) -> bool);

/// What differs between the two at the start.
pub const STARTS: [Start; 10] = [
    ("differs: how many siblings B has", |t| t.differs(|_, around| around.siblings().count())),
    ("differs: the parent's right on a page that B maps", |t| t.lent(|above| above.first().map(|(_, m)| m.rights))),
    ("differs: a right above the parent on a page that B maps", |t| {
        t.lent(|above| above.iter().skip(1).map(|(_, m)| m.rights).collect::<Vec<_>>())
    }),
    ("differs: an address above the parent of a page that B maps", |t| {
        t.lent(|above| above.iter().skip(1).map(|(v, _)| *v).collect::<Vec<_>>())
    }),
    ("differs: the parent's directory", |t| t.above(0, |_, parent| parent.directory)),
    ("differs: how many tables the parent has", |t| t.above(0, |mem, parent| parent.three_count(mem))),
    ("differs: the descriptor above the parent", |t| t.above(1, |_, own| own.descriptor)),
    ("differs: how many partitions there are", |t| t.differs(|_, around| around.nodes.len())),
    ("differs: which pages are kernel pages", |t| t.differs(kernel_pages)),
    ("differs: words of a page in another's hand", |t| {
        let kernel = [0, 1].map(|k| kernel_pages(t.mem[k], t.around[k])).concat();
        let mut pages = (1..t.around[0].shown.len() as u32).map(PPage).filter(|page| !kernel.contains(page));
        pages.any(|page| words_of(t.mem[0], page) != words_of(t.mem[1], page))
    }),
];

/// What a call is, or meets.
pub const CALLS: [Meeting; 11] = [
    ("createPartition no 13: B", |c| c.no(1, DEPTH) && c.by_own()),
    ("createPartition no 13: below B", |c| c.no(1, DEPTH) && !c.by_own()),
    ("deletePartition ok: B, a page that the parent may write in one memory only", |c| {
        c.ok(2) && c.parents_right(WRITE, |v| c.own().shadow1(c.before.mem[0], v) == c.line[1])
    }),
    ("addVAddr no 6: B, a right that the parent holds in one memory only", |c| {
        c.no(3, RIGHTS) && c.line[4] < WRITE_EXECUTE && c.parents_right(c.line[4], |v| c.is_argument(v))
    }),
    ("load or store no 6: B, a right that the parent holds in one memory only", |c| {
        c.no(11, RIGHTS) && c.parents_right(READ, |v| c.is_argument(v))
            || c.no(12, RIGHTS) && c.parents_right(WRITE, |v| c.is_argument(v))
    }),
    ("an accessible bit of an ancestor cleared", |c| c.writes_outside(|word| word & ACCESSIBLE != 0)),
    ("an accessible bit of an ancestor set", |c| c.writes_outside(|word| word & ACCESSIBLE == 0)),
    ("enter ok: a child of B", |c| c.ok(9) && c.by_own()),
    ("leave ok: a child of B", |c| c.ok(10) && !c.by_own() && c.own_follows()),
    ("leave ok: B, the last call of the run", |c| c.ok(10) && c.leaves[0]),
    ("leave no 14: B, the root", |c| c.no(10, ROOT)),
];

/// What differs at the start, with small pages alone.
pub const CONTEXT_STARTS: [Start; 2] = [
    ("differs: the flag of a partition above B", |t| t.above_flags()),
    ("differs: whether the parent's slot page is in its hand with read and write", |t| {
        t.above(0, |mem, parent| slot_page(mem, parent).is_ok())
    }),
];

/// What a call is, or meets, with small pages alone.
pub const CONTEXT_CALLS: [Meeting; 17] = [
    ("notify ok: B, to a child", |c| c.ok(13) && c.by_own() && !c.leaves[0]),
    ("notify ok: a child of B, to B", |c| c.ok(13) && !c.by_own() && c.own_follows()),
    ("notify ok: B, to its parent, the last call of the run", |c| c.ok(13) && c.leaves == [true; 2]),
    ("notify no 20: B, by its own slot page", |c| c.no(13, SLOT_PAGE) && c.by_own()),
    ("dispatch ok: B, to a child", |c| c.ok(14) && c.by_own() && !c.leaves[0]),
    ("dispatch ok: a child of B, to B", |c| c.ok(14) && !c.by_own() && c.own_follows()),
    ("dispatch ok: B, to its parent, the last call of the run", |c| c.ok(14) && c.leaves == [true; 2]),
    ("resume ok: B, of a child's slot", |c| c.ok(15) && c.by_own() && !c.leaves[0]),
    ("resume ok: a child of B, of B's slot", |c| c.ok(15) && !c.by_own() && c.own_follows()),
    ("resume no 20: a child of B, by B's slot page", |c| {
        c.no(15, SLOT_PAGE) && c.line[1] == 0 && !c.by_own() && c.parent_is_own()
    }),
    ("resume no 21: B, of its parent's slot", |c| c.no(15, SLOT) && c.by_own() && c.line[1] == 0),
    ("resume no 20: B, by its parent's slot page, in both memories", |c| {
        c.no(15, SLOT_PAGE) && c.answers[1] == Err(SLOT_PAGE) && c.by_own() && c.line[1] == 0
    }),
    ("resume no 20: B, in one memory only, and in the other B is left: the last call of the run", |c| c.parts()),
    ("resume ok: B, of its parent's slot, the last call of the run", |c| c.own_resume() && c.leaves == [true; 2]),
    ("resume ok: B, the parent in one memory and the root in the other: the last call of the run", |c| {
        c.own_resume() && c.leaves == [true; 2] && c.leads_to(0) != c.leads_to(1)
    }),
    ("resume ok: B, whose parent is not the root, and the root is current in both: the last call of the run", |c| {
        c.own_resume() && c.leaves == [true; 2] && [0, 1].iter().all(|&k| c.yields(k))
    }),
    ("resume ok: below B, and the root is current: the last call of the run", |c| {
        c.ok(15) && !c.by_own() && c.leaves == [true; 2]
    }),
];

impl Two<'_> {
    fn differs<T: PartialEq>(&self, of: impl Fn(&[u32], &Around) -> T) -> bool {
        of(self.mem[0], self.around[0]) != of(self.mem[1], self.around[1])
    }

    /// Of a page that B maps, as its ancestors have it.
    fn lent<T: PartialEq>(&self, of: impl Fn(&[(VPage, Mapping)]) -> T) -> bool {
        let mappings = &self.around[0].own().mappings;
        mappings.iter().any(|&(v, _)| self.differs(|mem, around| of(&around.lenders(mem, v))))
    }

    fn above_flags(&self) -> bool {
        let flags = |mem: &[u32], around: &Around| -> Vec<u32> {
            around.ancestors().map(|node| word(mem, node.partition.descriptor, FLAG)).collect()
        };
        self.differs(flags)
    }

    /// Of the ancestor that is so many above the parent; the root's are as format leaves them.
    fn above<T: PartialEq>(&self, levels: usize, of: impl Fn(&[u32], &Partition) -> T) -> bool {
        self.differs(|mem, around| around.ancestors().nth(levels).map(|node| of(mem, &node.partition)))
    }
}

/// In order.
fn kernel_pages(mem: &[u32], around: &Around) -> Vec<PPage> {
    let pairs = around.nodes.iter().flat_map(|node| node.partition.kernel_pairs(mem));
    let mut pages: Vec<_> = pairs.map(|pair| pair.1).collect();
    pages.sort_unstable();
    pages
}

impl Call<'_> {
    fn ok(&self, number: u32) -> bool {
        self.line[0] == number && self.answers[0].is_ok()
    }

    fn no(&self, number: u32, refusal: u32) -> bool {
        self.line[0] == number && self.answers[0] == Err(refusal)
    }

    /// B's own resume of its parent's slot: the words that decide it are not shown to B.
    pub fn own_resume(&self) -> bool {
        self.line == [15, 0, 2] && self.by_own()
    }

    /// Refused with 20 in one memory, while the other leaves B.
    fn parts(&self) -> bool {
        self.own_resume() && self.leaves[0] != self.leaves[1] && self.answers.contains(&Err(SLOT_PAGE))
    }

    fn leads_to(&self, k: usize) -> PPage {
        Partition::current(self.after[k]).descriptor
    }

    /// The root is current, and it is not B's parent.
    fn yields(&self, k: usize) -> bool {
        self.leads_to(k) == ROOT_PAGE && self.before.around[k].own().depth > 1
    }

    /// Whether B is the caller's parent.
    fn parent_is_own(&self) -> bool {
        let (mem, around) = (self.before.mem[0], self.before.around[0]);
        let caller = Partition::current(mem).descriptor;
        let node = around.nodes.iter().find(|node| node.partition.descriptor == caller);
        node.and_then(|node| node.parent).is_some_and(|(place, _)| place == around.place)
    }

    fn own(&self) -> Partition {
        self.before.around[0].own().partition
    }

    fn by_own(&self) -> bool {
        Partition::current(self.before.mem[0]) == self.own()
    }

    fn own_follows(&self) -> bool {
        Partition::current(self.after[0]) == self.own()
    }

    /// Whether the first argument is on this page.
    fn is_argument(&self, v: VPage) -> bool {
        v == VPage::of(Edition::of(self.before.mem[0]), self.line[1])
    }

    /// B is the caller, and of such a page that it maps its parent holds these rights in one memory only.
    fn parents_right(&self, rights: u32, such: impl Fn(VPage) -> bool) -> bool {
        let mut mapped = self.before.around[0].own().mappings.iter().map(|&(v, _)| v).filter(|&v| such(v));
        let holds = |lenders: &[(VPage, Mapping)]| lenders.first().is_some_and(|(_, m)| rights & !m.rights == 0);
        self.by_own() && mapped.any(|v| self.before.differs(|mem, around| holds(&around.lenders(mem, v))))
    }

    /// A word that was such is written outside of the header and the pages that are shown.
    fn writes_outside(&self, such: impl Fn(u32) -> bool) -> bool {
        let (before, shown) = (self.before.mem[0], &self.before.around[0].shown);
        let header = Edition::of(before).page_words();
        differences(before, self.after[0], shown, false).any(|index| index >= header && such(before[index]))
    }
}
