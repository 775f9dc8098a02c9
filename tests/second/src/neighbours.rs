//! What a partition B is shown of a memory, and when two memories show it the same (document 02, L11).

use crate::geometry::*;
use crate::memory::*;
use crate::sound::sound;
use crate::tree::{tree, Node};

/// The tree around a partition B.
pub struct Around {
    pub nodes: Vec<Node>,
    /// B's place in the tree.
    pub place: usize,
    /// By place in the tree: B, or below it.
    pub within: Vec<bool>,
    /// By page: a kernel page of B or of a partition below it, or mapped in B, accessible or not. The header is none of them.
    pub shown: Vec<bool>,
}

impl Around {
    /// None where no partition of the tree has this descriptor.
    pub fn of(mem: &[u32], descriptor: PPage) -> Option<Around> {
        let nodes = tree(mem);
        let place = nodes.iter().position(|node| node.partition.descriptor == descriptor)?;
        let mut within = vec![false; nodes.len()];
        for (own, node) in nodes.iter().enumerate() {
            // A parent stands before its children.
            within[own] = own == place || node.parent.is_some_and(|(above, _)| within[above]);
        }
        let mut shown = vec![false; mem.len() / Edition::of(mem).page_words()];
        let family = nodes.iter().zip(&within).filter(|(_, &within)| within);
        let kernel = family.flat_map(|(node, _)| node.partition.kernel_pairs(mem)).map(|pair| pair.1);
        for page in kernel.chain(nodes[place].mappings.iter().map(|(_, mapping)| mapping.page)) {
            if let Some(shown) = shown.get_mut(page.0 as usize) {
                *shown = true;
            }
        }
        Some(Around { nodes, place, within, shown })
    }

    /// Around the current partition.
    pub fn current(mem: &[u32]) -> Option<Around> {
        Around::of(mem, Partition::current(mem).descriptor)
    }

    pub fn own(&self) -> &Node {
        &self.nodes[self.place]
    }

    /// B's parent, the parent's parent and so on; the root is last.
    pub fn ancestors(&self) -> impl Iterator<Item = &Node> {
        let above = |node: &&Node| Some(&self.nodes[node.parent?.0]);
        std::iter::successors(Some(self.own()), above).skip(1)
    }

    /// A page that B maps, as its ancestors have it: address and mapping, the parent's first.
    pub fn lenders(&self, mem: &[u32], v: VPage) -> Vec<(VPage, Mapping)> {
        let (mut below, mut at, mut lenders) = (self.own(), v, Vec::new());
        for node in self.ancestors() {
            at = VPage::of(Edition::of(mem), below.partition.shadow2(mem, at));
            lenders.extend(node.partition.mapping(mem, at).map(|mapping| (at, mapping)));
            below = node;
        }
        lenders
    }

    /// The other children of B's parent.
    pub fn siblings(&self) -> impl Iterator<Item = &Node> {
        let parent = self.own().parent.map(|parent| parent.0);
        let same = move |node: &&Node| node.parent.map(|parent| parent.0) == parent;
        self.nodes.iter().filter(same).filter(|node| node.partition != self.own().partition)
    }

    /// The partitions that are neither B nor below it, the root first.
    pub fn others(&self) -> impl Iterator<Item = &Node> {
        self.nodes.iter().zip(&self.within).filter(|(_, &within)| !within).map(|(node, _)| node)
    }

    /// Whether B or a partition below it is current.
    pub fn is_current(&self, mem: &[u32]) -> bool {
        let current = Partition::current(mem).descriptor;
        self.nodes.iter().zip(&self.within).any(|(node, &within)| within && node.partition.descriptor == current)
    }
}

/// The first word that differs between two memories of the same length, on pages that are shown or on pages that are not.
pub fn first_difference(one: &[u32], other: &[u32], shown: &[bool], kind: bool) -> Option<usize> {
    differences(one, other, shown, kind).next()
}

/// All of them.
pub fn differences<'a>(
    one: &'a [u32],
    other: &'a [u32],
    shown: &'a [bool],
    kind: bool,
) -> impl Iterator<Item = usize> + 'a {
    let words = Edition::of(one).page_words();
    let pages = one.chunks(words).zip(other.chunks(words)).zip(shown).enumerate();
    let unequal = pages.filter(move |(_, ((one, other), &shown))| shown == kind && one != other);
    unequal.flat_map(move |(page, ((one, other), _))| {
        (0..words).filter(move |&i| one[i] != other[i]).map(move |i| page * words + i)
    })
}

/// The premises of L11, B being current in both; or the first that fails.
pub fn alike(one: &[u32], other: &[u32]) -> Result<Around, &'static str> {
    let require = |holds: bool, premise| if holds { Ok(()) } else { Err(premise) };
    require(sound(one).is_ok() && sound(other).is_ok(), "both are sound")?;
    require(Edition::of(one) == Edition::of(other), "the same edition")?;
    require(one.len() == other.len(), "the same page count")?;
    let own = Partition::current(one).descriptor;
    require(own == Partition::current(other).descriptor, "the same partition is current")?;
    let around = Around::of(one, own).ok_or("current is in the tree")?;
    let around_other = Around::of(other, own).ok_or("current is in the tree")?;
    require(around.own().depth == around_other.own().depth, "the same depth")?;
    require(first_difference(one, other, &around.shown, true).is_none(), "equal in every word that is shown")?;
    assert_eq!(around.shown, around_other.shown, "the words that are shown tell which pages are");
    Ok(around)
}
