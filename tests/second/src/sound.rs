//! When memory is sound: the sentences by number, judged in order over every partition of the tree.

use crate::calls::fill_formatted;
use crate::geometry::*;
use crate::memory::*;
use crate::tree::{tree, Node};

struct Judged<'a> {
    mem: &'a [u32],
    sizes: Sizes,
    tree: Vec<Node>,
}

type Sentence = (u32, fn(&Judged) -> bool);

/// Those of document 01, of which 10 and 11 ask nothing, and that of document 02, L7.
const SENTENCES: [Sentence; 10] = [
    (1, forms),
    (2, root_as_formatted),
    (3, threes_listed_once),
    (4, children_agree),
    (5, tree_bounded),
    (6, lent_pages_match),
    (7, kernel_pages_closed),
    (8, one_use_each),
    (9, absent_words_zero),
    (12, never_write_and_execute),
];

/// Ok, or the number of the first broken sentence.
pub fn sound(mem: &[u32]) -> Result<(), u32> {
    let sizes = Sizes::of(mem).ok_or(1u32)?;
    let judged = Judged { mem, sizes, tree: tree(mem) };
    SENTENCES.iter().try_for_each(|&(number, holds)| holds(&judged).then_some(()).ok_or(number))
}

/// The numbers of all sentences.
pub fn numbers() -> impl Iterator<Item = u32> {
    SENTENCES.iter().map(|&(number, _)| number)
}

/// The numbers of all broken sentences.
pub fn broken(mem: &[u32]) -> Vec<u32> {
    let Some(sizes) = Sizes::of(mem) else { return vec![1] };
    let judged = Judged { mem, sizes, tree: tree(mem) };
    SENTENCES.iter().filter(|(_, holds)| !holds(&judged)).map(|&(number, _)| number).collect()
}

impl Judged<'_> {
    fn edition(&self) -> Edition {
        self.sizes.edition
    }

    fn each(&self, holds: impl Fn(&Partition) -> bool) -> bool {
        self.tree.iter().all(|node| holds(&node.partition))
    }

    /// Asks of each child: the child, its parent and the child's descriptor address there.
    fn each_child(&self, holds: impl Fn(&Node, &Node, u32) -> bool) -> bool {
        self.tree.iter().all(|node| match node.parent {
            Some((place, at)) => holds(node, &self.tree[place], at.address(self.edition())),
            None => true,
        })
    }

    fn is_virtual(&self, address: u32) -> bool {
        address.is_multiple_of(self.edition().page_bytes()) && u64::from(address) < self.edition().virtual_end()
    }

    fn is_physical(&self, address: u32) -> bool {
        address.is_multiple_of(self.edition().page_bytes()) && PPage::of(self.edition(), address).0 < self.sizes.pages
    }

    /// The page's words from this index on are 0.
    fn zero(&self, page: PPage, from: usize) -> bool {
        words_of(self.mem, page).iter().skip(from).all(|&word| word == 0)
    }
}

/// Neither free nor a child's descriptor.
pub fn is_lent(shadow1: u32) -> bool {
    shadow1 != 0 && shadow1 != IS_CHILD
}

// 1. Header and length, and the forms of all words.
fn forms(j: &Judged) -> bool {
    let header = |i| word(j.mem, HEADER, i);
    header(0) == j.sizes.pages
        && header(1) == j.sizes.threes
        && header(2) == ROOT_PAGE.address(j.edition())
        && header(3) == j.sizes.first_flat().address(j.edition())
        && j.is_physical(header(CURRENT))
        && j.zero(HEADER, EDITION + 1)
        && j.each(|p| descriptor_form(j, p) && list_form(j, p) && roots_form(j, p) && tables_form(j, p))
}

fn pairs_form(j: &Judged, page: PPage, start: usize, count: usize) -> bool {
    (0..count)
        .all(|k| j.is_virtual(word(j.mem, page, start + 2 * k)) && j.is_physical(word(j.mem, page, start + 2 * k + 1)))
}

fn descriptor_form(j: &Judged, p: &Partition) -> bool {
    pairs_form(j, p.descriptor, 0, 5)
        && word(j.mem, p.descriptor, PARENT - 1) == 0
        && j.is_physical(word(j.mem, p.descriptor, PARENT))
        && flag_form(j, word(j.mem, p.descriptor, FLAG))
        && j.zero(p.descriptor, FLAG + 1)
}

/// Document 02, L8: "0 or 1"; with large pages "word 12 stays 0".
fn flag_form(j: &Judged, flag: u32) -> bool {
    flag == 0 || flag == 1 && j.edition() == SMALL
}

fn list_form(j: &Judged, p: &Partition) -> bool {
    let used = word(j.mem, p.list, 0) as usize;
    used % 6 == 1 && used <= 1 + 6 * MOST_THREES && pairs_form(j, p.list, 1, used / 2) && j.zero(p.list, used)
}

fn roots_form(j: &Judged, p: &Partition) -> bool {
    p.root_words(j.mem).all(|entries| entries == [0; 3] || entries.iter().all(|&e| e != 0 && j.is_physical(e - 1)))
}

fn tables_form(j: &Judged, p: &Partition) -> bool {
    p.tabled(j.mem).all(|(v, [entry, shadow1, shadow2])| {
        let rest = entry & !(PRESENT + ACCESSIBLE + 4 * ALL_RIGHTS);
        let entry_fits = entry == 0 || entry & PRESENT != 0 && j.is_physical(rest) && v != VPage(0);
        entry_fits && (shadow1 == IS_CHILD || j.is_virtual(shadow1)) && j.is_virtual(shadow2)
    })
}

// 2. The root's five pages are as format leaves them but for its flag, and it maps exactly the flat pages.
fn root_as_formatted(j: &Judged) -> bool {
    let mut fresh = vec![0; start(j.mem, PPage(FIRST_THREE))];
    fill_formatted(&mut fresh, j.sizes);
    set_word(&mut fresh, ROOT_PAGE, FLAG, word(j.mem, ROOT_PAGE, FLAG));
    let root = Partition::at(j.mem, ROOT_PAGE);
    let five = start(j.mem, ROOT_PAGE)..start(j.mem, PPage(FIRST_THREE));
    let first = j.sizes.first_flat().0;
    let flat = (1..=j.sizes.free).map(|v| (VPage(v), PPage(first + v - 1), ALL_RIGHTS, 0));
    let mapped = root.mappings(j.mem).map(|(v, m)| (v, m.page, m.rights, root.shadow2(j.mem, v)));
    j.mem[five.clone()] == fresh[five] && mapped.eq(flat)
}

// 3. Listed threes and directory indices that have tables match one to one.
fn threes_listed_once(j: &Judged) -> bool {
    j.each(|p| {
        let pairs = p.list_pairs(j.mem);
        let listed: Vec<_> =
            pairs.chunks(3).map(|three| [0, 1, 2].map(|kind| three[kind].1.address(j.edition()) + PRESENT)).collect();
        let standing: Vec<_> = p.root_words(j.mem).filter(|entries| *entries != [0; 3]).collect();
        let once = |all: &[[u32; 3]], one: &[u32; 3]| all.iter().filter(|x| *x == one).count() == 1;
        listed.iter().all(|three| once(&standing, three)) && standing.iter().all(|three| once(&listed, three))
    })
}

// 4. Every shadow 1 word 1 leads to a child whose parent word, first pair and other pairs agree.
fn children_agree(j: &Judged) -> bool {
    j.each(|p| p.tabled(j.mem).all(|(v, [_, shadow1, _])| shadow1 != IS_CHILD || leads_to_child(j.mem, p, v)))
}

fn leads_to_child(mem: &[u32], parent: &Partition, v: VPage) -> bool {
    let Some(m) = parent.mapping(mem, v) else { return false };
    let pairs = Partition::at(mem, m.page).kernel_pairs(mem);
    word(mem, m.page, PARENT) == parent.descriptor.address(Edition::of(mem))
        && pairs[0] == (v, m.page)
        && pairs.iter().all(|&(at, page)| parent.mapping(mem, at).is_some_and(|m| m.page == page))
}

// 5. The tree is at most 8 below the root, and current is in it.
fn tree_bounded(j: &Judged) -> bool {
    let current = named_page(j.mem, HEADER, CURRENT);
    j.tree.iter().all(|node| node.depth <= MOST_DEPTH) && j.tree.iter().any(|node| node.partition.descriptor == current)
}

// 6. Each page mapped in a child is lent to it by its parent; each lent page is mapped there once.
fn lent_pages_match(j: &Judged) -> bool {
    let backed = j.each_child(|child, Node { partition: parent, .. }, at| {
        child.mappings.iter().all(|&(v, m)| {
            let lender = VPage::of(j.edition(), child.partition.shadow2(j.mem, v));
            parent
                .mapping(j.mem, lender)
                .is_some_and(|own| own.page == m.page && own.accessible == m.accessible && m.rights & !own.rights == 0)
                && parent.shadow1(j.mem, lender) == at
        })
    });
    let once = j.each_child(|child, parent, at| {
        let mut lenders: Vec<_> = child.mappings.iter().map(|&(v, _)| child.partition.shadow2(j.mem, v)).collect();
        lenders.sort_unstable();
        let lent = parent.mappings.iter().filter(|&&(v, _)| parent.partition.shadow1(j.mem, v) == at);
        lent.map(|(v, _)| v.address(j.edition())).eq(lenders)
    });
    let named = j.tree.iter().all(|Node { partition, mappings, .. }| {
        mappings.iter().all(|&(v, _)| {
            let name = partition.shadow1(j.mem, v);
            !is_lent(name) || partition.shadow1(j.mem, VPage::of(j.edition(), name)) == IS_CHILD
        })
    });
    backed && once && named
}

// 7. Children's kernel pages are inaccessible and not lent; no other page that isn't lent is.
fn kernel_pages_closed(j: &Judged) -> bool {
    let closed = j.each_child(|child, Node { partition: parent, .. }, _| {
        child.partition.kernel_pairs(j.mem).iter().all(|&(at, _)| {
            parent.mapping(j.mem, at).is_some_and(|m| !m.accessible) && !is_lent(parent.shadow1(j.mem, at))
        })
    });
    let mut kernel: Vec<Vec<VPage>> = vec![Vec::new(); j.tree.len()];
    for node in &j.tree {
        if let Some((place, _)) = node.parent {
            kernel[place].extend(node.partition.kernel_pairs(j.mem).iter().map(|pair| pair.0));
        }
    }
    let no_other = j.tree.iter().zip(&mut kernel).all(|(node, kernel)| {
        kernel.sort_unstable();
        node.mappings.iter().all(|&(v, m)| {
            m.accessible || is_lent(node.partition.shadow1(j.mem, v)) || kernel.binary_search(&v).is_ok()
        })
    });
    closed && no_other
}

// 8. Pages 1 to N-1 are each in exactly one hand or one kernel use.
fn one_use_each(j: &Judged) -> bool {
    let mut uses = vec![0u32; j.sizes.pages as usize];
    for Node { partition, mappings, .. } in &j.tree {
        let hand = mappings.iter().filter(|&&(v, _)| partition.in_hand(j.mem, v));
        let kernel = partition.kernel_pairs(j.mem).into_iter().map(|pair| pair.1);
        for page in hand.map(|(_, m)| m.page).chain(kernel) {
            if let Some(count) = uses.get_mut(page.0 as usize) {
                *count += 1;
            }
        }
    }
    uses[1..].iter().all(|&count| count == 1)
}

// 9. An absent mapping has 0 in all three table words.
fn absent_words_zero(j: &Judged) -> bool {
    j.each(|p| {
        p.tabled(j.mem).all(|(_, [entry, shadow1, shadow2])| entry & PRESENT != 0 || shadow1 == 0 && shadow2 == 0)
    })
}

// 12. Document 02, L7: "for every mapping, accessible or not, in every partition but the root", not both writable and executable.
fn never_write_and_execute(j: &Judged) -> bool {
    let both = |m: &Mapping| m.rights & WRITE != 0 && m.rights & EXECUTE != 0;
    j.tree[1..].iter().all(|node| !node.mappings.iter().any(|(_, mapping)| both(mapping)))
}
