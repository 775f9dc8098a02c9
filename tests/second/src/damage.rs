//! Small guided changes to a sound memory, for comparing judgements of soundness.

use crate::geometry::{Edition, PPage, VPage, EDITION, WRITE, WRITE_EXECUTE};
use crate::memory::*;
use crate::random::Random;
use crate::tree::{tree, Node};

/// Indices of words and their new values.
pub type Changes = Vec<(usize, u32)>;

/// Changes of one word or two, mostly in kernel pages.
pub fn damage(mem: &[u32], random: &mut Random) -> Changes {
    let mut kernel = vec![HEADER; 3];
    for node in tree(mem) {
        kernel.extend(node.partition.kernel_pairs(mem).iter().map(|pair| pair.1));
    }
    let (first, second) = (place(mem, &kernel, random), place(mem, &kernel, random));
    let mut changes = vec![(first, changed(mem, &kernel, first, random))];
    if first != second && random.once_in(3) {
        changes.push((second, changed(mem, &kernel, second, random)));
        if random.once_in(3) {
            changes = vec![(first, mem[second]), (second, mem[first])];
        }
    }
    changes
}

/// Changes of any number of words: also those that one word or two seldom make, so that each sentence is broken alone.
pub fn wide_damage(mem: &[u32], random: &mut Random) -> Changes {
    let nodes = tree(mem);
    let wider = match random.below(19) {
        0 => second_use(mem, &nodes, random),
        1 => other_order(mem, &nodes, random),
        2 => open_descriptor(mem, &nodes, random),
        3 => other_parent(mem, &nodes, random),
        4 => Some(vec![(CURRENT, any_page(mem, random))]),
        5 => Some(vec![(EDITION, other_edition(mem, random))]),
        6 => Some((0..3 + random.below(3)).flat_map(|_| damage(mem, random)).collect()),
        7 => second_mapping(mem, &nodes, random),
        8 => lost_mapping(mem, &nodes, random),
        9 => write_and_execute(mem, &nodes, random),
        10 => unwritable_kernel_page(mem, random).map(|(changes, _)| changes),
        11 | 12 => other_flag(mem, &nodes, random),
        _ => None,
    };
    wider.unwrap_or_else(|| damage(mem, random))
}

fn any_page(mem: &[u32], random: &mut Random) -> u32 {
    let edition = Edition::of(mem);
    PPage(random.below(mem.len() / edition.page_words()) as u32).address(edition)
}

/// A word for the header that names the other edition or none.
fn other_edition(mem: &[u32], random: &mut Random) -> u32 {
    let other = 1 - Edition::of(mem).number;
    random.pick(&[other, other, 2, 3, 1 << 31, u32::MAX]).unwrap_or(other)
}

/// Names another page as a child's parent.
fn other_parent(mem: &[u32], nodes: &[Node], random: &mut Random) -> Option<Changes> {
    let children: Vec<_> = nodes[1..].iter().map(|node| node.partition.descriptor).collect();
    let index = start(mem, random.pick(&children)?) + PARENT;
    Some(vec![(index, any_page(mem, random))])
}

/// Another live flag in any partition, good or not, or a word behind it.
fn other_flag(mem: &[u32], nodes: &[Node], random: &mut Random) -> Option<Changes> {
    let any = random.pick(nodes.iter().map(|node| node.partition.descriptor).collect::<Vec<_>>().as_slice())?;
    let descriptor = if random.once_in(3) { ROOT_PAGE } else { any };
    let (index, value) = random.pick(&[(FLAG, 1), (FLAG, 1), (FLAG, 2), (FLAG, 3), (FLAG, u32::MAX), (FLAG + 1, 1)])?;
    Some(vec![(start(mem, descriptor) + index, value)])
}

/// Makes a child's descriptor accessible in all its ancestors.
fn open_descriptor(mem: &[u32], nodes: &[Node], random: &mut Random) -> Option<Changes> {
    let children: Vec<_> = nodes.iter().filter_map(|node| node.parent).collect();
    let (place, at) = random.pick(&children)?;
    Some(raised(mem, nodes, place, at, ACCESSIBLE))
}

/// The indices of the page table words of v in the partition at this place of the tree, and of that page in its ancestors, the root last.
fn mapping_words(mem: &[u32], nodes: &[Node], mut place: usize, mut v: VPage) -> Vec<usize> {
    let (mut indices, edition) = (Vec::new(), Edition::of(mem));
    loop {
        let Node { partition, parent, .. } = &nodes[place];
        let table = named_page(mem, partition.directory, v.directory_index(edition));
        indices.push(start(mem, table) + v.table_index(edition));
        v = VPage::of(edition, partition.shadow2(mem, v));
        let Some((above, _)) = *parent else { break indices };
        place = above;
    }
}

/// Sets these bits in the mapping of v in the partition at this place of the tree, and in that page's mappings in its ancestors.
fn raised(mem: &[u32], nodes: &[Node], place: usize, v: VPage, bits: u32) -> Changes {
    mapping_words(mem, nodes, place, v).into_iter().map(|index| (index, mem[index] | bits)).collect()
}

/// Takes write from a kernel page in every partition that maps it but the root, and makes one of these current. No calls make such memory; it is sound.
/// With the changes, the address in that partition of its child that the page serves or that is above the one it serves.
pub fn unwritable_kernel_page(mem: &[u32], random: &mut Random) -> Option<(Changes, u32)> {
    let (nodes, edition) = (tree(mem), Edition::of(mem));
    let deep: Vec<usize> = (0..nodes.len()).filter(|&place| nodes[place].depth > 1).collect();
    let mut place = random.pick(&deep)?;
    let (v, _) = random.pick(&nodes[place].partition.kernel_pairs(mem))?;
    let mut words = mapping_words(mem, &nodes, nodes[place].parent?.0, v);
    words.pop();
    let mut changes: Changes = words.into_iter().map(|index| (index, mem[index] & !(4 * WRITE))).collect();
    for _ in 0..random.below(nodes[place].depth - 1) {
        place = nodes[place].parent?.0;
    }
    let (above, child) = nodes[place].parent?;
    changes.push((CURRENT, nodes[above].partition.descriptor.address(edition)));
    Some((changes, child.address(edition)))
}

/// Exchanges two pairs of a listed three, so that it stands at no index in that order.
fn other_order(mem: &[u32], nodes: &[Node], random: &mut Random) -> Option<Changes> {
    let listed: Vec<_> = nodes[1..].iter().map(|node| node.partition).filter(|p| p.three_count(mem) > 0).collect();
    let child = random.pick(&listed)?;
    let three = start(mem, child.list) + 1 + 6 * random.below(child.three_count(mem));
    let (one, other) = random.pick(&[(three, three + 2), (three, three + 4), (three + 2, three + 4)])?;
    Some(vec![(one, mem[other]), (one + 1, mem[other + 1]), (other, mem[one]), (other + 1, mem[one + 1])])
}

/// Gives one page two kernel uses, which takes three words or more: a child without threes takes a
/// page of its own or of such a sibling a second time, and the page it drops comes to its parent's hand.
fn second_use(mem: &[u32], nodes: &[Node], random: &mut Random) -> Option<Changes> {
    let bare: Vec<_> = nodes.iter().filter(|node| node.partition.three_count(mem) == 0).collect();
    let taker = random.pick(&bare)?;
    let (place, _) = taker.parent?;
    let siblings: Vec<_> = bare.iter().filter(|node| node.parent.is_some_and(|p| p.0 == place)).collect();
    let giver = random.pick(&siblings)?;
    let (own, other) = random.pick(&[(1, 2), (2, 3), (3, 1), (1, 1), (2, 2), (3, 3), (4, 4)])?;
    let (dropped, page) = taker.partition.kernel_pairs(mem)[own];
    let (at, taken) = giver.partition.kernel_pairs(mem)[other];
    let pair = start(mem, taker.partition.descriptor) + 2 * own;
    let edition = Edition::of(mem);
    let mut changes = vec![(pair, at.address(edition)), (pair + 1, taken.address(edition))];
    if page != taken {
        changes.extend(raised(mem, nodes, place, dropped, ACCESSIBLE));
    }
    Some(changes)
}

/// The indices of the words of v in a child's page table, shadow 1 table and shadow 2 table.
fn cell(mem: &[u32], partition: Partition, v: VPage) -> [usize; 3] {
    let edition = Edition::of(mem);
    let roots = [partition.directory, partition.shadow1, partition.shadow2];
    roots.map(|root| start(mem, named_page(mem, root, v.directory_index(edition))) + v.table_index(edition))
}

/// A mapping of a child.
fn any_mapping(nodes: &[Node], random: &mut Random) -> Option<(Partition, VPage)> {
    let mapped: Vec<_> = nodes[1..].iter().filter(|node| !node.mappings.is_empty()).collect();
    let node = random.pick(&mapped)?;
    Some((node.partition, random.pick(&node.mappings)?.0))
}

/// A child maps a page that is lent to it a second time, at another place of the same table and in hand there.
fn second_mapping(mem: &[u32], nodes: &[Node], random: &mut Random) -> Option<Changes> {
    let (partition, v) = any_mapping(nodes, random)?;
    let edition = Edition::of(mem);
    let other = VPage(v.0 - v.table_index(edition) as u32 + random.below(edition.page_words()) as u32);
    let ([w, _, y], [to_w, to_x, to_y]) = (cell(mem, partition, v), cell(mem, partition, other));
    Some(vec![(to_w, mem[w]), (to_x, 0), (to_y, mem[y])])
}

/// A child no longer maps a page that is lent to it.
fn lost_mapping(mem: &[u32], nodes: &[Node], random: &mut Random) -> Option<Changes> {
    let (partition, v) = any_mapping(nodes, random)?;
    Some(cell(mem, partition, v).map(|index| (index, 0)).to_vec())
}

/// Below the root a page both writable and executable: in hand, lent or taken for a kernel page.
fn write_and_execute(mem: &[u32], nodes: &[Node], random: &mut Random) -> Option<Changes> {
    let places: Vec<_> = (1..nodes.len()).filter(|&place| !nodes[place].mappings.is_empty()).collect();
    let place = random.pick(&places)?;
    let (v, _) = random.pick(&nodes[place].mappings)?;
    Some(raised(mem, nodes, place, v, 4 * WRITE_EXECUTE))
}

/// A word's index, mostly in a kernel page and mostly not 0.
fn place(mem: &[u32], kernel: &[PPage], random: &mut Random) -> usize {
    if random.once_in(24) {
        return random.below(mem.len());
    }
    let page = start(mem, random.pick(kernel).unwrap_or(HEADER));
    let words = Edition::of(mem).page_words();
    let used: Vec<usize> = (page..page + words).filter(|&index| mem[index] != 0).collect();
    let any = page + random.below(words);
    if random.once_in(6) {
        any
    } else {
        random.pick(&used).unwrap_or(any)
    }
}

/// A near or likely value for the word.
fn changed(mem: &[u32], kernel: &[PPage], index: usize, random: &mut Random) -> u32 {
    let (old, edition) = (mem[index], Edition::of(mem));
    let address = PPage(random.below(mem.len() / edition.page_words() + 1) as u32).address(edition);
    match random.below(17) {
        0 => old ^ 1 << random.below(32),
        1 | 2 => old ^ 1 << (2 + random.below(3)),
        3 => old ^ 1 << (edition.place_bits() as usize + random.below(8)),
        4 => random.pick(&[old.wrapping_add(1), old.wrapping_sub(1)]).unwrap_or(old),
        5 | 6 => {
            let size = edition.page_bytes();
            random.pick(&[old.wrapping_add(size), old.wrapping_sub(size)]).unwrap_or(old)
        }
        7 => 0,
        8 => 1,
        9 => address,
        10 | 11 => address + old % edition.page_bytes(),
        12 | 13 => old ^ ACCESSIBLE,
        _ => mem[place(mem, kernel, random)],
    }
}
