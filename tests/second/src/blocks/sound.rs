//! When memory is sound: the nine sentences by number. Each is asked of every partition or slot by itself: what a word names is read as it stands,
//! whether the other sentences hold for it or not, and counts as 0 where it isn't there.

use super::geometry::*;
use super::memory::*;
use std::borrow::Cow;
use std::collections::BTreeMap;

struct Judged<'a> {
    mem: &'a [u32],
    geometry: Geometry,
    partitions: BTreeMap<usize, Partition>,
}

const SENTENCES: [fn(&Judged) -> bool; 9] = [
    |j| j.header(),
    |j| j.table(),
    |j| j.each(Judged::descriptor),
    |j| j.each(Judged::entries),
    |j| j.each(Judged::structures),
    |j| j.each_slot(Judged::form),
    |j| j.each_block(Judged::use_agrees),
    |j| j.each_block(Judged::source_lends),
    |j| j.each_block(Judged::chain),
];

/// The numbers of all broken sentences. Where the length isn't permitted, 1 alone: nothing else is defined then.
pub fn broken(mem: &[u32]) -> Vec<u32> {
    let Some(judged) = Judged::of(mem) else { return vec![1] };
    (1..).zip(SENTENCES).filter(|(_, holds)| !holds(&judged)).map(|(number, _)| number).collect()
}

pub fn sound(mem: &[u32]) -> bool {
    Judged::of(mem).is_some_and(|judged| SENTENCES.iter().all(|holds| holds(&judged)))
}

impl Judged<'_> {
    fn of(mem: &[u32]) -> Option<Judged<'_>> {
        let geometry = Geometry::of_length(mem.len())?;
        let partitions = partitions(mem).into_iter().map(|partition| (partition.at, partition)).collect();
        Some(Judged { mem, geometry, partitions })
    }

    fn each(&self, holds: fn(&Self, &Partition) -> bool) -> bool {
        self.partitions.values().all(|partition| holds(self, partition))
    }

    fn each_slot(&self, holds: fn(&Self, &Partition, &Slot) -> bool) -> bool {
        self.partitions.values().all(|partition| partition.slots().all(|slot| holds(self, partition, slot)))
    }

    fn each_block(&self, holds: fn(&Self, &Partition, &Slot) -> bool) -> bool {
        self.partitions.values().all(|partition| partition.blocks().all(|block| holds(self, partition, block)))
    }

    fn is_root(&self, partition: &Partition) -> bool {
        partition.at == self.geometry.root
    }

    /// What stands at an index, read as a partition.
    fn at(&self, index: usize) -> Cow<'_, Partition> {
        self.partitions.get(&index).map_or_else(|| Cow::Owned(Partition::read(self.mem, index)), Cow::Borrowed)
    }

    fn parent(&self, partition: &Partition) -> Cow<'_, Partition> {
        self.at(partition.parent)
    }

    /// The child that a number names: the block has use 3.
    fn child(&self, partition: &Partition, number: u32) -> Option<Cow<'_, Partition>> {
        let block = partition.slot(number);
        (block.usage == HAS_DESCRIPTOR).then(|| self.at(block.place()))
    }

    // 1. The header; its word 3 is a partition.
    fn header(&self) -> bool {
        let Geometry { words, root, first_byte } = self.geometry;
        let current = self.mem[CURRENT];
        self.mem[..HEADER_WORDS] == [words as u32, root as u32, first_byte, current, 0, 0, 0, 0]
            && self.partitions.contains_key(&(current as usize))
    }

    // 2. Each table word is 0 or in its place; the root is a partition.
    fn table(&self) -> bool {
        let table = &self.mem[HEADER_WORDS..self.geometry.root];
        let placed = table.iter().enumerate().all(|(j, &d)| d == 0 || d as usize / 32 == j);
        placed && self.partitions.contains_key(&self.geometry.root)
    }

    // 3. Words 0 to 7 of a descriptor.
    fn descriptor(&self, d: &Partition) -> bool {
        if self.is_root(d) {
            return (d.parent, d.number, d.level, d.spare) == (0, 0, 0, [0; 5]);
        }
        let parent = self.parent(d);
        let block = parent.slot(d.number);
        d.spare == [0; 5]
            && self.partitions.contains_key(&d.parent)
            && block.usage == HAS_DESCRIPTOR
            && block.place() == d.at
            && u64::from(d.level) == u64::from(parent.level) + 1
            && (d.level as usize) < self.geometry.table_words()
    }

    // 4. Entries name blocks in hand, none twice.
    fn entries(&self, d: &Partition) -> bool {
        let mut enabled: Vec<u32> = d.entries.into_iter().filter(|&entry| entry != 0).collect();
        let in_hand = enabled.iter().all(|&number| d.hand(number).is_some());
        enabled.sort_unstable();
        in_hand && enabled.windows(2).all(|two| two[0] != two[1])
    }

    // 5. Each structure is that of a block with use 4, but for the root's first.
    fn structures(&self, d: &Partition) -> bool {
        let (is_root, parent) = (self.is_root(d), self.parent(d));
        let has_block = |structure: &Structure| {
            let (pool, child) = match structure.own {
                1 => (d, 0),
                0 if !is_root => (&*parent, d.number),
                _ => return false,
            };
            let block = pool.slot(structure.block);
            (block.usage, block.link, block.child) == (HAS_STRUCTURE, structure.k, child)
        };
        let is_first = |structure: &Structure| {
            let start = structure.slots[0];
            (structure.at, structure.block, structure.own) == (self.geometry.root_structure(), 0, 0)
                && start.is_block()
                && start.previous == 0
        };
        let (first, others): (Vec<_>, Vec<_>) = d.structures.iter().partition(|one| is_root && one.k == 1);
        others.into_iter().all(has_block) && first.len() == usize::from(is_root) && first.into_iter().all(is_first)
    }

    // 6. A free slot is all 0; a block's size, end, rights and use.
    fn form(&self, _: &Partition, slot: &Slot) -> bool {
        if !slot.is_block() {
            return slot.words() == [0; SLOT_WORDS];
        }
        let long = u64::from(slot.start) + u64::from(LEAST_BYTES) <= u64::from(slot.end);
        long && slot.end <= self.geometry.end() && slot.rights <= ALL_RIGHTS && slot.usage <= HAS_STRUCTURE
    }

    // 7. What child and link name, by use.
    fn use_agrees(&self, d: &Partition, block: &Slot) -> bool {
        let Slot { number, child, link, .. } = *block;
        match block.usage {
            IN_HAND => (child, link) == (0, 0),
            LENT => self.child(d, child).is_some_and(|child| {
                let first = child.slot(link);
                (first.source, first.previous) == (number, 0)
            }),
            HAS_DESCRIPTOR => {
                let standing = self.partitions.get(&block.place());
                (child, link) == (0, 0)
                    && block.has_room(DESCRIPTOR_WORDS)
                    && standing.is_some_and(|one| (one.parent, one.number) == (d.at, number))
            }
            HAS_STRUCTURE => {
                let of = if child == 0 { Some(Cow::Borrowed(d)) } else { self.child(d, child) };
                let structure = of.as_ref().and_then(|of| of.structures.iter().find(|one| one.k == link));
                block.has_room(STRUCTURE_WORDS)
                    && structure.is_some_and(|one| {
                        (one.at, one.block, one.own) == (block.place(), number, u32::from(child == 0))
                    })
            }
            // No use at all: sentence 6.
            _ => true,
        }
    }

    // 8. The block's source is lent to d, with all its rights.
    fn source_lends(&self, d: &Partition, block: &Slot) -> bool {
        if self.is_root(d) {
            return (block.source, block.rights) == (0, ALL_RIGHTS);
        }
        let source = self.parent(d).slot(block.source);
        source.lent_to(d.number) && block.rights & !source.rights == 0
    }

    // 9. The pieces of a block are chained from its start to its end.
    fn chain(&self, d: &Partition, block: &Slot) -> bool {
        let (start, end, first) = if self.is_root(d) {
            (self.geometry.first_byte, self.geometry.end(), 8)
        } else {
            let source = self.parent(d).slot(block.source);
            (source.start, source.end, source.link)
        };
        let begins = match block.previous {
            0 => block.start == start && block.number == first,
            previous => d.slot(previous).next == block.number,
        };
        let ends = match block.next {
            0 => block.end == end,
            next => {
                let next = d.slot(next);
                (next.previous, next.start, next.source, next.rights)
                    == (block.number, block.end, block.source, block.rights)
            }
        };
        begins && ends
    }
}
