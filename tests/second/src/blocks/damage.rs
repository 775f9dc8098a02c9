//! Guided changes to a sound memory of blocks, for comparing judgements of soundness: of single words, of two, and of several that fit one another, so that
//! each sentence is broken alone. Some leave the memory sound.

use super::geometry::*;
use super::memory::*;
use crate::random::Random;

/// Indices of words and their new values.
pub type Changes = Vec<(usize, u32)>;

/// The memory with the changes made.
pub fn applied(mem: &[u32], changes: &[(usize, u32)]) -> Vec<u32> {
    let mut copy = mem.to_vec();
    changes.iter().for_each(|&(index, value)| set(&mut copy, index, value));
    copy
}

/// Some change of a sound memory.
pub fn damage(mem: &[u32], random: &mut Random) -> Changes {
    let Some(geometry) = Geometry::of_length(mem.len()) else { return Vec::new() };
    let pools = Pools { mem, geometry, partitions: partitions(mem) };
    let guided = match random.below(40) {
        0 => pools.header(random),
        1 => pools.table(random),
        2 => pools.second_place_in_table(random),
        3 => pools.level(random),
        4 => pools.spare(random),
        5 | 6 => pools.entry(random),
        7 => pools.entry_twice(random),
        8 => pools.entries_exchanged(random),
        9 => pools.structure_twice(random),
        10 => pools.structure_moved(random),
        11 => pools.structure_lost(random),
        12 => pools.empty_structure_dropped(random),
        13 => pools.free_slot(random),
        14 => pools.boundary(random),
        15 => pools.rights_of_chain(random),
        16 => pools.rights_of_block(random),
        17 => pools.odd_use(random),
        18 => pools.idle_link(random),
        19 => pools.second_claim(random),
        20 => pools.lost_block(random),
        21 => pools.hand_turned_to_lent(random),
        22 => pools.partition_dropped(random),
        23 => pools.partition_moved(random),
        24 => pools.chain_broken(random),
        25 => pools.slot_moved(random),
        26 => pools.slots_exchanged(random),
        27 => pools.other_parent(random),
        28 => pools.other_source(random),
        29 => pools.first_cut_off(random),
        30 => Some((0..3 + random.below(3)).flat_map(|_| pools.words(random)).collect()),
        _ => None,
    };
    let changed = |changes: &Changes| changes.iter().any(|&(index, value)| word(mem, index) != value);
    guided.filter(changed).unwrap_or_else(|| pools.words(random))
}

/// The words of two structures exchanged, of one partition or of two.
pub fn structures_exchanged(mem: &[u32], random: &mut Random) -> Changes {
    let structures = partitions(mem).into_iter().flat_map(|one| one.structures).map(|structure| structure.at);
    exchanged(mem, &structures.collect::<Vec<_>>(), STRUCTURE_WORDS, random)
}

/// The words of two descriptors exchanged.
pub fn descriptors_exchanged(mem: &[u32], random: &mut Random) -> Changes {
    let descriptors = partitions(mem).into_iter().map(|one| one.at);
    exchanged(mem, &descriptors.collect::<Vec<_>>(), DESCRIPTOR_WORDS, random)
}

/// So many words at two of these places exchanged; none where there is one place alone.
fn exchanged(mem: &[u32], places: &[usize], words: usize, random: &mut Random) -> Changes {
    let Some(first) = random.pick(places) else { return Vec::new() };
    let others: Vec<usize> = places.iter().copied().filter(|&place| place != first).collect();
    let Some(second) = random.pick(&others) else { return Vec::new() };
    (0..words).flat_map(|i| [(first + i, word(mem, second + i)), (second + i, word(mem, first + i))]).collect()
}

struct Pools<'a> {
    mem: &'a [u32],
    geometry: Geometry,
    partitions: Vec<Partition>,
}

impl Pools<'_> {
    fn any(&self, random: &mut Random) -> &Partition {
        &self.partitions[random.below(self.partitions.len())]
    }

    /// A partition that isn't the root.
    fn child(&self, random: &mut Random) -> Option<&Partition> {
        let children: Vec<_> = self.partitions.iter().filter(|one| one.at != self.geometry.root).collect();
        random.pick(&children)
    }

    fn parent(&self, child: &Partition) -> Option<&Partition> {
        self.partitions.iter().find(|one| one.at == child.parent)
    }

    /// A block of any partition, with its partition.
    fn block(&self, random: &mut Random, keep: impl Fn(&Partition, &Slot) -> bool) -> Option<(&Partition, Slot)> {
        let all = self.partitions.iter().flat_map(|one| one.blocks().map(move |block| (one, *block)));
        random.pick(&all.filter(|(one, block)| keep(one, block)).collect::<Vec<_>>())
    }

    /// A number that some pool has, or near.
    fn number(&self, random: &mut Random) -> u32 {
        let blocks: Vec<u32> = self.any(random).blocks().map(|block| block.number).collect();
        random.pick(&blocks).unwrap_or(8) + u32::from(random.once_in(3))
    }

    // Single words.

    /// One word or two, anywhere in what the kernel keeps.
    fn words(&self, random: &mut Random) -> Changes {
        let (first, second) = (self.place(random), self.place(random));
        match random.below(6) {
            0 if first != second => vec![(first, self.mem[second]), (second, self.mem[first])],
            1 if first != second => vec![(first, self.value(first, random)), (second, self.value(second, random))],
            _ => vec![(first, self.value(first, random))],
        }
    }

    /// The index of a word, mostly of the kernel's and not 0.
    fn place(&self, random: &mut Random) -> usize {
        let one = self.any(random);
        let structures: Vec<usize> = one.structures.iter().map(|structure| structure.at).collect();
        let structure = random.pick(&structures).unwrap_or(one.at);
        let words = match random.below(24) {
            0 => 0..self.mem.len(),
            1 | 2 => 0..HEADER_WORDS,
            3..=5 => HEADER_WORDS..self.geometry.root,
            6..=11 => one.at..one.at + DESCRIPTOR_WORDS,
            _ => structure..structure + STRUCTURE_WORDS,
        };
        let any = words.start + random.below(words.len());
        let used: Vec<usize> = words.filter(|&index| word(self.mem, index) != 0).collect();
        let place = if random.once_in(5) { any } else { random.pick(&used).unwrap_or(any) };
        place.min(self.mem.len() - 1)
    }

    /// A near or likely value for the word.
    fn value(&self, index: usize, random: &mut Random) -> u32 {
        let old = self.mem[index];
        match random.below(14) {
            0 => old ^ 1 << random.below(32),
            1 | 2 => old.wrapping_add(1),
            3 | 4 => old.wrapping_sub(1),
            5 => 0,
            6 => random.below(9) as u32,
            7 | 8 => self.number(random),
            9 => random.below(4 * self.mem.len() + 1) as u32,
            10 => random.below(self.mem.len() + 1) as u32,
            11 => random.draw() as u32,
            _ => self.mem[self.place(random)],
        }
    }

    fn header(&self, random: &mut Random) -> Option<Changes> {
        let index = random.below(HEADER_WORDS);
        // Another partition as the current one is sound.
        let value = if index == CURRENT { self.any(random).at as u32 } else { self.value(index, random) };
        Some(vec![(index, value)])
    }

    fn table(&self, random: &mut Random) -> Option<Changes> {
        let j = random.below(self.geometry.table_words());
        let (near, other) = (32 * j + random.below(32), self.any(random).at);
        let value = random.pick(&[0, near as u32, other as u32])?;
        Some(vec![(HEADER_WORDS + j, value)])
    }

    /// A partition entered once more, where it does not belong.
    fn second_place_in_table(&self, random: &mut Random) -> Option<Changes> {
        let free: Vec<usize> = (HEADER_WORDS..self.geometry.root).filter(|&index| self.mem[index] == 0).collect();
        Some(vec![(random.pick(&free)?, self.any(random).at as u32)])
    }

    /// The level of a child, at times with all below it.
    fn level(&self, random: &mut Random) -> Option<Changes> {
        let child = self.child(random)?;
        let more = random.pick(&[1, 2, self.geometry.table_words() as u32, u32::MAX])?;
        let whole = random.once_in(2);
        let moved = family(self.mem, child.at).into_iter().filter(|one| whole || one.at == child.at);
        Some(moved.map(|one| (one.at + 2, one.level.wrapping_add(more))).collect())
    }

    fn spare(&self, random: &mut Random) -> Option<Changes> {
        Some(vec![(self.any(random).at + 3 + random.below(5), 1 + random.below(9) as u32)])
    }

    // Entries.

    fn entry(&self, random: &mut Random) -> Option<Changes> {
        let one = self.any(random);
        let blocks: Vec<u32> = one.blocks().map(|block| block.number).collect();
        let number = random.pick(&blocks).unwrap_or_else(|| self.number(random));
        Some(vec![(one.at + BEFORE_ENTRIES + 1 + random.below(ENTRIES), number)])
    }

    fn entry_twice(&self, random: &mut Random) -> Option<Changes> {
        let one = self.any(random);
        let hand: Vec<u32> = one.blocks().filter(|block| block.in_hand()).map(|block| block.number).collect();
        let (number, entries) = (random.pick(&hand)?, one.at + BEFORE_ENTRIES + 1);
        let (first, second) = (random.below(ENTRIES), random.below(ENTRIES));
        Some(vec![(entries + first, number), (entries + second, number)])
    }

    /// Sound.
    fn entries_exchanged(&self, random: &mut Random) -> Option<Changes> {
        let entries = self.any(random).at + BEFORE_ENTRIES + 1;
        let (first, second) = (entries + random.below(ENTRIES), entries + random.below(ENTRIES));
        Some(vec![(first, self.mem[second]), (second, self.mem[first])])
    }

    // Structures.

    /// A structure named by a second word of the descriptor, or by another partition's.
    fn structure_twice(&self, random: &mut Random) -> Option<Changes> {
        let (from, to) = (self.any(random), self.any(random));
        let structures: Vec<usize> = from.structures.iter().map(|structure| structure.at).collect();
        let k = if random.once_in(3) { 1 + random.below(STRUCTURES) } else { to.free_k()? as usize };
        Some(vec![(to.at + BEFORE_STRUCTURES + k, random.pick(&structures)? as u32)])
    }

    /// All words of a structure stand some words further on.
    fn structure_moved(&self, random: &mut Random) -> Option<Changes> {
        let one = self.any(random);
        let structure = one.structures.get(random.below(one.structures.len()))?;
        let to = structure.at + 1 + random.below(3);
        let words = (0..STRUCTURE_WORDS).map(|i| (to + i, self.mem[structure.at + i]));
        let named = (one.at + BEFORE_STRUCTURES + structure.k as usize, to as u32);
        Some(words.chain([named]).filter(|&(index, _)| index < self.mem.len()).collect())
    }

    /// A descriptor forgets a structure.
    fn structure_lost(&self, random: &mut Random) -> Option<Changes> {
        let one = self.any(random);
        let ks: Vec<u32> = one.structures.iter().map(|structure| structure.k).collect();
        Some(vec![(one.at + BEFORE_STRUCTURES + random.pick(&ks)? as usize, 0)])
    }

    /// An empty structure is given back without being wiped: sound, if its block comes to hand.
    fn empty_structure_dropped(&self, random: &mut Random) -> Option<Changes> {
        let (pool, block) = self.block(random, |_, block| block.usage == HAS_STRUCTURE)?;
        let of = if block.child == 0 { pool.at } else { pool.slot(block.child).place() };
        let named = (of + BEFORE_STRUCTURES + block.link as usize, 0);
        let changes = [named, (block.at + slot::USE, IN_HAND), (block.at + slot::CHILD, 0), (block.at + slot::LINK, 0)];
        Some(changes.to_vec())
    }

    // Slots.

    /// A free slot that isn't all 0.
    fn free_slot(&self, random: &mut Random) -> Option<Changes> {
        let free: Vec<usize> = self.any(random).slots().filter(|slot| !slot.is_block()).map(|slot| slot.at).collect();
        let place = random.pick(&[0, 1, 2, 4, 5, 6, 7, 8, 3])?;
        Some(vec![(random.pick(&free)? + place, 1 + random.below(200) as u32)])
    }

    /// The boundary of two pieces moves: a block of less than 32 bytes, one without room for what stands in it, or a sound one.
    fn boundary(&self, random: &mut Random) -> Option<Changes> {
        let (one, lower) = self.block(random, |_, block| block.next != 0)?;
        let higher = one.slot(lower.next);
        let near = [lower.start + 31, lower.start + 32, higher.end - 31, higher.end - 32, lower.end + 1, lower.end - 1];
        let any = lower.start + random.below((higher.end - lower.start) as usize) as u32;
        let address = if random.once_in(4) { any } else { random.pick(&near)? };
        Some(vec![(lower.at + slot::END, address), (higher.at + slot::START, address)])
    }

    /// Other rights for all pieces of a block.
    fn rights_of_chain(&self, random: &mut Random) -> Option<Changes> {
        let (one, block) = self.block(random, |_, _| true)?;
        let rights = random.below(9) as u32;
        let pieces = one.blocks().filter(|piece| piece.source == block.source);
        Some(pieces.map(|piece| (piece.at + slot::RIGHTS, rights)).collect())
    }

    fn rights_of_block(&self, random: &mut Random) -> Option<Changes> {
        let (_, block) = self.block(random, |_, _| true)?;
        Some(vec![(block.at + slot::RIGHTS, random.pick(&[0, 1, 2, 3, 4, 5, 6, 7, 8, 15, 1 << 31])?)])
    }

    /// Another use, mostly of a block that isn't enabled.
    fn odd_use(&self, random: &mut Random) -> Option<Changes> {
        let (_, block) = self.block(random, |one, block| one.entry_of(block.number).is_none())?;
        Some(vec![(block.at + slot::USE, random.pick(&[0, 1, 2, 3, 4, 5, 6, u32::MAX])?)])
    }

    /// Child or link of a block that has none.
    fn idle_link(&self, random: &mut Random) -> Option<Changes> {
        let (_, block) = self.block(random, |_, block| block.in_hand() || block.usage == HAS_DESCRIPTOR)?;
        let place = random.pick(&[slot::CHILD, slot::LINK])?;
        Some(vec![(block.at + place, self.number(random))])
    }

    /// A second block with the same words in a free slot.
    fn second_claim(&self, random: &mut Random) -> Option<Changes> {
        let (_, block) = self.block(random, |_, _| true)?;
        let free = self.any(random).free_slot()?;
        Some((free.at..).zip(block.words()).collect())
    }

    /// A block's slot wiped; at times its neighbours in the chain close the gap, at times the source takes it back.
    fn lost_block(&self, random: &mut Random) -> Option<Changes> {
        let (one, block) = self.block(random, |_, _| true)?;
        let mut changes: Changes = (0..SLOT_WORDS).map(|place| (block.at + place, 0)).collect();
        if random.once_in(2) {
            let around = [(block.previous, slot::NEXT, block.next), (block.next, slot::PREVIOUS, block.previous)];
            changes.extend(around.into_iter().filter(|a| a.0 != 0).map(|(n, place, to)| (one.slot(n).at + place, to)));
        }
        if let Some(parent) = self.parent(one).filter(|_| random.once_in(2)) {
            let source = parent.slot(block.source);
            changes.extend((slot::USE..).zip([IN_HAND, 0, 0]).map(|(place, value)| (source.at + place, value)));
        }
        Some(changes)
    }

    /// A block in hand turned to a lent one, at times with a slot of the child that agrees: then it is sound, unless the block is enabled.
    fn hand_turned_to_lent(&self, random: &mut Random) -> Option<Changes> {
        let (one, block) = self.block(random, |_, block| block.in_hand())?;
        let children: Vec<_> = one.blocks().filter(|other| other.usage == HAS_DESCRIPTOR).copied().collect();
        let of = random.pick(&children)?;
        let child = self.partitions.iter().find(|child| child.at == of.place())?;
        let free = child.free_slot()?;
        let mut changes: Changes = (block.at + slot::USE..).zip([LENT, of.number, free.number]).collect();
        if !random.once_in(3) {
            let mut words = [block.start, block.end, block.rights, IN_HAND, 0, 0, block.number, 0, 0];
            if random.once_in(3) {
                // Not as the source is.
                let place = random.below(SLOT_WORDS);
                words[place] = words[place].wrapping_add(1 + random.below(8) as u32);
            }
            changes.extend((free.at..).zip(words));
        }
        Some(changes)
    }

    // Partitions.

    /// A partition leaves the table, at times with its block given back. Its own children stay, if it has any.
    fn partition_dropped(&self, random: &mut Random) -> Option<Changes> {
        let child = self.child(random)?;
        let block = self.parent(child)?.slot(child.number);
        let mut changes = vec![(table_word(child.at), 0)];
        if random.once_in(2) {
            changes.push((block.at + slot::USE, IN_HAND));
        }
        Some(changes)
    }

    /// A descriptor with all that names it stands one word further on; or so does its block too, which makes it right again.
    fn partition_moved(&self, random: &mut Random) -> Option<Changes> {
        let child = self.child(random)?;
        let (block, to) = (self.parent(child)?.slot(child.number), child.at + 1);
        let below = self.partitions.iter().filter(|one| one.parent == child.at).map(|one| (one.at, to as u32));
        let mut changes: Changes = (0..DESCRIPTOR_WORDS).map(|i| (to + i, self.mem[child.at + i])).collect();
        changes.extend(below);
        changes.extend([(table_word(child.at), 0), (table_word(to), to as u32)]);
        if self.mem[CURRENT] as usize == child.at {
            changes.push((CURRENT, to as u32));
        }
        if let Some(before) = self.parent(child)?.block(block.previous).filter(|_| random.once_in(2)) {
            let address = 4 * to as u32;
            changes.extend([(block.at + slot::START, address), (before.at + slot::END, address)]);
        }
        changes.retain(|&(index, _)| index < self.mem.len());
        Some(changes)
    }

    /// Another parent, at times one that stands below.
    fn other_parent(&self, random: &mut Random) -> Option<Changes> {
        let (child, parent) = (self.child(random)?, self.any(random));
        let mut changes = vec![(child.at, parent.at as u32)];
        if random.once_in(2) {
            changes.push((child.at + 2, parent.level + 1));
        }
        Some(changes)
    }

    // Chains.

    /// Previous or next of a block.
    fn chain_broken(&self, random: &mut Random) -> Option<Changes> {
        let (_, block) = self.block(random, |_, _| true)?;
        let place = random.pick(&[slot::START, slot::END, slot::PREVIOUS, slot::NEXT, slot::PREVIOUS, slot::NEXT])?;
        let (old, number) = (self.mem[block.at + place], self.number(random));
        let value = random.pick(&[0, number, old.wrapping_add(1), old.wrapping_sub(1)])?;
        Some(vec![(block.at + place, value)])
    }

    /// The source of a block, at times of all its pieces.
    fn other_source(&self, random: &mut Random) -> Option<Changes> {
        let (one, block) = self.block(random, |_, _| true)?;
        let (number, whole) = (self.number(random), random.once_in(2));
        let pieces = one.blocks().filter(|piece| piece.number == block.number || whole && piece.source == block.source);
        Some(pieces.map(|piece| (piece.at + slot::SOURCE, number)).collect())
    }

    /// A chain in two: the lower piece becomes the last and the higher a first.
    fn first_cut_off(&self, random: &mut Random) -> Option<Changes> {
        let (one, lower) = self.block(random, |_, block| block.next != 0)?;
        Some(vec![(lower.at + slot::NEXT, 0), (one.slot(lower.next).at + slot::PREVIOUS, 0)])
    }

    /// A block gets another number, with its neighbours in the chain; what else names it is told only at times.
    fn slot_moved(&self, random: &mut Random) -> Option<Changes> {
        let (one, block) = self.block(random, |_, _| true)?;
        let free = one.free_slot()?;
        let mut changes: Changes = (0..SLOT_WORDS).map(|place| (block.at + place, 0)).collect();
        changes.extend((free.at..).zip(block.words()));
        let around = [(block.previous, slot::NEXT), (block.next, slot::PREVIOUS)];
        changes.extend(around.iter().filter(|a| a.0 != 0).map(|&(n, place)| (one.slot(n).at + place, free.number)));
        if !random.once_in(4) {
            let entries = (1..).zip(one.entries).filter(|&(_, entry)| entry == block.number);
            changes.extend(entries.map(|(e, _)| (one.at + BEFORE_ENTRIES + e, free.number)));
            changes.extend(
                self.parent(one)
                    .filter(|_| block.previous == 0)
                    .map(|parent| (parent.slot(block.source).at + slot::LINK, free.number)),
            );
            changes.extend(named_by_place(&block).map(|index| (index, free.number)));
        }
        Some(changes)
    }

    /// The words of two slots of a partition exchanged.
    fn slots_exchanged(&self, random: &mut Random) -> Option<Changes> {
        let slots: Vec<_> = self.any(random).slots().copied().collect();
        let (first, second) = (random.pick(&slots)?, random.pick(&slots)?);
        Some((first.at..).zip(second.words()).chain((second.at..).zip(first.words())).collect())
    }
}

/// The index of the word that holds the number of a taken block, in what stands in it.
fn named_by_place(block: &Slot) -> Option<usize> {
    match block.usage {
        HAS_DESCRIPTOR => Some(block.place() + 1),
        HAS_STRUCTURE => Some(block.place()),
        _ => None,
    }
}
