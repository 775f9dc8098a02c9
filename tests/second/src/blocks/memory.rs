//! The words read into records: a partition with its structures, and these with their slots. Calls and judgements search the records.
//! A word outside the memory reads as 0 and is never written.

use super::geometry::*;

/// Header word that holds the index of the current partition's descriptor.
pub const CURRENT: usize = 3;
/// Descriptor word before that of entry 1.
pub const BEFORE_ENTRIES: usize = 7;
/// Descriptor word before that of structure 1.
pub const BEFORE_STRUCTURES: usize = 15;
/// Words before a structure's slots.
pub const BEFORE_SLOTS: usize = 2;

/// The words of a slot.
pub mod slot {
    pub const START: usize = 0;
    pub const END: usize = 1;
    pub const RIGHTS: usize = 2;
    pub const USE: usize = 3;
    pub const CHILD: usize = 4;
    pub const LINK: usize = 5;
    pub const SOURCE: usize = 6;
    pub const PREVIOUS: usize = 7;
    pub const NEXT: usize = 8;
}

/// Uses.
pub const IN_HAND: u32 = 1;
pub const LENT: u32 = 2;
pub const HAS_DESCRIPTOR: u32 = 3;
pub const HAS_STRUCTURE: u32 = 4;

pub fn word(mem: &[u32], index: usize) -> u32 {
    mem.get(index).copied().unwrap_or(0)
}

pub fn set(mem: &mut [u32], index: usize, value: u32) {
    if let Some(word) = mem.get_mut(index) {
        *word = value;
    }
}

pub fn wipe(mem: &mut [u32], index: usize, count: usize) {
    (index..index + count).for_each(|index| set(mem, index, 0));
}

/// A slot of a partition, whatever its words are.
#[derive(Clone, Copy, PartialEq, Eq, Debug, Default)]
pub struct Slot {
    pub number: u32,
    /// The index of its first word.
    pub at: usize,
    pub start: u32,
    pub end: u32,
    pub rights: u32,
    /// Word 3: the use.
    pub usage: u32,
    pub child: u32,
    pub link: u32,
    pub source: u32,
    pub previous: u32,
    pub next: u32,
}

impl Slot {
    fn read(mem: &[u32], number: u32, at: usize) -> Slot {
        let at_word = |place| word(mem, at + place);
        Slot {
            number,
            at,
            start: at_word(slot::START),
            end: at_word(slot::END),
            rights: at_word(slot::RIGHTS),
            usage: at_word(slot::USE),
            child: at_word(slot::CHILD),
            link: at_word(slot::LINK),
            source: at_word(slot::SOURCE),
            previous: at_word(slot::PREVIOUS),
            next: at_word(slot::NEXT),
        }
    }

    pub fn words(&self) -> [u32; SLOT_WORDS] {
        let Slot { start, end, rights, usage, child, link, source, previous, next, .. } = *self;
        [start, end, rights, usage, child, link, source, previous, next]
    }

    /// A slot is free where its use is 0, else it is a block.
    pub fn is_block(&self) -> bool {
        self.usage != 0
    }

    pub fn in_hand(&self) -> bool {
        self.usage == IN_HAND
    }

    /// Lent to the child of this number.
    pub fn lent_to(&self, child: u32) -> bool {
        self.usage == LENT && self.child == child
    }

    pub fn bytes(&self) -> u32 {
        self.end.saturating_sub(self.start)
    }

    pub fn has_byte(&self, address: u32) -> bool {
        self.start <= address && address < self.end
    }

    /// The index of its first whole word, where what stands in it stands.
    pub fn place(&self) -> usize {
        (self.start as usize).div_ceil(4)
    }

    pub fn has_room(&self, words: usize) -> bool {
        4 * (self.place() + words) <= self.end as usize
    }

    /// What is told of a block.
    pub fn told(&self) -> [u32; 6] {
        [self.number, self.start, self.end, self.rights, self.usage, self.child]
    }
}

#[derive(Clone, PartialEq, Eq, Debug)]
pub struct Structure {
    pub k: u32,
    pub at: usize,
    /// Word 0: the number of the block that it stands in.
    pub block: u32,
    /// Word 1: whether that block is in the partition's own pool.
    pub own: u32,
    pub slots: Vec<Slot>,
}

impl Structure {
    fn read(mem: &[u32], k: u32, at: usize) -> Structure {
        let slot = |i: usize| Slot::read(mem, 8 * k + i as u32, at + BEFORE_SLOTS + SLOT_WORDS * i);
        Structure { k, at, block: word(mem, at), own: word(mem, at + 1), slots: (0..SLOTS).map(slot).collect() }
    }

    pub fn is_empty(&self) -> bool {
        !self.slots.iter().any(Slot::is_block)
    }
}

#[derive(Clone, PartialEq, Eq, Debug)]
pub struct Partition {
    /// The index of the descriptor.
    pub at: usize,
    pub parent: usize,
    /// Word 1: the number of the block, in the parent's pool, that it stands in.
    pub number: u32,
    pub level: u32,
    /// Words 3 to 7.
    pub spare: [u32; 5],
    /// From entry 1 on.
    pub entries: [u32; ENTRIES],
    pub structures: Vec<Structure>,
}

impl Partition {
    /// What the words at this index say, whether the table has it or not.
    pub fn read(mem: &[u32], at: usize) -> Partition {
        let own = |place: usize| word(mem, at + place);
        let standing = (1..=STRUCTURES).map(|k| (k, own(BEFORE_STRUCTURES + k))).filter(|&(_, index)| index != 0);
        Partition {
            at,
            parent: own(0) as usize,
            number: own(1),
            level: own(2),
            spare: std::array::from_fn(|i| own(3 + i)),
            entries: std::array::from_fn(|i| own(BEFORE_ENTRIES + 1 + i)),
            structures: standing.map(|(k, index)| Structure::read(mem, k as u32, index as usize)).collect(),
        }
    }

    pub fn current(mem: &[u32]) -> Partition {
        Partition::read(mem, word(mem, CURRENT) as usize)
    }

    /// All slots, free or not, by number.
    pub fn slots(&self) -> impl Iterator<Item = &Slot> {
        self.structures.iter().flat_map(|structure| &structure.slots)
    }

    pub fn blocks(&self) -> impl Iterator<Item = &Slot> {
        self.slots().filter(|slot| slot.is_block())
    }

    /// The slot of a number, all 0 where no structure has it.
    pub fn slot(&self, number: u32) -> Slot {
        self.slots().find(|slot| slot.number == number).copied().unwrap_or_default()
    }

    pub fn block(&self, number: u32) -> Option<Slot> {
        self.blocks().find(|slot| slot.number == number).copied()
    }

    /// The block of a number, if it is in hand.
    pub fn hand(&self, number: u32) -> Option<Slot> {
        self.block(number).filter(Slot::in_hand)
    }

    /// The free slot of the lowest number.
    pub fn free_slot(&self) -> Option<Slot> {
        self.slots().filter(|slot| !slot.is_block()).min_by_key(|slot| slot.number).copied()
    }

    /// The lowest k that it has no structure for.
    pub fn free_k(&self) -> Option<u32> {
        (1..=STRUCTURES as u32).find(|&k| self.structures.iter().all(|structure| structure.k != k))
    }

    /// The entry of a block, from 1 on.
    pub fn entry_of(&self, number: u32) -> Option<u32> {
        (1..).zip(self.entries).find(|&(_, entry)| entry == number).map(|(e, _)| e)
    }
}

/// The index of the table word for a descriptor at this index.
pub fn table_word(at: usize) -> usize {
    HEADER_WORDS + at / 32
}

pub fn is_partition(mem: &[u32], at: usize) -> bool {
    0 < at && at < mem.len() && word(mem, table_word(at)) as usize == at
}

/// All partitions, in the order of the table.
pub fn partitions(mem: &[u32]) -> Vec<Partition> {
    let table = mem.get(HEADER_WORDS..table_word(mem.len())).unwrap_or(&[]);
    let here = table.iter().enumerate().filter(|&(j, &d)| d as usize / 32 == j && is_partition(mem, d as usize));
    here.map(|(_, &d)| Partition::read(mem, d as usize)).collect()
}

/// The partition and all that have it as parent, parent's parent and so on; itself first.
pub fn family(mem: &[u32], at: usize) -> Vec<Partition> {
    let (mut found, mut others) = (Vec::new(), partitions(mem));
    let mut generation: Vec<Partition> = others.extract_if(.., |partition| partition.at == at).collect();
    while !generation.is_empty() {
        let children = others.extract_if(.., |one| generation.iter().any(|above| above.at == one.parent)).collect();
        found.append(&mut std::mem::replace(&mut generation, children));
    }
    found
}
