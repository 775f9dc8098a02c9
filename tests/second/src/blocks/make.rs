//! A guided random maker of call sequences for blocks. It keeps its own memory, so that it knows which arguments would pass, and spoils some of them so that
//! each refusal comes up too.

mod works;

use super::calls::{format, perform, Said, CALLS};
use super::geometry::*;
use super::memory::*;
use crate::random::Random;

struct Maker<'a, Show: FnMut(&[u32], Said, &[u32])> {
    mem: &'a mut [u32],
    random: &'a mut Random,
    /// How many calls are still to be made.
    left: usize,
    show: Show,
}

/// So many calls for a memory of so many KiB; each line is a call number and its arguments.
pub fn make(seed: u32, count: usize, kib: usize) -> Vec<Vec<u32>> {
    let (mut mem, mut lines) = (vec![0; words_of_kib(kib)], Vec::new());
    // A length that isn't permitted is refused here; the calls are made all the same.
    let _ = format(&mut mem);
    guide(&mut mem, &mut Random::new(seed), count, |line, _, _| lines.push(line.to_vec()));
    lines
}

/// Makes and performs so many calls, and shows each with its answer and the memory after it.
pub fn guide(mem: &mut [u32], random: &mut Random, count: usize, show: impl FnMut(&[u32], Said, &[u32])) {
    let mut maker = Maker { mem, random, left: count, show };
    let permitted = Geometry::of_length(maker.mem.len()).is_some();
    while maker.left > 0 {
        // Each round makes one call at least; where every call is refused, one is as good as another.
        maker.any_call(permitted);
        if !permitted {
            continue;
        }
        match maker.random.below(24) {
            0..=5 => maker.mix(40),
            6 => maker.dig(3),
            7 => maker.dig_deep(),
            8 | 9 => maker.crumble(),
            10 => maker.gather(),
            11 | 12 => maker.fill(),
            13 => maker.switch_on(),
            14 | 15 => maker.lend_and_ask_back(),
            16 | 17 => maker.prepare_and_collect(),
            18 => maker.tear(),
            19 | 20 => maker.climb(4),
            21 => maker.descend(4),
            22 => maker.leave_bare(),
            _ if maker.random.once_in(4) => drop(maker.say(&[0])),
            _ => maker.clear(),
        }
    }
}

/// Call numbers for the mix, the more useful ones more often.
const MIX: [u32; 38] = [
    1, 1, 2, 3, 3, 4, 4, 5, 5, 5, 5, 5, 6, 6, 6, 7, 7, 7, 7, 8, 8, 8, 8, 9, 9, 9, 9, 9, 10, 10, 11, 11, 11, 12, 12, 12,
    13, 13,
];

impl<Show: FnMut(&[u32], Said, &[u32])> Maker<'_, Show> {
    /// The call's answer where it passes.
    fn say(&mut self, line: &[u32]) -> Option<u32> {
        self.left = self.left.checked_sub(1)?;
        let said = perform(self.mem, line[0], &line[1..])?;
        (self.show)(line, said, self.mem);
        said.answer.ok()
    }

    // What the memory holds.

    fn here(&self) -> Partition {
        Partition::current(self.mem)
    }

    /// The caller for 0, else a child.
    fn partition(&self, number: u32) -> Partition {
        match number {
            0 => self.here(),
            _ => Partition::read(self.mem, self.here().slot(number).place()),
        }
    }

    fn numbers(&self, partition: u32, keep: impl Fn(&Slot) -> bool) -> Vec<u32> {
        self.partition(partition).blocks().filter(|block| keep(block)).map(|block| block.number).collect()
    }

    /// Numbers of blocks in the caller's hand, in random order.
    fn hand(&mut self) -> Vec<u32> {
        let mut hand = self.numbers(0, Slot::in_hand);
        self.random.shuffle(&mut hand);
        hand
    }

    fn children(&self) -> Vec<u32> {
        self.numbers(0, |block| block.usage == HAS_DESCRIPTOR)
    }

    fn free_slots(&self, partition: u32) -> usize {
        self.partition(partition).slots().filter(|slot| !slot.is_block()).count()
    }

    // Arguments.

    /// Any number, often a bad one.
    fn stray(&mut self) -> u32 {
        let blocks = self.numbers(0, |_| true);
        match self.random.below(6) {
            0 => self.random.draw() as u32,
            1 => self.random.below(8) as u32,
            2 => 128 + self.random.below(16) as u32,
            3 => self.random.below(140) as u32,
            _ => self.random.pick(&blocks).unwrap_or(9),
        }
    }

    /// Mostly one of the good ones.
    fn mostly(&mut self, good: &[u32]) -> u32 {
        match self.random.pick(good) {
            Some(number) if !self.random.once_in(12) => number,
            _ => self.stray(),
        }
    }

    fn any_child(&mut self) -> u32 {
        let children = self.children();
        self.mostly(&children)
    }

    fn any_hand(&mut self) -> u32 {
        let hand = self.hand();
        self.mostly(&hand)
    }

    /// Oneself or a child.
    fn any_partition(&mut self) -> u32 {
        if self.random.once_in(2) {
            return 0;
        }
        self.any_child()
    }

    /// Rights that mostly pass.
    fn rights(&mut self, block: u32) -> u32 {
        let held = self.here().slot(block).rights;
        let any = self.random.below(8) as u32;
        match self.random.below(12) {
            0 => any,
            1 => 8 << self.random.below(29) | any,
            2 => 0,
            3..=6 => held & any,
            _ => held,
        }
    }

    /// An address where a cut passes, or one near.
    fn address(&mut self, block: u32) -> u32 {
        let Slot { start, end, .. } = self.here().slot(block);
        let inside = start.wrapping_add(self.random.below(end.wrapping_sub(start) as usize) as u32);
        match self.random.below(16) {
            0 => start.wrapping_add(31),
            1 | 2 => start.wrapping_add(32),
            3 => end.wrapping_sub(31),
            4 => end.wrapping_sub(32),
            5 => inside,
            6 => self.random.draw() as u32,
            7 => random_near(self.random, &[start, end, 0]),
            _ => {
                let room = (end.wrapping_sub(start) as usize).saturating_sub(2 * LEAST_BYTES as usize);
                start.wrapping_add(LEAST_BYTES + self.random.below(room + 1) as u32)
            }
        }
    }

    /// A block in hand of so many bytes or a few more, cut off where it has to be; sometimes a larger one as a whole.
    fn piece(&mut self, bytes: u32) -> Option<u32> {
        let mut hand = self.hand();
        let here = self.here();
        hand.retain(|&number| here.slot(number).bytes() >= bytes + 3);
        // The smallest that is enough, mostly, so that large ones last.
        if !self.random.once_in(4) {
            hand.sort_by_key(|&number| here.slot(number).bytes());
        }
        let number = *hand.first()?;
        let block = here.slot(number);
        // At times there is no room in it.
        let more = self.random.below(6) as u32 + if self.random.once_in(12) { 0 } else { 3 };
        if block.bytes() >= bytes + more + LEAST_BYTES && !self.random.once_in(16) {
            self.say(&[7, number, block.start + bytes + more])?;
        }
        Some(number)
    }

    // Single calls.

    /// Any call with any arguments, but for format where that would pass.
    fn any_call(&mut self, no_format: bool) {
        let number = if no_format { 1 + self.random.below(CALLS.len() - 1) } else { self.random.below(CALLS.len()) };
        let mut line = vec![number as u32];
        (0..CALLS[number].1).for_each(|_| line.push(self.stray()));
        self.say(&line);
    }

    fn mix(&mut self, calls: usize) {
        for _ in 0..calls {
            let number = self.random.pick(&MIX).unwrap_or(13);
            self.guided(number);
        }
    }

    fn guided(&mut self, number: u32) {
        if self.numbers(0, Slot::in_hand).is_empty() && !self.random.once_in(3) {
            // There is little to do here.
            let children = self.children();
            return match self.random.pick(&children) {
                Some(child) if self.random.once_in(3) => drop(self.say(&[12, child])),
                Some(child) if self.random.once_in(3) => drop(self.say(&[2, child])),
                _ => self.climb(1),
            };
        }
        let lacks_child = matches!(number, 2 | 5 | 6 | 12) && self.children().is_empty();
        if lacks_child && !self.random.once_in(6) {
            let number = if self.random.once_in(2) { 1 } else { 7 };
            return self.guided(number);
        }
        let line = match number {
            1 => {
                let piece = if self.random.once_in(3) { None } else { self.piece(128) };
                vec![1, piece.unwrap_or_else(|| self.any_hand())]
            }
            2 if !self.random.once_in(3) => return self.guided(10),
            3 => {
                let piece = if self.random.once_in(4) { None } else { self.piece(296) };
                vec![3, self.any_partition(), piece.unwrap_or_else(|| self.any_hand())]
            }
            4 => vec![4, self.any_partition()],
            5 => {
                let child = self.any_child();
                let bare = self.children().contains(&child) && self.partition(child).structures.is_empty();
                let piece = if bare && !self.random.once_in(6) { self.piece(296) } else { None };
                if let Some(block) = piece {
                    self.say(&[3, child, block]);
                }
                let block = self.any_hand();
                vec![5, child, block, self.rights(block)]
            }
            6 => {
                let child = self.any_child();
                let mut lent = self.numbers(0, |block| block.lent_to(child));
                if lent.is_empty() || self.random.once_in(8) {
                    lent = self.numbers(0, |block| block.usage == LENT);
                }
                if lent.is_empty() && !self.random.once_in(6) {
                    return self.guided(5);
                }
                vec![6, child, self.mostly(&lent)]
            }
            7 => {
                let block = self.any_hand();
                vec![7, block, self.address(block)]
            }
            8 => self.two_to_merge(),
            9 => {
                let partition = self.any_partition();
                let hand = self.numbers(partition, Slot::in_hand);
                let on = self.random.pick(&[0, 1, 1, 1, 2, u32::MAX]).unwrap_or(1);
                vec![9, partition, self.mostly(&hand), on]
            }
            10 => {
                let any = self.random.draw() as u32;
                let entry = if self.random.once_in(8) { any } else { self.random.below(12) as u32 };
                vec![10, self.any_partition(), entry]
            }
            11 => {
                let partition = self.any_partition();
                vec![11, partition, self.address_in(partition)]
            }
            13 => vec![13],
            _ => vec![number, self.any_child()],
        };
        self.say(&line);
    }

    /// Two blocks, mostly a piece and the next, in either order.
    fn two_to_merge(&mut self) -> Vec<u32> {
        let here = self.here();
        let pairs: Vec<_> = here.blocks().filter(|block| block.next != 0).map(|b| (b.number, b.next)).collect();
        let in_hand: Vec<_> =
            pairs.iter().copied().filter(|&(a, b)| here.hand(a).is_some() && here.hand(b).is_some()).collect();
        let adjoining: Vec<_> = here
            .blocks()
            .filter_map(|block| Some((block.number, here.blocks().find(|other| other.start == block.end)?.number)))
            .filter(|&(a, b)| here.hand(a).is_some() && here.hand(b).is_some())
            .collect();
        let pick = match self.random.below(8) {
            0 => self.random.pick(&pairs),
            1 | 2 => self.random.pick(&adjoining),
            3 => None,
            _ => self.random.pick(&in_hand),
        };
        let (one, other) = pick.unwrap_or_else(|| (self.any_hand(), self.any_hand()));
        if self.random.once_in(2) {
            vec![8, one, other]
        } else {
            vec![8, other, one]
        }
    }

    /// An address, mostly in a block of the partition or of the caller, or at the edge of one.
    fn address_in(&mut self, partition: u32) -> u32 {
        let of = if self.random.once_in(3) { self.here() } else { self.partition(partition) };
        let blocks: Vec<Slot> = of.blocks().copied().collect();
        match self.random.pick(&blocks) {
            Some(block) if !self.random.once_in(8) => {
                let inside = block.start.wrapping_add(self.random.below(block.bytes() as usize) as u32);
                self.random.pick(&[block.start, block.end, block.end.wrapping_sub(1), inside, inside]).unwrap_or(0)
            }
            _ if self.random.once_in(2) => self.random.draw() as u32,
            _ => self.random.below(4 * self.mem.len() + 8) as u32,
        }
    }
}

/// One of these, a byte before or after.
fn random_near(random: &mut Random, from: &[u32]) -> u32 {
    let near = random.pick(from).unwrap_or(0);
    near.wrapping_add(random.below(3) as u32).wrapping_sub(1)
}
