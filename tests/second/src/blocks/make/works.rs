//! Longer works of the maker: what single guided calls seldom come to.

use super::super::calls::Said;
use super::super::geometry::*;
use super::super::memory::*;
use super::Maker;

impl<Show: FnMut(&[u32], Said, &[u32])> Maker<'_, Show> {
    /// A new child with a structure. The caller has a slot more, where it can.
    fn child(&mut self) -> Option<u32> {
        self.make_slots(4);
        let child = self.piece(128)?;
        self.say(&[1, child])?;
        let structure = self.piece(296)?;
        self.say(&[3, child, structure])?;
        Some(child)
    }

    /// Structures for the caller itself until it has so many free slots.
    fn make_slots(&mut self, least: usize) {
        for _ in 0..4 {
            if self.free_slots(0) >= least {
                return;
            }
            let Some(block) = self.piece(296) else { return self.gather() };
            if self.say(&[3, 0, block]).is_none() {
                return;
            }
        }
    }

    /// Lends a block in hand, the largest or any.
    fn lend(&mut self, child: u32) -> Option<u32> {
        let here = self.here();
        let any = *self.hand().first()?;
        let largest = here.blocks().filter(|block| block.in_hand()).max_by_key(|block| block.bytes())?;
        let block = if self.random.once_in(4) { any } else { largest.number };
        let held = here.slot(block).rights;
        let rights = if self.random.once_in(4) { held & self.random.below(8) as u32 } else { held };
        self.say(&[5, child, block, rights])?;
        Some(block)
    }

    /// Goes down level by level: a child with a structure, blocks lent to it, and in.
    pub(super) fn dig(&mut self, levels: usize) {
        for _ in 0..levels {
            let Some(child) = self.child() else { return };
            for _ in 0..1 + self.random.below(3) {
                self.lend(child);
            }
            if self.say(&[12, child]).is_none() {
                return;
            }
            let calls = self.random.below(4);
            self.mix(calls);
        }
    }

    /// As deep as the bytes last, from the root on.
    pub(super) fn dig_deep(&mut self) {
        self.climb(usize::MAX);
        self.clear();
        for _ in 0..10 + self.random.below(16) {
            let Some(child) = self.child() else { break };
            let lent = self.lend(child);
            if lent.is_none() || self.say(&[12, child]).is_none() {
                break;
            }
        }
        self.mix(10);
        let levels = self.random.below(20);
        self.climb(levels);
        self.tear();
    }

    /// Cuts until there is no free slot, and once more; at times merges some again.
    pub(super) fn crumble(&mut self) {
        for _ in 0..14 {
            let block = self.any_hand();
            let address = self.address(block);
            self.say(&[7, block, address]);
            if self.random.once_in(6) {
                let line = self.two_to_merge();
                self.say(&line);
            }
        }
    }

    /// Merges all that can be merged, and collects some of what can be collected.
    pub(super) fn gather(&mut self) {
        for _ in 0..150 {
            let here = self.here();
            let next = here.blocks().find(|block| block.in_hand() && here.hand(block.next).is_some());
            let Some(lower) = next.copied() else { break };
            let line =
                if self.random.once_in(2) { [8, lower.number, lower.next] } else { [8, lower.next, lower.number] };
            if self.say(&line).is_none() {
                break;
            }
        }
        if self.random.once_in(3) {
            while self.say(&[4, 0]).is_some() && !self.random.once_in(4) {}
        }
    }

    /// As many structures as a partition can have, and one more.
    pub(super) fn fill(&mut self) {
        if self.random.once_in(2) {
            self.clear();
        }
        let of = if self.random.once_in(3) { None } else { self.children().last().copied().or_else(|| self.child()) };
        let of = of.unwrap_or(0);
        for _ in 0..STRUCTURES + 1 {
            self.make_slots(3);
            let Some(block) = self.piece(296) else { break };
            if self.say(&[3, of, block]).is_none() {
                break;
            }
        }
        // A gap in the middle: the lowest are taken by blocks.
        if of != 0 && self.random.once_in(2) {
            for _ in 0..9 {
                self.lend(of);
            }
            self.say(&[4, of]);
            self.say(&[4, of]);
            if let Some(block) = self.piece(296) {
                self.say(&[3, of, block]);
            }
        }
    }

    /// Enables more blocks than there are entries, and one of them again.
    pub(super) fn switch_on(&mut self) {
        let children = self.children();
        let of = if self.random.once_in(2) { 0 } else { self.random.pick(&children).unwrap_or(0) };
        if of == 0 {
            self.make_slots(9);
            self.crumble();
        } else {
            for _ in 0..9 {
                self.make_slots(2);
                let block = self.piece(32);
                if let Some(block) = block {
                    self.say(&[5, of, block, 0]);
                }
            }
        }
        let mut hand = self.numbers(of, Slot::in_hand);
        self.random.shuffle(&mut hand);
        for &block in hand.iter().take(10).chain(hand.first()) {
            self.say(&[9, of, block, 1]);
        }
        let (entry, calls) = (self.random.below(11) as u32, self.random.below(12));
        self.say(&[10, of, entry]);
        self.mix(calls);
    }

    /// Lends three blocks. The child makes a child of the first and a structure of the second, and lends it the third; or cuts, or merges again, or enables.
    /// Then all are asked back.
    pub(super) fn lend_and_ask_back(&mut self) {
        let Some(child) = self.child() else { return };
        let mut lent = Vec::new();
        for bytes in [128, 296, 64, 64] {
            self.make_slots(2);
            let Some(block) = self.piece(bytes) else { break };
            let rights = self.here().slot(block).rights;
            if let Some(number) = self.say(&[5, child, block, rights]) {
                lent.push((block, number));
            }
        }
        if self.say(&[12, child]).is_none() {
            return;
        }
        let way = self.random.below(4);
        if let [(_, first), (_, second), (_, third), (_, fourth)] = lent[..] {
            if way < 2 {
                self.say(&[1, first]);
                self.say(&[3, first, second]);
            }
            match way {
                0 => drop(self.say(&[5, first, third, 0])),
                1 => self.cut_and_lend(first, third),
                2 => drop(self.say(&[3, 0, second])),
                _ => {
                    self.say(&[9, 0, third, 1]);
                    self.say(&[9, 0, fourth, 1]);
                }
            }
            let address = self.address(fourth);
            if let Some(piece) = self.say(&[7, fourth, address]) {
                if self.random.once_in(2) {
                    self.say(&[8, piece, fourth]);
                } else if self.random.once_in(3) {
                    self.say(&[1, fourth]);
                }
            }
        }
        let calls = self.random.below(3);
        self.mix(calls);
        while self.here().block(child).is_none() || !self.children().contains(&child) {
            if self.say(&[13]).is_none() {
                break;
            }
        }
        self.random.shuffle(&mut lent);
        for (block, _) in lent {
            self.say(&[6, child, block]);
        }
    }

    /// Cuts a block and lends the first piece or the second to a child.
    fn cut_and_lend(&mut self, child: u32, block: u32) {
        let address = self.here().slot(block).start + LEAST_BYTES;
        if let Some(second) = self.say(&[7, block, address]) {
            let lent = if self.random.once_in(2) { block } else { second };
            self.say(&[5, child, lent, 0]);
        }
    }

    /// Structures for a child, prepared by both and collected by both.
    pub(super) fn prepare_and_collect(&mut self) {
        let Some(child) = self.child() else { return };
        for _ in 0..1 + self.random.below(3) {
            self.make_slots(3);
            if let Some(block) = self.piece(296) {
                self.say(&[3, child, block]);
            }
        }
        self.say(&[4, child]);
        if self.random.once_in(2) {
            let block = self.any_hand();
            self.say(&[3, child, block]);
        }
        self.lend(child);
        if self.say(&[12, child]).is_none() {
            return;
        }
        for _ in 0..self.random.below(3) {
            if let Some(block) = self.piece(296) {
                self.say(&[3, 0, block]);
            }
        }
        for _ in 0..self.random.below(3) {
            self.say(&[4, 0]);
        }
        self.say(&[13]);
        for _ in 0..self.random.below(4) {
            self.say(&[4, child]);
        }
    }

    /// A child's only structure is collected, by the child or by its parent.
    pub(super) fn leave_bare(&mut self) {
        let Some(child) = self.child() else { return };
        if self.random.once_in(2) {
            self.say(&[12, child]);
            self.say(&[4, 0]);
            self.mix(2);
            self.say(&[13]);
        } else {
            self.say(&[4, child]);
        }
        self.lend(child);
        if self.random.once_in(2) {
            self.say(&[2, child]);
        }
    }

    /// Deletes a child.
    pub(super) fn tear(&mut self) {
        let children = self.children();
        if let Some(child) = self.random.pick(&children) {
            self.say(&[2, child]);
        }
    }

    pub(super) fn climb(&mut self, levels: usize) {
        for _ in 0..levels.min(self.here().level as usize) {
            let child = self.here().number;
            self.say(&[13]);
            // At times the one that was left is looked at.
            if self.random.once_in(3) {
                let (address, entry) = (self.address_in(child), self.random.below(10) as u32);
                self.say(&[11, child, address]);
                self.say(&[10, child, entry]);
            }
        }
    }

    pub(super) fn descend(&mut self, levels: usize) {
        for _ in 0..levels {
            let children = self.children();
            let Some(child) = self.random.pick(&children) else { return };
            self.say(&[12, child]);
        }
    }

    /// Goes up to the root and takes everything back.
    pub(super) fn clear(&mut self) {
        self.climb(usize::MAX);
        for child in self.children() {
            self.say(&[2, child]);
        }
        self.gather();
        while self.say(&[4, 0]).is_some() {}
        self.gather();
    }
}
