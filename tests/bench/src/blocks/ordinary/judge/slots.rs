//! The slots of a structure: sentences 6 to 9.

use super::super::partition::*;
use super::super::sizes::*;
use super::super::slot::*;
use super::view::View;
use super::{sound, Judged};

impl View<'_> {
    pub fn slots(&self, k: u32, structure: &Structure) -> Judged {
        for (number, slot) in slots_of(k, structure) {
            if slot.usage == FREE {
                self.free(&slot)?;
            } else {
                self.form(&slot)?;
                self.usage(number, &slot)?;
                self.piece(number, &slot)?;
            }
        }
        Some(())
    }

    fn free(&self, slot: &Slot) -> Judged {
        let Slot { start, end, rights, usage: _, child, link, source, previous, next } = *slot;
        sound(start | end | rights | child | link | source | previous | next == 0)
    }

    fn form(&self, slot: &Slot) -> Judged {
        let long = slot.end.checked_sub(slot.start).is_some_and(|bytes| bytes >= LEAST_BYTES);
        sound(long && slot.end <= self.sizes.end() && slot.rights <= ALL_RIGHTS && slot.usage <= HAS_STRUCTURE)
    }

    /// What child and link name, by use.
    fn usage(&self, number: u32, block: &Slot) -> Judged {
        match block.usage {
            IN_HAND => sound(block.child | block.link == 0),
            LENT => {
                let first = slot(self.words, self.child(block.child)?, block.link)?;
                sound(first.source == number && first.previous == 0)
            }
            HAS_DESCRIPTOR => {
                sound(block.child | block.link == 0 && block.has_room(DESCRIPTOR_WORDS))?;
                let [parent, own, ..] = *standing::<2>(self.words, block.place())?;
                sound(is_partition(self.words, block.place()) && parent == self.at && own == number)
            }
            _ => {
                sound(block.has_room(STRUCTURE_WORDS))?;
                let of = if block.child == 0 { self.own } else { self.child(block.child)? };
                sound((1..=STRUCTURES).contains(&block.link))?;
                sound(of[BEFORE_STRUCTURES + block.link as usize] == block.place())?;
                let head = standing(self.words, block.place())?;
                sound(*head == [number, u32::from(block.child == 0)])
            }
        }
    }

    /// The child that stands in the block of a number.
    fn child(&self, number: u32) -> Option<&Descriptor> {
        let block = slot(self.words, self.own, number)?;
        sound(block.usage == HAS_DESCRIPTOR)?;
        standing(self.words, block.place())
    }

    /// What a block comes from, and its neighbours in the chain of pieces.
    fn piece(&self, number: u32, block: &Slot) -> Judged {
        let (start, end, first) = match self.parent {
            None => {
                sound(block.source == 0 && block.rights == ALL_RIGHTS)?;
                (self.sizes.first_byte, self.sizes.end(), SLOTS)
            }
            Some(parent) => {
                let source = slot(self.words, parent, block.source)?;
                sound(source.is_lent_to(self.number()) && block.rights & !source.rights == 0)?;
                (source.start, source.end, source.link)
            }
        };
        match block.previous {
            0 => sound(block.start == start && number == first)?,
            previous => sound(slot(self.words, self.own, previous)?.next == number)?,
        }
        match block.next {
            0 => sound(block.end == end),
            next => {
                let next = slot(self.words, self.own, next)?;
                sound(next.previous == number && next.start == block.end)?;
                sound(next.source == block.source && next.rights == block.rights)
            }
        }
    }
}
