//! Guided calls of notify, dispatch and resume, with slot pages that are there, lent away, taken, removed or held with fewer rights.

use super::Maker;
use crate::calls::Said;
use crate::contexts::*;
use crate::geometry::*;
use crate::memory::*;

impl<Show: FnMut(&[u32], Said, &[u32])> Maker<'_, Show> {
    fn own(&self) -> Partition {
        Partition::current(self.mem)
    }

    /// The address of the slot page of the current partition. Those of its children have theirs at the last page.
    pub(super) fn own_slots(&self) -> u32 {
        slots_at(self.mem, &self.own()).address(SMALL)
    }

    /// A call of this number to a child, once in so many times to the parent, or to an address that is often bad.
    pub(super) fn context_call(&mut self, number: u32, times: usize) {
        let children = self.children();
        let target = match self.random.once_in(times) {
            true => 0,
            false if self.random.once_in(10) => self.stray(),
            false => self.mostly(&children),
        };
        // Few that make the root current, so that other calls are made below it.
        if (number, target) != (15, 0) || !self.yields() || self.random.once_in(8) {
            self.context_call_to(number, target);
        }
    }

    /// Whether the parent's slot 2 isn't valid.
    fn yields(&self) -> bool {
        let parent = named_page(self.mem, self.own().descriptor, PARENT);
        let page = slot_page(self.mem, &Partition::at(self.mem, parent));
        parent != HEADER && page.is_ok_and(|page| word(self.mem, page, slot_word(TO_CHILD, VALID)) != 1)
    }

    /// The slot of resume is mostly one that is allowed.
    fn context_call_to(&mut self, number: u32, target: u32) {
        let line = match number {
            13 => {
                let mut line = vec![13, target];
                line.extend((0..10).map(|_| self.any_word()));
                line
            }
            14 => vec![14, target],
            _ => {
                let any = self.random.draw() as u32;
                let slot = match self.random.below(12) {
                    0 => self.random.pick(&[4, 5, 6, any]).unwrap_or(4),
                    1 => any % SLOTS,
                    _ if target == 0 => TO_CHILD,
                    _ => any % SLOTS,
                };
                vec![15, target, slot]
            }
        };
        self.say(&line);
    }

    fn any_word(&mut self) -> u32 {
        let any = self.random.draw() as u32;
        self.random.pick(&[0, 1, any, any]).unwrap_or(any)
    }

    /// Stores some words of a slot that stands on the caller's page at this address: mostly one that is valid then.
    fn fill_slot(&mut self, page: u32, slot: u32) {
        let any = self.random.draw() as u32;
        let padding = self.random.pick(&[12, 13, 14, 15]).unwrap_or(12);
        let valid = self.random.pick(&[1, 1, 1, 1, 2, 3, 0]).unwrap_or(1);
        let pipflags = self.random.pick(&[0, 1, any & !1, any | 1]).unwrap_or(0);
        for (index, value) in [(PIPFLAGS, pipflags), (VALID, valid), (padding, any), (3, any)] {
            self.say(&[12, page + 4 * slot_word(slot, index) as u32, value]);
        }
    }

    /// Fills a slot of a child, at the address where the caller has its slot page, and resumes it.
    fn resume_child(&mut self) {
        let Some(child) = self.random.pick(&self.children()) else { return };
        let slots = VPage::of(SMALL, self.last_page());
        let Some(lent) = self.partition(child).map(|own| own.shadow2(self.mem, slots)).filter(|&page| page != 0) else {
            return self.give_slots(child, READ + WRITE);
        };
        let slot = self.random.below(SLOTS as usize) as u32;
        self.fill_slot(lent, slot);
        self.say(&[15, child, slot]);
    }

    /// Fills a slot of the caller's own, or notifies; and a child resumes slot 2.
    fn resume_parent(&mut self) {
        let (own, slots) = (self.own(), self.own_slots());
        let Some(child) = self.random.pick(&self.children()) else { return };
        let slot = self.random.pick(&[TO_CHILD, TO_CHILD, TO_PARENT]).unwrap_or(TO_CHILD);
        self.fill_slot(slots, slot);
        let number = self.random.pick(&[9, 13, 14]).unwrap_or(9);
        if number == 9 {
            self.say(&[9, child]);
        } else {
            self.context_call_to(number, child);
        }
        if self.own() != own {
            let slot = if self.random.once_in(12) { self.random.below(5) as u32 } else { TO_CHILD };
            self.say(&[15, 0, slot]);
        }
    }

    /// A page for the child's slots, with these rights, and a three there.
    pub(super) fn give_slots(&mut self, child: u32, rights: u32) {
        let at = self.last_page();
        let Some(partition) = self.partition(child) else { return };
        if !partition.has_three(self.mem, self.page(at).directory_index(SMALL)) {
            self.furnish_at(child, at);
        }
        if partition.mapping(self.mem, self.page(at)).is_none() {
            let own = self.own_slots();
            // The caller's own slot page only where there is no other.
            let mut hand = self.hand(rights);
            hand.sort_by_key(|&page| page == own);
            if let Some(&page) = hand.first() {
                self.say(&[3, page, child, at, rights]);
            }
        }
    }

    /// A child that has a child, each with its slot page, and into the upper one.
    fn dig_with_slots(&mut self) {
        let rights = READ + WRITE;
        for _ in 0..2 {
            let [a, b, c, d, e, _, _, _, _, ..] = self.hand_but_slots(rights)[..] else { break };
            if self.say(&[1, a, b, c, d, e]).is_none() {
                break;
            }
            self.give_slots(a, rights);
            let target = self.last_page();
            let kept = 2 + self.random.below(4);
            let pages = self.hand_but_slots(rights);
            let lent = pages.len().saturating_sub(kept).min(18);
            for (page, place) in pages.into_iter().take(lent).zip(2..) {
                self.say(&[3, page, a, target - 256 * place, rights]);
            }
            self.say(&[9, a]);
        }
        if self.random.once_in(3) || self.children().is_empty() {
            self.say(&[10]);
        }
    }

    /// Pages in hand with these rights, but for the caller's slot page.
    fn hand_but_slots(&mut self, rights: u32) -> Vec<u32> {
        let spares = std::mem::replace(&mut self.spares_slots, true);
        let hand = self.hand(rights);
        self.spares_slots = spares;
        hand
    }

    /// Notify and resume that ask for the current partition's slot page, as it is: its own notify, a child's resume and its parent's. It is current again
    /// where no resume makes the root current.
    fn ask(&mut self) {
        let own = self.own();
        if let Some(child) = self.random.pick(&self.children()) {
            if !self.random.once_in(3) {
                self.context_call_to(13, child);
            }
            if self.own() == own {
                self.say(&[9, child]);
            }
            self.say(&[15, 0, TO_CHILD]);
            if self.own() != own && self.own().descriptor != ROOT_PAGE {
                self.say(&[10]);
            }
        }
        if self.own() != own || own.descriptor == ROOT_PAGE {
            return;
        }
        let at = word(self.mem, own.descriptor, 0);
        if self.random.once_in(2) {
            self.context_call_to(13, 0);
        }
        if self.own() == own {
            self.say(&[10]);
        }
        let slot = self.random.below(SLOTS as usize) as u32;
        self.say(&[15, at, slot]);
        if self.own() != own {
            self.say(&[9, at]);
        }
    }

    /// The slot page serves a child of the caller's as a kernel page, is asked for, and comes back.
    fn take_slots(&mut self) {
        let own = self.own_slots();
        if !self.hand(READ + WRITE).contains(&own) {
            return;
        }
        let others = self.hand_but_slots(READ + WRITE);
        if self.random.once_in(2) {
            let [a, b, c, d, ..] = others[..] else { return };
            let mut five = [a, b, c, d, own];
            self.random.shuffle(&mut five);
            self.say(&[&[1][..], &five].concat());
            self.ask();
            self.say(&[2, five[0]]);
            self.ask();
        } else {
            let Some(child) = self.random.pick(&self.children()) else { return };
            let [a, b, ..] = others[..] else { return };
            let mut three = [a, b, own];
            self.random.shuffle(&mut three);
            let target = self.bare(child);
            for (page, link) in three.into_iter().zip([three[1], three[2], 0]) {
                self.say(&[12, page, link]);
            }
            self.say(&[6, child, target, three[0]]);
            self.ask();
            self.say(&[7, child, target]);
            self.ask();
        }
    }

    /// The slot page is lent to a child, asked for, and comes back.
    fn lend_slots(&mut self) {
        let (own, at) = (self.own_slots(), self.last_page());
        let Some(child) = self.random.pick(&self.children()) else { return };
        let covered = self.covered(child, false);
        let Some(target) = self.random.pick(&covered) else { return };
        let target = if covered.contains(&at) { at } else { target };
        self.say(&[3, own, child, target, READ + WRITE]);
        self.ask();
        self.say(&[4, child, target]);
    }

    /// The parent takes the slot page back; the caller is asked for it, at times with fewer rights.
    fn remove_slots(&mut self) {
        let own = self.own();
        if own.descriptor == ROOT_PAGE || (self.skip)(self.mem, &[10]) {
            return;
        }
        let (at, slots) = (word(self.mem, own.descriptor, 0), self.last_page());
        self.say(&[10]);
        self.say(&[4, at, slots]);
        if self.random.once_in(3) {
            self.say(&[15, at, TO_CHILD]);
        } else {
            let rights = self.random.pick(&[READ, WRITE, READ + EXECUTE, 0]).unwrap_or(READ);
            self.give_slots(at, rights);
        }
        self.say(&[9, at]);
        self.ask();
        self.say(&[10]);
        if self.random.once_in(2) {
            self.say(&[4, at, slots]);
            self.give_slots(at, READ + WRITE);
        }
    }

    /// Back and forth between partitions, with words in slots and slot pages in all states.
    pub(super) fn talk(&mut self) {
        if self.edition() != SMALL {
            return (13..=15).for_each(|number| self.context_call(number, 3));
        }
        if self.children().is_empty() || self.random.once_in(4) {
            self.dig_with_slots();
        }
        for _ in 0..8 {
            match self.random.below(14) {
                0 | 1 => self.resume_child(),
                2 => self.resume_parent(),
                3 => self.ask(),
                4 => self.take_slots(),
                5 => self.lend_slots(),
                6 => self.remove_slots(),
                7 => {
                    if let Some(child) = self.random.pick(&self.children()) {
                        self.give_slots(child, READ + WRITE);
                    }
                }
                8 => self.climb(1),
                _ => {
                    let number = 13 + self.random.below(3) as u32;
                    self.context_call(number, 3);
                }
            }
        }
        self.descend(MOST_DEPTH);
    }
}
