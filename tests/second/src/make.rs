//! A guided random maker of call sequences. It keeps its own memory, so that it knows which
//! arguments would pass, and spoils some of them so that each refusal comes up too.

mod contexts;

use crate::calls::{format, perform, Said};
use crate::geometry::*;
use crate::memory::*;
use crate::random::Random;

struct Maker<'a, Show: FnMut(&[u32], Said, &[u32])> {
    mem: &'a mut [u32],
    random: &'a mut Random,
    /// How many calls are still to be made.
    left: usize,
    /// Whether the caller's slot page is left out of its hand.
    spares_slots: bool,
    skip: &'a Skip<'a>,
    show: Show,
}

/// Whether a call is left out, given the memory before it.
pub type Skip<'a> = dyn Fn(&[u32], &[u32]) -> bool + 'a;

/// How a level is dug: at times with half of the pages and many with fewer rights; with all pages; or with all but so many, of which one in so many has
/// fewer rights.
#[derive(Clone, Copy, PartialEq)]
enum Dig {
    Loose,
    Tight,
    Apart { kept: usize, fewer: usize },
}

/// What is made below some partition.
#[derive(Clone, Copy)]
pub enum Work {
    /// So many calls.
    Calls(usize),
    /// One child with as many threes as it can have.
    Fill,
    /// A child with a three and pages, and in.
    Dig,
    /// As deep as there are children, one level more, and a create there.
    Descend,
    /// Pages lent with any rights to a child.
    Lend,
    /// Notify, dispatch and resume, with slot pages in all states.
    Talk,
}

/// The most calls of a work that ends by itself.
const MOST_CALLS: usize = 64;

/// So many calls for a memory of so many pages of the edition; each line is a call number and its arguments.
pub fn make(edition: Edition, seed: u32, count: usize, pages: usize) -> Vec<Vec<u32>> {
    let (mut mem, mut lines) = (vec![0; pages * edition.page_words()], Vec::new());
    // A bad page count is refused here; the calls are made all the same.
    let _ = format(&mut mem, edition.number);
    guide(&mut mem, &mut Random::new(seed), count, |line, _, _| lines.push(line.to_vec()));
    lines
}

/// Makes and performs so many calls, and shows each with its answer and the memory after it.
pub fn guide(mem: &mut [u32], random: &mut Random, count: usize, show: impl FnMut(&[u32], Said, &[u32])) {
    guide_but(mem, random, Work::Calls(count), &|_, _| false, show);
}

/// The same for any work, with some calls left out: they count, but are neither performed nor shown.
pub fn guide_but(
    mem: &mut [u32],
    random: &mut Random,
    work: Work,
    skip: &Skip,
    show: impl FnMut(&[u32], Said, &[u32]),
) {
    let mut maker = Maker { mem, random, left: MOST_CALLS, spares_slots: false, skip, show };
    match work {
        Work::Calls(count) => maker.left = count,
        Work::Fill => return maker.fill(),
        Work::Dig => return maker.dig_apart(),
        Work::Descend => {
            maker.descend(MOST_DEPTH);
            maker.dig_apart();
            return maker.create();
        }
        Work::Lend => return maker.lend_any(),
        Work::Talk => return maker.talk(),
    }
    while maker.left > 0 {
        match maker.random.below(23) {
            0..=7 => maker.mix(60),
            8 => maker.dig(3, Dig::Loose),
            9 | 22 => maker.dig_and_end(),
            10 | 11 => maker.dig_deep(),
            12 | 18 => maker.fill(),
            13 | 14 => maker.tear(),
            15 => maker.climb(3),
            16 | 17 => maker.descend(3),
            20 | 21 => maker.talk(),
            _ if maker.random.once_in(8) => drop(maker.say(&[0, maker.edition().number])),
            _ => maker.clear_top(),
        }
    }
}

/// Goes down so many levels from the current partition, as far as the pages last. At each some stay in hand, mostly the slot page too, at the first and the
/// last enough for another child; the last has fewer rights on many pages.
pub fn grow(mem: &mut [u32], random: &mut Random, levels: usize) {
    let mut maker =
        Maker { mem, random, left: usize::MAX, spares_slots: false, skip: &|_, _| false, show: |_, _, _| () };
    for level in 1..=levels {
        maker.spares_slots = !maker.random.once_in(4);
        let (least, fewer) = (if level == 1 || level == levels { 11 } else { 0 }, if level == levels { 4 } else { 16 });
        let kept = least + maker.random.below(10);
        maker.dig(1, Dig::Apart { kept, fewer });
    }
}

/// Call numbers for the mix, the more useful ones more often.
const MIX: [u32; 33] =
    [1, 1, 2, 3, 3, 3, 3, 3, 3, 4, 4, 4, 5, 6, 6, 6, 7, 7, 7, 8, 8, 9, 9, 10, 11, 11, 11, 12, 12, 12, 13, 14, 15];

impl<Show: FnMut(&[u32], Said, &[u32])> Maker<'_, Show> {
    /// The call's answer where it passes.
    fn say(&mut self, line: &[u32]) -> Option<u32> {
        self.left = self.left.checked_sub(1)?;
        if (self.skip)(self.mem, line) {
            return None;
        }
        let said = perform(self.mem, line[0], &line[1..])?;
        (self.show)(line, said, self.mem);
        said.answer.ok()
    }

    fn edition(&self) -> Edition {
        Edition::of(self.mem)
    }

    /// The virtual page at an address.
    fn page(&self, address: u32) -> VPage {
        VPage::of(self.edition(), address)
    }

    fn last_page(&self) -> u32 {
        VPage(self.edition().virtual_pages() - 1).address(self.edition())
    }

    /// The address of a virtual page, by its two table indices.
    fn address(&self, directory: usize, table: usize) -> u32 {
        VPage::at(self.edition(), directory, table).address(self.edition())
    }

    // What the memory holds, as addresses in the caller or in one of its children.

    fn mapped(&self, keep: impl Fn(&Partition, VPage, Mapping) -> bool) -> Vec<u32> {
        let (here, edition) = (Partition::current(self.mem), self.edition());
        here.mappings(self.mem).filter(|&(v, m)| keep(&here, v, m)).map(|(v, _)| v.address(edition)).collect()
    }

    /// Pages in the caller's hand with at least these rights, in random order.
    fn hand(&mut self, rights: u32) -> Vec<u32> {
        let mut hand = self.mapped(|here, v, m| here.in_hand(self.mem, v) && rights & !m.rights == 0);
        let slots = self.own_slots();
        hand.retain(|&page| !self.spares_slots || self.edition() != SMALL || page != slots);
        self.random.shuffle(&mut hand);
        hand
    }

    fn children(&self) -> Vec<u32> {
        self.mapped(|here, v, _| here.shadow1(self.mem, v) == IS_CHILD)
    }

    fn rights(&self, page: u32) -> u32 {
        Partition::current(self.mem).mapping(self.mem, self.page(page)).map_or(7, |m| m.rights)
    }

    fn partition(&self, child: u32) -> Option<Partition> {
        let mapping = Partition::current(self.mem).mapping(self.mem, self.page(child))?;
        self.children().contains(&child).then(|| Partition::at(self.mem, mapping.page))
    }

    /// Addresses that the child's tables cover, mapped or not.
    fn covered(&self, child: u32, mapped: bool) -> Vec<u32> {
        let Some(child) = self.partition(child) else { return Vec::new() };
        let places = child.tabled(self.mem).filter(|&(v, [entry, ..])| v.0 != 0 && (entry != 0) == mapped);
        places.map(|(v, _)| v.address(self.edition())).collect()
    }

    // Arguments.

    /// Any address, often a bad one.
    fn stray(&mut self) -> u32 {
        let (words, size) = (self.edition().page_words(), self.edition().page_bytes());
        let (pages, end) = (self.edition().virtual_pages(), self.edition().virtual_end());
        let page = (1 + self.random.below(pages as usize - 1) as u32) * size;
        match self.random.below(9) {
            // Large pages end with the 32 bits: there this is page 0, 1 or 2.
            0 => (end as u32).wrapping_add(size * self.random.below(3) as u32),
            1 => 4 * self.random.below(words) as u32,
            2 => page + 1 + self.random.below(size as usize - 1) as u32,
            3 => self.random.draw() as u32,
            4 => (pages - 1) * size,
            5 => page,
            _ => self.random.pick(&self.mapped(|_, _, _| true)).unwrap_or(page),
        }
    }

    /// Mostly one of the good ones.
    fn mostly(&mut self, good: &[u32]) -> u32 {
        match self.random.pick(good) {
            Some(address) if !self.random.once_in(9) => address,
            _ => self.stray(),
        }
    }

    /// An address where the child has no three.
    fn bare(&mut self, child: u32) -> u32 {
        let child = self.partition(child);
        let bare = |i: &usize| child.is_none_or(|c| !c.has_three(self.mem, *i));
        let words = self.edition().page_words();
        let indices: Vec<usize> = (0..words).filter(bare).collect();
        let last = indices.last().copied().filter(|_| self.random.once_in(6));
        let index = last.or_else(|| self.random.pick(&indices)).unwrap_or(0);
        let place = 1 + self.random.below(words - 1);
        self.address(index, place)
    }

    /// Mostly an address that the child's tables cover.
    fn target(&mut self, child: u32, mapped: bool) -> u32 {
        let covered = self.covered(child, mapped);
        if covered.is_empty() || self.random.once_in(10) {
            self.bare(child)
        } else {
            self.mostly(&covered)
        }
    }

    // Single calls with guided arguments.

    fn mix(&mut self, calls: usize) {
        for _ in 0..calls {
            let number = self.random.pick(&MIX).unwrap_or(10);
            // With large pages notify, dispatch and resume are always refused: few of them.
            let passed_over = number > 12 && self.edition() != SMALL && !self.random.once_in(4);
            self.guided(if passed_over { 11 } else { number });
        }
    }

    fn guided(&mut self, number: u32) {
        let children = self.children();
        let lacks_child = matches!(number, 2..=7 | 9 | 13..=15) && children.is_empty();
        let lacks_pages = match number {
            1 => self.hand(WRITE).len() < 5,
            6 => self.hand(READ + WRITE).len() < 3,
            _ => false,
        };
        if (lacks_child || lacks_pages) && !self.random.once_in(8) {
            return match self.hand(WRITE).len() {
                5.. => self.create(),
                _ if !children.is_empty() => self.tear(),
                _ if self.random.once_in(2) => drop(self.say(&[10])),
                _ => self.guided(11),
            };
        }
        let child = self.mostly(&children);
        let bare = self.partition(child).is_some_and(|c| c.three_count(self.mem) == 0);
        if bare && matches!(number, 3 | 4 | 7) && !self.random.once_in(8) {
            return match self.hand(READ + WRITE).len() {
                3.. => self.prepare(child),
                _ => self.guided(8),
            };
        }
        let line = match number {
            1 => return self.create(),
            13..=15 => return self.context_call(number, 10),
            3 => {
                let (hand, taken) = (self.hand(0), self.random.once_in(12));
                let some = if self.random.once_in(3) { 0 } else { READ + WRITE };
                let (page, any) = (self.mostly(&hand), self.random.below(9) as u32);
                // Write and execute may not be lent together.
                let kind = if self.random.once_in(3) { READ + EXECUTE } else { READ + WRITE };
                let rights = if self.random.once_in(4) { any } else { self.rights(page) & (any | some) & kind };
                vec![3, page, child, self.target(child, taken), rights]
            }
            4 | 5 | 7 => {
                let mapped = if number == 4 { !self.random.once_in(8) } else { self.random.once_in(3) };
                vec![number, child, self.target(child, mapped)]
            }
            6 => return self.prepare(child),
            10 => vec![10],
            8 | 11 | 12 => {
                let all = number == 8 || self.random.once_in(10);
                let pages = self.mapped(|_, _, m| all || m.accessible);
                let words = self.edition().page_words();
                let place = if number == 8 { 0 } else { 4 * self.random.below(words) as u32 };
                let address = self.mostly(&pages).wrapping_add(place);
                [number, address, self.random.draw() as u32][..if number == 12 { 3 } else { 2 }].to_vec()
            }
            _ => vec![number, child],
        };
        self.say(&line);
    }

    /// Five pages as a new child; sometimes some are spoilt.
    fn create(&mut self) {
        let rights = if self.random.once_in(4) { 0 } else { WRITE };
        let mut line = vec![1];
        line.extend(self.hand(rights));
        while line.len() < 6 {
            line.push(self.stray());
        }
        line.truncate(6);
        if self.random.once_in(6) {
            let (from, to) = (1 + self.random.below(5), 1 + self.random.below(5));
            line[to] = if self.random.once_in(2) { line[from] } else { self.stray() };
        }
        self.say(&line);
    }

    /// Chains three pages and prepares with them; sometimes a link, the target or the first is spoilt.
    fn prepare(&mut self, child: u32) {
        let rights = if self.random.once_in(6) { 0 } else { READ + WRITE };
        let three = self.hand(rights);
        let target = if self.random.once_in(8) { self.target(child, false) } else { self.bare(child) };
        let first = self.mostly(&three[..three.len().min(1)]);
        if let [a, b, c, ..] = three[..] {
            let mut links = [b, c, 0];
            if self.random.once_in(3) {
                let bad = [0, a, b, self.stray(), self.stray(), child];
                links[self.random.below(3)] = self.random.pick(&bad).unwrap_or(0);
            }
            for (page, link) in three.iter().zip(links) {
                self.say(&[12, *page, link]);
            }
        }
        self.say(&[6, child, target, first]);
    }

    // Longer works.

    /// Three good pages as a three for the child at a bare index; answers that index.
    fn furnish(&mut self, child: u32) -> Option<usize> {
        let target = self.bare(child);
        self.furnish_at(child, target)
    }

    /// The same at an address. The highest page is often a link.
    fn furnish_at(&mut self, child: u32, target: u32) -> Option<usize> {
        let mut hand = self.hand(READ + WRITE);
        if hand.len() > 2 && self.random.once_in(3) {
            let highest = (0..hand.len()).max_by_key(|&place| hand[place])?;
            hand.swap(1, highest);
        }
        let [a, b, c, ..] = hand[..] else { return None };
        for line in [[12, a, b], [12, b, c], [12, c, 0]] {
            self.say(&line);
        }
        self.say(&[6, child, target, a]);
        Some(self.page(target).directory_index(self.edition()))
    }

    /// Goes down level by level: a child, a three for it, pages lent to it, and in.
    fn dig(&mut self, levels: usize, way: Dig) {
        for _ in 0..levels {
            let [a, b, c, d, e, _, _, _, _, ..] = self.hand(READ + WRITE)[..] else { break };
            let refused = self.say(&[1, a, b, c, d, e]).is_none();
            if refused && matches!(way, Dig::Apart { .. }) {
                break;
            }
            // Often where the child's slot page is to be.
            let elsewhere = self.random.once_in(if matches!(way, Dig::Apart { .. }) { 6 } else { 2 });
            let target = if elsewhere { self.bare(a) } else { self.last_page() };
            let Some(index) = self.furnish_at(a, target) else { break };
            self.lend(a, index, way);
            while self.left > 0 && matches!(way, Dig::Apart { kept, .. } if self.hand(0).len() > kept + 3) {
                let Some(index) = self.furnish(a) else { break };
                self.lend(a, index, way);
            }
            self.say(&[9, a]);
        }
    }

    /// One level, with some pages that stay in hand and fewer rights on many of the others.
    fn dig_apart(&mut self) {
        let kept = self.random.below(12);
        self.dig(1, Dig::Apart { kept, fewer: 4 });
    }

    /// Lends pages to the child, at places of the three at this index.
    fn lend(&mut self, child: u32, index: usize, way: Dig) {
        let words = self.edition().page_words();
        let mut slots: Vec<u32> = (0..words).map(|j| self.address(index, j)).collect();
        slots.retain(|&slot| slot != 0);
        let last = self.address(index, words - 1);
        self.random.shuffle(&mut slots);
        if !self.random.once_in(if matches!(way, Dig::Apart { .. }) { 8 } else { 2 }) {
            slots.retain(|&slot| slot != last);
            slots.insert(0, last);
        }
        let mut pages = self.hand(0);
        match way {
            Dig::Loose if self.random.once_in(2) => pages.truncate(2 + pages.len() / 2),
            Dig::Apart { kept, .. } => pages.truncate(pages.len() - kept.min(pages.len() / 2)),
            _ => (),
        }
        for (page, slot) in pages.into_iter().zip(slots) {
            let fewer = match way {
                Dig::Loose => self.random.once_in(3) || self.random.once_in(40),
                Dig::Tight => self.random.once_in(40),
                Dig::Apart { fewer, .. } => self.random.once_in(fewer),
            };
            let some = if fewer { self.random.below(6) as u32 } else { READ + WRITE };
            // Words that the child's end wipes, or leaves to a caller that may not write them.
            if way != Dig::Tight && self.random.once_in(if fewer { 2 } else { 4 }) && self.rights(page) & WRITE != 0 {
                let (place, word) = (4 * self.random.below(words) as u32, self.random.draw() as u32);
                self.say(&[12, page + place, word]);
            }
            self.say(&[3, page, child, slot, self.rights(page) & some]);
        }
    }

    /// Lends some pages with any rights, held or not, to a child that has tables.
    fn lend_any(&mut self) {
        if self.children().is_empty() {
            self.create();
        }
        let Some(child) = self.random.pick(&self.children()) else { return };
        if self.covered(child, false).is_empty() {
            self.furnish(child);
        }
        for page in self.hand(0).into_iter().take(8) {
            let taken = self.random.once_in(4);
            let (target, rights) = (self.target(child, taken), self.random.below(WRITE_EXECUTE as usize) as u32);
            self.say(&[3, page, child, target, rights]);
        }
    }

    /// Some levels down, up again, and a child deleted there with all that it was lent: below the root, too.
    fn dig_and_end(&mut self) {
        self.dig(3, Dig::Loose);
        let levels = 1 + self.random.below(3);
        self.climb(levels);
        if let Some(child) = self.random.pick(&self.children()) {
            self.say(&[2, child]);
        }
    }

    /// From a cleared partition as deep as the pages allow, and a create there.
    fn dig_deep(&mut self) {
        self.clear_top();
        self.dig(MOST_DEPTH, Dig::Tight);
        self.create();
        self.mix(20);
    }

    /// From a cleared partition one child with threes until its list is full, and one more.
    fn fill(&mut self) {
        self.clear_top();
        let [a, b, c, d, e, ..] = self.hand(READ + WRITE)[..] else { return };
        self.say(&[1, a, b, c, d, e]);
        for _ in 0..=MOST_THREES {
            self.furnish(a);
        }
        let target = self.bare(a);
        self.say(&[5, a, target]);
        // Room given back by collect is used at once, with the chain that it leaves.
        if let Some(dropped) = self.random.pick(&self.covered(a, false)) {
            if let Some(first) = self.say(&[7, a, dropped]) {
                self.say(&[6, a, target, first]);
            }
        }
        for number in [5, 3, 7, 7, 5, 6] {
            self.guided(number);
        }
    }

    /// Takes pages and threes back from one child, sometimes the child as well.
    fn tear(&mut self) {
        let Some(child) = self.random.pick(&self.children()) else { return };
        for place in self.covered(child, true) {
            if !self.random.once_in(4) {
                self.say(&[4, child, place]);
            }
        }
        let mut places = self.covered(child, false);
        places.dedup_by_key(|place| self.page(*place).directory_index(self.edition()));
        for place in places {
            self.say(&[7, child, place]);
        }
        if self.random.once_in(3) {
            self.say(&[2, child]);
        }
    }

    /// Deletes the children of the root, or of the partition above which calls are left out.
    fn clear_top(&mut self) {
        self.climb(MOST_DEPTH);
        for child in self.children() {
            self.say(&[2, child]);
        }
    }

    fn climb(&mut self, levels: usize) {
        for _ in 0..levels {
            let at_root = Partition::current(self.mem).descriptor == ROOT_PAGE;
            if !(self.skip)(self.mem, &[10]) && (!at_root || self.random.once_in(40)) {
                self.say(&[10]);
            }
        }
    }

    fn descend(&mut self, levels: usize) {
        for _ in 0..levels {
            if let Some(child) = self.random.pick(&self.children()) {
                self.say(&[9, child]);
            }
        }
    }
}
