//! Builds a tree by calls that all pass.

use super::call::{Call, Step, Words};
use crate::kernel;
use crate::patch::Patch;
use second::blocks::geometry::{words_of_kib, Geometry, ALL_RIGHTS, LEAST_BYTES, STRUCTURES};
use second::blocks::memory::{Partition, Slot, CURRENT};

/// The bytes of a descriptor and of a structure.
pub const DESCRIPTOR: u32 = 128;
pub const STRUCTURE: u32 = 296;

#[derive(Clone)]
pub struct Builder {
    pub memory: Vec<u32>,
    calls: Vec<Call>,
    /// The number of the block with what is left in the caller's hand, and those of its ancestors.
    rests: Vec<u32>,
}

impl Builder {
    pub fn new(kib: usize) -> Builder {
        let mut built = Builder { memory: vec![0; words_of_kib(kib)], calls: Vec::new(), rests: vec![8] };
        built.call(0, &[]).expect("a length that is permitted");
        built
    }

    /// The call's word where it passes. The tree is sound by how it is built; whole trees are judged when they are measured.
    pub fn call(&mut self, number: u32, arguments: &[u32]) -> Option<u32> {
        let call = Call::new(number, arguments);
        let words = call.trusting(&mut self.memory).ok()?;
        self.calls.push(call);
        match words {
            Words::One(word) => Some(word),
            Words::Told(told) => Some(u32::from(told.is_some())),
        }
    }

    /// Some work that is done as a whole or not at all.
    pub fn attempt<R>(&mut self, work: impl FnOnce(&mut Builder) -> Option<R>) -> Option<R> {
        let before = self.clone();
        let done = work(self);
        if done.is_none() {
            *self = before;
        }
        done
    }

    pub fn here(&self) -> Partition {
        Partition::current(&self.memory)
    }

    pub fn rest(&self) -> u32 {
        *self.rests.last().expect("a caller")
    }

    /// How many bytes the caller has left.
    pub fn left(&self) -> u32 {
        self.here().hand(self.rest()).map_or(0, |rest| rest.bytes())
    }

    /// How many slots the caller has free, and how many structures it may have more.
    fn free(&self) -> (usize, usize) {
        let here = self.here();
        (here.slots().filter(|slot| !slot.is_block()).count(), STRUCTURES - here.structures.len())
    }

    /// Cuts so many bytes off what is left. Where the slot for it is the last one, the caller has a structure more before.
    pub fn take(&mut self, bytes: u32) -> Option<u32> {
        if let (1, 1..) = self.free() {
            let block = self.cut_off(STRUCTURE)?;
            self.call(3, &[0, block])?;
        }
        self.cut_off(bytes)
    }

    /// The same with no structure. It is cut, merged and cut again.
    pub fn cut_off(&mut self, bytes: u32) -> Option<u32> {
        let rest = self.here().hand(self.rest())?;
        let upper = self.call(7, &[rest.number, rest.start + bytes])?;
        self.call(8, &[rest.number, upper])?;
        self.call(7, &[rest.number, rest.start + bytes])?;
        *self.rests.last_mut()? = upper;
        Some(rest.number)
    }

    /// A child without structures.
    pub fn bare_child(&mut self) -> Option<u32> {
        let child = self.take(DESCRIPTOR)?;
        self.call(1, &[child])?;
        Some(child)
    }

    /// A child with one structure.
    pub fn child(&mut self) -> Option<u32> {
        let child = self.bare_child()?;
        let block = self.take(STRUCTURE)?;
        self.prepare(child, &[block])?;
        Some(child)
    }

    /// Structures for a child that has none. The first is collected and prepared again.
    pub fn prepare(&mut self, child: u32, blocks: &[u32]) -> Option<u32> {
        for &block in blocks {
            self.call(3, &[child, block])?;
        }
        let first = self.call(4, &[child])?;
        self.call(3, &[child, first])
    }

    /// Lends a block, takes it back and lends it again.
    pub fn add(&mut self, child: u32, block: u32) -> Option<u32> {
        self.call(5, &[child, block, ALL_RIGHTS])?;
        self.call(6, &[child, block])?;
        self.call(5, &[child, block, ALL_RIGHTS])
    }

    /// Lends so many bytes.
    pub fn lend(&mut self, child: u32, bytes: u32) -> Option<u32> {
        let block = self.take(bytes)?;
        self.add(child, block)
    }

    /// Lends all that is left.
    pub fn lend_rest(&mut self, child: u32) -> Option<u32> {
        self.add(child, self.rest())
    }

    /// The child has what was lent to it first left.
    pub fn enter(&mut self, child: u32) -> Option<u32> {
        self.rests.push(8);
        self.call(12, &[child])
    }

    pub fn leave(&mut self) -> Option<u32> {
        self.rests.pop();
        self.call(13, &[])
    }

    /// Leaves as far as the root.
    pub fn climb(&mut self) {
        while self.rests.len() > 1 {
            self.leave();
        }
    }

    /// The least pieces, with structures for them, as long as there are bytes and more slots than are to be kept.
    pub fn fill(&mut self, kept: usize) {
        while self.free().0 + 7 * self.free().1 > kept && self.attempt(|built| built.take(LEAST_BYTES)).is_some() {}
    }

    /// A block in hand: what is left, else the first.
    fn spare(&self) -> Slot {
        let here = self.here();
        let first = here.blocks().find(|block| block.in_hand()).copied();
        here.hand(self.rest()).or(first).expect("a block in hand")
    }

    /// The calls that change nothing of the tree, or put back what they change, each where it passes; and last the end of the child.
    pub fn finish(&mut self, child: u32) {
        let (here, spare) = (self.here(), self.spare());
        let last = here.blocks().last().expect("a block").start;
        self.call(9, &[0, spare.number, 1]);
        self.call(10, &[0, 1]);
        self.call(11, &[0, last]);
        self.call(12, &[child]);
        self.call(13, &[]);
        match self.call(7, &[spare.number, spare.start + LEAST_BYTES]) {
            Some(upper) => self.call(8, &[spare.number, upper]),
            // All slots are used: one becomes free by a merge.
            None => self.attempt(|built| {
                built.call(8, &[spare.number, spare.next])?;
                built.call(7, &[spare.number, spare.end])
            }),
        };
        self.attempt(|built| {
            built.call(5, &[child, spare.number, ALL_RIGHTS])?;
            built.call(6, &[child, spare.number])
        });
        self.attempt(|built| {
            built.call(3, &[child, spare.number])?;
            built.call(4, &[child])
        });
        self.call(1, &[spare.number]);
        self.call(2, &[child]).expect("a child that ends");
    }

    /// The last call of each number.
    pub fn last_calls(&self, whole: &[u32]) -> Vec<Step> {
        kernel::last_calls(&self.calls, whole, Call::trusting)
    }

    /// Each call so that it is refused, after the judgement and mostly by the last thing that it asks.
    pub fn refused(&self, child: u32) -> Vec<Step> {
        let spare = self.spare().number;
        let calls: [(u32, &[u32]); 13] = [
            (1, &[child]),
            (2, &[spare]),
            (3, &[child, child]),
            (4, &[child]),
            (5, &[child, spare, 8]),
            (6, &[child, spare]),
            (7, &[spare, 0]),
            (8, &[spare, spare]),
            (9, &[child, 0, 1]),
            (10, &[spare, 1]),
            (11, &[spare, 0]),
            (12, &[spare]),
            (13, &[]),
        ];
        let root = Geometry::of_length(self.memory.len()).map_or(0, |geometry| geometry.root as u32);
        let root = Patch::of(&[(CURRENT, root)]);
        let step = |(number, arguments): (u32, &[u32])| Step {
            call: Call::new(number, arguments),
            before: if number == 13 { root.clone() } else { Patch::default() },
        };
        calls.map(step).into()
    }
}
