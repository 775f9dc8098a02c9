//! The proved calls on the painted stack, on the tree of a scenario and on damages of it.

use crate::kernel::{KernelCall, Step, Tree};
use crate::patch::Patch;
use second::random::Random;

/// Random damages of a tree: so many, but in a large memory fewer, so that about as many words are judged.
const DAMAGES: usize = 300;
const LEAST_DAMAGES: usize = 10;
const MOST_WORDS: usize = DAMAGES << 14;

/// The whole tree's memory, and two like it that calls are made on.
pub struct Memories<'a, T> {
    tree: &'a T,
    after: Vec<u32>,
    other: Vec<u32>,
}

impl<T: Tree> Memories<'_, T> {
    pub fn of(tree: &T) -> Memories<'_, T> {
        Memories { tree, after: tree.whole().to_vec(), other: tree.whole().to_vec() }
    }

    /// A call, which has to do what the ordinary version does: the bytes of stack that it takes.
    pub fn on(&mut self, Step { call, before }: &Step<T::Call>) -> usize {
        let Memories { tree, after, other } = self;
        for memory in [&mut *after, &mut *other] {
            memory.copy_from_slice(tree.whole());
            before.apply(memory);
        }
        let (answer, bytes) = call.painted(after);
        assert_eq!(answer, call.ordinary(other), "{call:?}");
        assert!(after == other, "{call:?}");
        bytes
    }

    /// The most that the judge takes on damages of the tree.
    pub fn damages(&mut self) -> Option<usize> {
        let mut random = Random::new(13);
        let count = (MOST_WORDS / self.tree.whole().len()).clamp(LEAST_DAMAGES, DAMAGES);
        let damaged = (0..count).map(|_| {
            let before = Patch::of(&T::Call::damage(self.tree.whole(), &mut random));
            self.on(&Step::judge(before))
        });
        damaged.max()
    }
}
