//! Builds a tree by calls that all pass.

use crate::call::{Call, Step};
use crate::kernel;
use crate::patch::Patch;
use second::geometry::{Edition, Sizes, VPage, SMALL};
use second::memory::{CURRENT, ROOT_PAGE};

/// The directory index at which a child has its first three, so that virtual page 0 stands in none of its tables.
const FIRST_INDEX: usize = 1;
const READ: u32 = 1;
const READ_WRITE: u32 = 3;

/// The ways of notify, dispatch and resume between a caller and its child.
pub const WAYS: [&str; 7] = [
    "notify, a child",
    "notify, the parent",
    "resume, a child's slot",
    "resume, the parent's slot",
    "dispatch, a child",
    "resume, the root instead",
    "dispatch, the parent",
];
/// The one after which the root is current, and neither the caller nor the child.
const ROOT_INSTEAD: usize = 5;

/// Notify with words that are all different.
fn notify(target: u32) -> Call {
    Call::new(13, &[target, 101, 102, 103, 104, 105, 106, 107, 108, 109, 110])
}

pub struct Builder {
    pub edition: Edition,
    pub memory: Vec<u32>,
    /// The directory index of every child's first three.
    index: usize,
    calls: Vec<Call>,
    /// Addresses of the pages in the hand of the caller, and of its ancestors.
    hands: Vec<Vec<u32>>,
}

impl Builder {
    pub fn new(edition: Edition, pages: usize) -> Builder {
        let sizes = Sizes::of_pages(edition, pages).expect("a number of pages that is permitted");
        let mut built = Builder {
            edition,
            memory: vec![0; edition.page_words() * pages],
            index: FIRST_INDEX,
            calls: Vec::new(),
            hands: vec![(1..=sizes.free).rev().map(|v| VPage(v).address(edition)).collect()],
        };
        built.call(0, &[edition.number]);
        built
    }

    /// Every child has its one three at the last directory index, where its slot page is; the root keeps its own, its last page.
    pub fn with_slots(edition: Edition, pages: usize) -> Builder {
        let mut built = Builder::new(edition, pages);
        built.index = edition.page_words() - 1;
        built.hand().remove(0);
        built
    }

    /// Which page of a child is its slot page, where its three is at the last directory index.
    pub fn slot_page(&self) -> usize {
        self.edition.page_words() - 1
    }

    /// The last virtual page before the last directory index: no scenario has tables for it.
    pub fn nowhere(&self) -> u32 {
        VPage::at(self.edition, self.edition.page_words() - 2, self.edition.page_words() - 1).address(self.edition)
    }

    /// Where a child has its page k.
    fn target(&self, k: usize) -> u32 {
        VPage((self.index * self.edition.page_words() + k) as u32).address(self.edition)
    }

    /// The tree is sound by how it is built; whole trees are judged when they are measured.
    pub fn call(&mut self, number: u32, arguments: &[u32]) -> u32 {
        let call = Call::new(number, arguments);
        self.calls.push(call);
        let answer = call.trusting(&mut self.memory);
        answer.unwrap_or_else(|refusal| panic!("{call:?} refused with {refusal}")).word()
    }

    /// The last call of each number.
    pub fn last_calls(&self, whole: &[u32]) -> Vec<Step> {
        kernel::last_calls(&self.calls, whole, Call::trusting)
    }

    fn hand(&mut self) -> &mut Vec<u32> {
        self.hands.last_mut().expect("a caller")
    }

    /// How many pages the caller has in hand.
    pub fn left(&self) -> usize {
        self.hands.last().map_or(0, Vec::len)
    }

    fn take(&mut self) -> u32 {
        self.hand().pop().expect("a page in hand")
    }

    pub fn create(&mut self) -> u32 {
        let five = [(); 5].map(|()| self.take());
        self.call(1, &five);
        five[0]
    }

    /// Prepares so many threes, and collects the first and prepares it again with the same chain.
    pub fn prepare(&mut self, child: u32, threes: usize) {
        for index in (self.index..).take(threes) {
            let three = [(); 3].map(|()| self.take());
            for (page, link) in [(three[0], three[1]), (three[1], three[2]), (three[2], 0)] {
                self.call(12, &[page, link]);
                self.call(11, &[page]);
            }
            let target = VPage::at(self.edition, index, 0).address(self.edition);
            self.call(6, &[child, target, three[0]]);
        }
        if threes > 0 {
            let target = self.target(0);
            let first = self.call(7, &[child, target]);
            self.call(6, &[child, target, first]);
        }
    }

    /// Lends a page, as the child's page k.
    pub fn lend(&mut self, child: u32, k: usize) {
        self.lend_with(child, k, READ_WRITE);
    }

    fn lend_with(&mut self, child: u32, k: usize, rights: u32) {
        let (page, target) = (self.take(), self.target(k));
        self.call(3, &[page, child, target, rights]);
    }

    /// Lends all that is left: so many pages with read and write, and the others with read alone. Answers how many there are.
    pub fn lend_rest(&mut self, child: u32, writable: usize) -> usize {
        let lent = self.left();
        for k in 0..lent {
            self.lend_with(child, k, if k < writable { READ_WRITE } else { READ });
        }
        lent
    }

    /// Takes the child's page k back, lends it again and asks for it.
    pub fn lend_again(&mut self, child: u32, k: usize) {
        let target = self.target(k);
        let page = self.call(4, &[child, target]);
        self.call(3, &[page, child, target, READ_WRITE]);
        self.call(8, &[page]);
    }

    pub fn enter(&mut self, child: u32, pages: usize) {
        self.call(9, &[child]);
        self.hands.push((0..pages).rev().map(|k| self.target(k)).collect());
    }

    pub fn leave(&mut self) {
        self.call(10, &[]);
        self.hands.pop();
    }

    /// Leaves as far as the root.
    pub fn climb(&mut self) {
        while self.hands.len() > 1 {
            self.leave();
        }
    }

    /// Writes a word in each page in hand.
    pub fn write(&mut self) {
        for page in self.hand().clone() {
            self.call(12, &[page + self.edition.page_bytes() - 4, 77]);
        }
    }

    /// What changes nothing of the tree and names no child: a page in hand, written, read and asked for.
    pub fn access(&mut self) {
        if let Some(&page) = self.hand().last() {
            let last = page + self.edition.page_bytes() - 4;
            self.call(12, &[last, 77]);
            self.call(11, &[last]);
            self.call(8, &[page]);
        }
    }

    /// The calls that change nothing of the tree, and last the end of the child.
    pub fn finish(&mut self, child: u32) {
        self.access();
        self.call(5, &[child, self.target(0)]);
        self.call(9, &[child]);
        self.call(10, &[]);
        if self.edition == SMALL {
            self.switch(child);
        }
        self.call(2, &[child]);
    }

    /// Dispatch to the child, which leaves; before it notify, where the caller has its slot page in hand, and the child resumes the caller.
    fn switch(&mut self, child: u32) {
        if notify(child).trusting(&mut self.memory.clone()).is_ok() {
            self.call(13, &notify(child).arguments);
            self.call(15, &[0, 2]);
        }
        self.call(14, &[child]);
        self.call(10, &[]);
    }

    /// A call for each of the ways, from the tree as it is; none where the caller or the child has no slot page.
    pub fn ways(&self, child: u32) -> Vec<Step> {
        let call = |number, arguments: &[u32]| Call::new(number, arguments);
        let calls: [Call; WAYS.len()] = [
            notify(child),
            notify(0),
            call(15, &[child, 3]),
            call(15, &[0, 2]),
            call(14, &[child]),
            call(15, &[0, 2]),
            call(14, &[0]),
        ];
        let (mut memory, mut steps) = (self.memory.clone(), Vec::new());
        for (k, call) in calls.into_iter().enumerate() {
            let mut after = memory.clone();
            if call.trusting(&mut after).is_err() {
                return Vec::new();
            }
            steps.push(Step { call, before: Patch::between(&memory, &self.memory) });
            if k != ROOT_INSTEAD {
                memory = after;
            }
        }
        steps
    }

    /// Each call so that it is refused, after the judgement and mostly by the last thing that it asks.
    pub fn refused(&mut self, child: u32) -> Vec<Step> {
        let nowhere = self.nowhere();
        let page = self.hand().last().copied().unwrap_or(nowhere);
        let five = [0, 1, 2, 3, 4].map(|k| nowhere - k * self.edition.page_bytes());
        let calls: [(u32, &[u32]); 15] = [
            (1, &five),
            (2, &[nowhere]),
            (3, &[page, child, nowhere, READ_WRITE]),
            (4, &[child, nowhere]),
            (5, &[nowhere, nowhere]),
            (6, &[child, nowhere, nowhere]),
            (7, &[child, nowhere]),
            (8, &[child]),
            (9, &[nowhere]),
            (10, &[]),
            (11, &[child]),
            (12, &[child, 77]),
            (13, &notify(nowhere).arguments),
            (14, &[nowhere]),
            (15, &[child, 0]),
        ];
        let root = Patch::of(&[(CURRENT, ROOT_PAGE.address(self.edition))]);
        let step = |(number, arguments): (u32, &[u32])| Step {
            call: Call::new(number, arguments),
            before: if number == 10 { root.clone() } else { Patch::default() },
        };
        calls.map(step).into()
    }
}
