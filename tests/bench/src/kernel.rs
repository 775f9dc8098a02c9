//! A kernel that is measured: its calls in the proved version and in the ordinary one, and what a report tells of its memories.

use crate::patch::Patch;
use second::random::Random;
use std::fmt::Debug;

/// What a call answers, or the number of the first refusal.
pub type Answer<C> = Result<<C as KernelCall>::Words, u32>;

/// A version of a kernel: it makes a call on words.
pub type Version<C> = fn(&C, &mut [u32]) -> Answer<C>;

/// A call with its arguments.
pub trait KernelCall: Copy + Debug {
    /// What a call answers that is not refused.
    type Words: Copy + PartialEq + Debug;
    /// By number; format stands at 0.
    const NAMES: &'static [&'static str];
    /// The verdict: it judges and does no more.
    const JUDGE: Self;
    /// What it answers of sound memory.
    const JUDGED_SOUND: Answer<Self>;

    fn number(&self) -> u32;
    fn proved(&self, words: &mut [u32]) -> Answer<Self>;
    fn ordinary(&self, words: &mut [u32]) -> Answer<Self>;
    /// The proved version on a painted stack, with the bytes of it that were written.
    fn painted(&self, words: &mut [u32]) -> (Answer<Self>, usize);
    /// What a sound memory has, each count with its name.
    fn counts(words: &[u32]) -> Vec<(&'static str, usize)>;
    /// A random change of a sound memory.
    fn damage(words: &[u32], random: &mut Random) -> Vec<(usize, u32)>;
}

/// A call's number and its arguments, at most so many; those that it does not have are 0.
#[derive(Clone, Copy, Debug)]
pub struct Numbered<const MOST: usize> {
    pub number: u32,
    pub arguments: [u32; MOST],
}

impl<const MOST: usize> Numbered<MOST> {
    pub fn new(number: u32, given: &[u32]) -> Numbered<MOST> {
        let mut arguments = [0; MOST];
        arguments[..given.len()].copy_from_slice(given);
        Numbered { number, arguments }
    }
}

/// A call, and how the memory just before it differs from the whole tree's.
#[derive(Clone)]
pub struct Step<C> {
    pub call: C,
    pub before: Patch,
}

impl<C: KernelCall> Step<C> {
    /// The judge on the memory of a patch.
    pub fn judge(before: Patch) -> Step<C> {
        Step { call: C::JUDGE, before }
    }

    /// The memory just before it, of the whole tree's.
    pub fn memory(&self, whole: &[u32]) -> Vec<u32> {
        let mut memory = whole.to_vec();
        self.before.apply(&mut memory);
        memory
    }
}

/// Calls that are made one after the other from words that are all 0: the last call of each number. All calls are made again by the given version, so that
/// only these memories are looked at.
pub fn last_calls<C: KernelCall>(calls: &[C], whole: &[u32], version: Version<C>) -> Vec<Step<C>> {
    let mut last = vec![None; C::NAMES.len()];
    for (place, call) in calls.iter().enumerate() {
        last[call.number() as usize] = Some(place);
    }
    let (mut memory, mut steps) = (vec![0; whole.len()], Vec::new());
    for (place, &call) in calls.iter().enumerate() {
        if last.contains(&Some(place)) {
            steps.push(Step { call, before: Patch::between(&memory, whole) });
        }
        let _ = version(&call, &mut memory);
    }
    steps
}

/// A tree that was built by calls, and the calls that are measured on it.
pub trait Tree {
    type Call: KernelCall;

    fn title(&self) -> String;
    /// The memory when the tree was whole.
    fn whole(&self) -> &[u32];
    /// A call where it passes.
    fn passing(&self, number: u32) -> Option<&Step<Self::Call>>;
    /// A call that is refused after the judgement.
    fn refused(&self, number: u32) -> Option<&Step<Self::Call>>;
}

/// The call of a number.
pub fn numbered<C: KernelCall>(steps: &[Step<C>], number: u32) -> Option<&Step<C>> {
    steps.iter().find(|step| step.call.number() == number)
}
