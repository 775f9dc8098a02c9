//! A call of the block kernel by its number and arguments, made in either version.

use super::{library, ordinary};
use crate::kernel::{self, KernelCall};
use second::blocks::damage::damage;
use second::blocks::memory::{partitions, Partition};
use second::random::Random;
use tumashqin::block::{Block, Memory, Refusal};

/// By number.
pub const NAMES: [&str; 14] = [
    "format",
    "create",
    "delete",
    "prepare",
    "collect",
    "add",
    "remove",
    "cut",
    "merge",
    "enable",
    "read enabled",
    "find",
    "enter",
    "leave",
];
pub const READ_ENABLED: u32 = 10;
pub const FIND: u32 = 11;

/// A call's word, or the block that is told.
#[derive(Clone, Copy, PartialEq, Eq, Debug)]
pub enum Words {
    One(u32),
    Told(ordinary::Told),
}

pub type Answer = kernel::Answer<Call>;
pub type Step = kernel::Step<Call>;
/// What most calls answer.
pub const DONE: Answer = Ok(Words::One(0));

/// Those of add and enable.
pub const MOST_ARGUMENTS: usize = 3;

/// Format is 0 and the verdict 14.
pub type Call = kernel::Numbered<MOST_ARGUMENTS>;

impl Call {
    /// The ordinary version without the judgement, for memory that is known to be sound.
    pub fn trusting(&self, words: &mut [u32]) -> Answer {
        if self.number == 0 {
            return ordinary::format(words).map(Words::One);
        }
        self.on(ordinary::Memory::trusted(words))
    }

    fn on(&self, mut m: ordinary::Memory) -> Answer {
        let [a, b, c] = self.arguments;
        let answer = match self.number {
            1 => ordinary::create(&mut m, a),
            2 => ordinary::delete(&mut m, a),
            3 => ordinary::prepare(&mut m, a, b),
            4 => ordinary::collect(&mut m, a),
            5 => ordinary::add(&mut m, a, b, c),
            6 => ordinary::remove(&mut m, a, b),
            7 => ordinary::cut(&mut m, a, b),
            8 => ordinary::merge(&mut m, a, b),
            9 => ordinary::enable(&mut m, a, b, c),
            READ_ENABLED => return ordinary::read_enabled(&m, a, b).map(Words::Told),
            FIND => return ordinary::find(&m, a, b).map(Words::Told),
            12 => ordinary::enter(&mut m, a),
            13 => ordinary::leave(&mut m),
            _ => return Call::JUDGED_SOUND,
        };
        answer.map(Words::One)
    }
}

impl KernelCall for Call {
    type Words = Words;
    const NAMES: &'static [&'static str] = &NAMES;
    /// It is no call, and stands behind leave.
    const JUDGE: Call = Call { number: 14, arguments: [0; MOST_ARGUMENTS] };
    const JUDGED_SOUND: Answer = DONE;

    fn number(&self) -> u32 {
        self.number
    }

    fn ordinary(&self, words: &mut [u32]) -> Answer {
        if self.number == 0 {
            return ordinary::format(words).map(Words::One);
        }
        self.on(ordinary::Memory::judged(words)?)
    }

    fn proved(&self, words: &mut [u32]) -> Answer {
        let [a, b, c] = self.arguments;
        let mut memory = match self.number {
            0 => return Memory::format(words).map(|_| Words::One(0)).map_err(Refusal::number),
            _ => Memory::over(words),
        };
        let answer = match self.number {
            1 => memory.create(a),
            2 => memory.delete(a),
            3 => memory.prepare(a, b),
            4 => memory.collect(a),
            5 => memory.add(a, b, c),
            6 => memory.remove(a, b),
            7 => memory.cut(a, b),
            8 => memory.merge(a, b),
            9 => memory.enable(a, b, c),
            READ_ENABLED => return told(memory.read_enabled(a, b)),
            FIND => return told(memory.find(a, b)),
            12 => memory.enter(a),
            13 => memory.leave(),
            _ => memory.verdict().map(|()| 0),
        };
        answer.map(Words::One).map_err(Refusal::number)
    }

    fn painted(&self, words: &mut [u32]) -> (Answer, usize) {
        library::call(self, words)
    }

    fn counts(words: &[u32]) -> Vec<(&'static str, usize)> {
        let partitions = partitions(words);
        let structures = partitions.iter().map(|one| one.structures.len()).sum();
        let blocks = partitions.iter().flat_map(Partition::blocks).count();
        vec![("partitions", partitions.len()), ("structures", structures), ("blocks", blocks)]
    }

    fn damage(words: &[u32], random: &mut Random) -> Vec<(usize, u32)> {
        let inside = |&(index, _): &(usize, u32)| index < words.len();
        damage(words, random).into_iter().filter(inside).collect()
    }
}

fn told(answer: Result<Option<Block>, Refusal>) -> Answer {
    let words = |Block { number, start, end, rights, usage, child }| [number, start, end, rights, usage, child];
    answer.map(|block| Words::Told(block.map(words))).map_err(Refusal::number)
}
