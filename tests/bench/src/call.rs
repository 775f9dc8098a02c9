//! A call by its number and arguments, made in either version.

use crate::kernel::{self, KernelCall};
use crate::library;
use crate::ordinary::{self, Context, Pages};
use crate::scenario::{kernel_pages, mappings};
use second::damage::wide_damage;
use second::random::Random;
use tumashqin::{Edition, Memory, Refusal};

/// By number; format has none, and stands at 0. Its argument is the edition.
pub const NAMES: [&str; 16] = [
    "format",
    "createPartition",
    "deletePartition",
    "addVAddr",
    "removeVAddr",
    "pageCount",
    "prepare",
    "collect",
    "mappedInChild",
    "enter",
    "leave",
    "load",
    "store",
    "notify",
    "dispatch",
    "resume",
];

/// A call's word, or a resume's eleven.
#[derive(Clone, Copy, PartialEq, Eq, Debug)]
pub enum Words {
    One(u32),
    Eleven(Context),
}

impl Words {
    /// The word of a call that is no resume.
    pub fn word(self) -> u32 {
        match self {
            Words::One(word) => word,
            Words::Eleven(_) => 0,
        }
    }
}

pub type Answer = kernel::Answer<Call>;
pub type Step = kernel::Step<Call>;
/// What most calls answer.
pub const DONE: Answer = Ok(Words::One(0));

/// Those of notify: target, eip, eflags and eight registers.
pub const MOST_ARGUMENTS: usize = 11;
pub const RESUME: u32 = 15;

/// Format is 0 and the verdict 16.
pub type Call = kernel::Numbered<MOST_ARGUMENTS>;

impl Call {
    /// The ordinary version without the judgement, for memory that is known to be sound.
    pub fn trusting(&self, words: &mut [u32]) -> Answer {
        if self.number == 0 {
            return ordinary::format(words, self.arguments[0]).map(Words::One);
        }
        match Pages::of(words)? {
            Pages::Small(pages) => self.on(ordinary::Memory::trusted(pages)),
            Pages::Large(pages) => self.on(ordinary::Memory::trusted(pages)),
        }
    }

    fn on<const W: usize>(&self, mut m: ordinary::Memory<W>) -> Answer {
        let [a, b, c, d, e, ..] = self.arguments;
        let [target, eip, eflags, registers @ ..] = self.arguments;
        let answer = match self.number {
            1 => ordinary::create_partition(&mut m, [a, b, c, d, e]),
            2 => ordinary::delete_partition(&mut m, a),
            3 => ordinary::add_vaddr(&mut m, a, b, c, d),
            4 => ordinary::remove_vaddr(&mut m, a, b),
            5 => ordinary::page_count(&m, a, b),
            6 => ordinary::prepare(&mut m, a, b, c),
            7 => ordinary::collect(&mut m, a, b),
            8 => ordinary::mapped_in_child(&m, a),
            9 => ordinary::enter(&mut m, a),
            10 => ordinary::leave(&mut m),
            11 => ordinary::load(&m, a),
            12 => ordinary::store(&mut m, a, b),
            13 => ordinary::notify(&mut m, target, eip, eflags, registers),
            14 => ordinary::dispatch(&mut m, target),
            RESUME => return ordinary::resume(&mut m, target, b).map(Words::Eleven),
            _ => return Call::JUDGED_SOUND,
        };
        answer.map(Words::One)
    }
}

impl KernelCall for Call {
    type Words = Words;
    const NAMES: &'static [&'static str] = &NAMES;
    /// It is no call, and stands behind resume.
    const JUDGE: Call = Call { number: 16, arguments: [0; MOST_ARGUMENTS] };
    const JUDGED_SOUND: Answer = DONE;

    fn number(&self) -> u32 {
        self.number
    }

    fn ordinary(&self, words: &mut [u32]) -> Answer {
        if self.number == 0 {
            return ordinary::format(words, self.arguments[0]).map(Words::One);
        }
        match Pages::of(words)? {
            Pages::Small(pages) => self.on(ordinary::Memory::judged(pages)?),
            Pages::Large(pages) => self.on(ordinary::Memory::judged(pages)?),
        }
    }

    fn proved(&self, words: &mut [u32]) -> Answer {
        let [a, b, c, d, e, ..] = self.arguments;
        let [target, eip, eflags, registers @ ..] = self.arguments;
        let mut memory = match self.number {
            0 => return Memory::format(words, edition(a)).map(|_| Words::One(0)).map_err(Refusal::number),
            _ => Memory::over(words),
        };
        let answer = match self.number {
            1 => memory.create_partition([a, b, c, d, e]),
            2 => memory.delete_partition(a),
            3 => memory.add_vaddr(a, b, c, d),
            4 => memory.remove_vaddr(a, b),
            5 => memory.page_count(a, b),
            6 => memory.prepare(a, b, c),
            7 => memory.collect(a, b),
            8 => memory.mapped_in_child(a),
            9 => memory.enter(a),
            10 => memory.leave(),
            11 => memory.load(a),
            12 => memory.store(a, b),
            13 => memory.notify(target, &tumashqin::Context { eip, pipflags: 0, eflags, registers }),
            14 => memory.dispatch(target),
            RESUME => {
                return memory.resume(target, b).map(|words| Words::Eleven(words.into())).map_err(Refusal::number)
            }
            _ => memory.verdict().map(|()| 0),
        };
        answer.map(Words::One).map_err(Refusal::number)
    }

    fn painted(&self, words: &mut [u32]) -> (Answer, usize) {
        library::call(self, words)
    }

    fn counts(words: &[u32]) -> Vec<(&'static str, usize)> {
        vec![("kernel pages", kernel_pages(words)), ("mappings", mappings(words))]
    }

    fn damage(words: &[u32], random: &mut Random) -> Vec<(usize, u32)> {
        wide_damage(words, random)
    }
}

/// The choices that the safe interface has.
fn edition(number: u32) -> Edition {
    match number {
        0 => Edition::Pages256,
        _ => Edition::Pages4096,
    }
}
