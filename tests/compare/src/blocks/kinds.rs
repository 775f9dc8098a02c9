//! Memories that did not come from calls, by what was done to their words.

use std::fmt;

/// Its name.
pub type Kind = &'static str;

pub const ONE_WORD: Kind = "one word changed";
pub const TWO_WORDS: Kind = "two words changed";
pub const SEVERAL_WORDS: Kind = "several words changed";
pub const STRUCTURES: Kind = "two structures exchanged";
pub const DESCRIPTORS: Kind = "two descriptors exchanged";
pub const LONGER: Kind = "more words";
pub const SHORTER: Kind = "fewer words";
pub const RANDOM: Kind = "random words";
pub const HEADED: Kind = "random words behind a good header and table";
pub const LIKELY: Kind = "words like the kernel's behind a good header and table";

/// One word all over the memory.
pub const FILLED: [(Kind, u32); 3] = [("all words 0", 0), ("all words 1", 1), ("all bits 1", u32::MAX)];

/// Each with whether some memories of it are sound; some of each are damaged.
const KINDS: [(Kind, bool); 13] = [
    (ONE_WORD, true),
    (TWO_WORDS, true),
    (SEVERAL_WORDS, true),
    (STRUCTURES, false),
    (DESCRIPTORS, false),
    (LONGER, false),
    (SHORTER, false),
    (RANDOM, false),
    (HEADED, false),
    (LIKELY, false),
    (FILLED[0].0, false),
    (FILLED[1].0, false),
    (FILLED[2].0, false),
];

/// By the number of words that were changed.
pub fn changed(words: usize) -> Kind {
    match words {
        0 | 1 => ONE_WORD,
        2 => TWO_WORDS,
        _ => SEVERAL_WORDS,
    }
}

/// Sound and damaged memories by kind.
#[derive(Default)]
pub struct Kinds([[u64; 2]; KINDS.len()]);

impl Kinds {
    pub fn count(&mut self, kind: Kind, sound: bool) {
        let counts = self.0.iter_mut().zip(KINDS).filter(|(_, (name, _))| *name == kind);
        counts.for_each(|(counts, _)| counts[usize::from(!sound)] += 1);
    }

    pub fn add(&mut self, other: &Kinds) {
        self.0.as_flattened_mut().iter_mut().zip(other.0.as_flattened()).for_each(|(own, other)| *own += other);
    }

    pub fn missing(&self) -> Vec<String> {
        let all = || self.0.iter().zip(KINDS);
        let sound = all().filter(|(counts, (_, some_sound))| *some_sound && counts[0] == 0);
        let damaged = all().filter(|(counts, _)| counts[1] == 0);
        let sound = sound.map(|(_, (kind, _))| format!("a sound memory: {kind}"));
        sound.chain(damaged.map(|(_, (kind, _))| format!("a damaged memory: {kind}"))).collect()
    }
}

/// A table.
impl fmt::Display for Kinds {
    fn fmt(&self, f: &mut fmt::Formatter) -> fmt::Result {
        write!(f, "{:>9}{:>9}", "sound", "damaged")?;
        let mut lines = self.0.iter().zip(KINDS);
        lines.try_for_each(|([sound, damaged], (kind, _))| write!(f, "\n{sound:>9}{damaged:>9}  {kind}"))
    }
}
