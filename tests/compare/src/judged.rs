//! Memories of other words than calls left, by the sentences of soundness that they break.

use std::collections::BTreeMap;
use std::fmt;

/// The sound ones, those that break one sentence alone, by its number, and those that break several.
#[derive(Default)]
pub struct Judged {
    sound: u64,
    alone: BTreeMap<u32, u64>,
    several: u64,
}

impl Judged {
    pub fn count(&mut self, broken: &[u32]) {
        *match *broken {
            [] => &mut self.sound,
            [sentence] => self.alone.entry(sentence).or_default(),
            _ => &mut self.several,
        } += 1;
    }

    pub fn add(&mut self, other: &Judged) {
        self.sound += other.sound;
        other.alone.iter().for_each(|(&sentence, count)| *self.alone.entry(sentence).or_default() += count);
        self.several += other.several;
    }

    /// Of these sentences, those that were not broken alone.
    pub fn missing(&self, sentences: impl Iterator<Item = u32>) -> Vec<String> {
        let missing = sentences.filter(|sentence| !self.alone.contains_key(sentence));
        missing.map(|sentence| format!("sentence {sentence} broken alone")).collect()
    }

    /// The sentences broken alone.
    pub fn alone(&self) -> String {
        let alone: Vec<_> = self.alone.iter().map(|(sentence, count)| format!("{sentence}: {count}")).collect();
        format!("sentences broken alone: {}", alone.join(", "))
    }
}

impl fmt::Display for Judged {
    fn fmt(&self, f: &mut fmt::Formatter) -> fmt::Result {
        let Judged { sound, several, .. } = self;
        let all = sound + several + self.alone.values().sum::<u64>();
        write!(f, "{all} memories of other words: {sound} sound, {several} break several sentences")
    }
}
