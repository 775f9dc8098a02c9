//! A memory told by the words in which it differs from another.

#[derive(Clone, Default)]
pub struct Patch(Vec<(usize, u32)>);

/// How many words are compared at once.
const BLOCK: usize = 1024;

impl Patch {
    pub fn of(words: &[(usize, u32)]) -> Patch {
        Patch(words.to_vec())
    }

    /// What makes the first memory of the second, which is as long.
    pub fn between(first: &[u32], second: &[u32]) -> Patch {
        assert_eq!(first.len(), second.len());
        let blocks = first.chunks(BLOCK).zip(second.chunks(BLOCK)).enumerate().filter(|(_, (one, other))| one != other);
        let words = blocks.flat_map(|(k, (one, other))| {
            let words = one.iter().zip(other).enumerate().filter(|(_, (word, old))| word != old);
            words.map(move |(i, (&word, _))| (BLOCK * k + i, word))
        });
        Patch(words.collect())
    }

    /// How many words it has.
    pub fn count(&self) -> usize {
        self.0.len()
    }

    pub fn apply(&self, memory: &mut [u32]) {
        for &(index, word) in &self.0 {
            memory[index] = word;
        }
    }

    /// Puts the words in and keeps those that were there, so that a second time puts these back.
    pub fn exchange(&mut self, memory: &mut [u32]) {
        for (index, word) in &mut self.0 {
            std::mem::swap(&mut memory[*index], word);
        }
    }
}
