//! Resume with any number of words lent for the context: of the eleven as many are written as there are, and the words past them stay.

use crate::both::same;
use crate::proved;
use compare::lent::{mixed, Lent};
use second::calls::Said;
use second::contexts::CONTEXT_WORDS;
use second::memory::CURRENT;

const LONGEST: usize = 20;

/// Resumes by the number of words lent.
#[derive(Default)]
pub struct Outs(Lent);

/// Two numbers for a resume, one below eleven and one above. They follow from the call and its memory.
fn lengths(words: &[u32], line: &[u32], said: &Said) -> [usize; 2] {
    let mixed = mixed(line.iter().chain(words.get(CURRENT)).chain(said.context.iter().flatten()));
    [mixed % CONTEXT_WORDS, CONTEXT_WORDS + 1 + mixed % (LONGEST - CONTEXT_WORDS)]
}

impl Outs {
    /// Performs a resume on copies of the proved kernel's memory, and holds them to what the second program said and left.
    pub fn compare(&mut self, before: &[u32], line: &[u32], said: &Said, after: &[u32]) -> Result<(), String> {
        let (&[15, target, slot], Some(context)) = (line, said.context) else { return Ok(()) };
        for length in lengths(before, line, said) {
            self.0.compare(length, &context, |out, length| {
                let mut words = before.to_vec();
                let answer = proved::resume(&mut words, target, slot, out, length);
                same(&words, after, answer.into(), said.answer.into())
            })?;
        }
        Ok(())
    }

    pub fn add(&mut self, other: &Outs) {
        self.0.add(&other.0);
    }

    /// Every number but eleven, which is lent in each resume of a sequence.
    pub fn missing(&self) -> Vec<String> {
        let others = (0..=LONGEST).filter(|&length| length != CONTEXT_WORDS);
        self.0.missing(others).into_iter().map(|length| format!("resume with {length} words for the context")).collect()
    }

    pub fn count(&self) -> u64 {
        self.0.count()
    }
}
