//! One call on both sides, and a verdict.

use crate::kernel::Kernel;
use crate::tally::Tally;
use crate::tells;
use compare::answers::{difference, shown};
use second::blocks::calls::{self, Said, CALLS};
use second::blocks::refusal::DAMAGED;
use second::blocks::sound::sound;

/// A kernel and the second program, and what was compared of them so far.
pub struct Both<'a> {
    pub kernel: &'a Kernel<'a>,
    pub tally: &'a mut Tally,
}

/// A word of the kernel's memory and a bit of it, changed after a call.
pub type Flip = Option<(usize, usize)>;

impl Both<'_> {
    /// Performs a call on the kernel's memory and holds it to the second program's answer and words.
    pub fn follow(
        &mut self,
        proved: &mut [u32],
        line: &[u32],
        expected: Said,
        after: &[u32],
        flip: Flip,
    ) -> Result<(), String> {
        self.tally.cover.count(proved, line, expected.answer);
        let tells = tells::compare(self, proved, line, expected);
        let said = (self.kernel.call)(proved, line);
        if let Some((index, bit)) = flip {
            proved[index] ^= 1 << bit;
        }
        let done = same(proved, after, said, expected).and(tells);
        done.map_err(|text| format!("{} {:?}\n{text}", CALLS[line[0] as usize].0, &line[1..]))
    }

    /// Performs a call on both memories.
    pub fn perform(&mut self, proved: &mut [u32], second: &mut [u32], line: &[u32]) -> Result<(), String> {
        let expected = calls::perform(second, line[0], &line[1..]).ok_or("no such call")?;
        self.follow(proved, line, expected, second, None)
    }

    /// Whether the words are sound, told by both.
    pub fn verdict(&mut self, words: &[u32]) -> Result<(), String> {
        let expected = if sound(words) { Ok(0) } else { Err(DAMAGED) };
        let said = (self.kernel.verdict)(words);
        self.tally.verdicts[usize::from(expected.is_err())] += 1;
        let difference = || format!("verdict\n  proved {}, second {}", shown(said, None), shown(expected, None));
        (said == expected).then_some(()).ok_or_else(difference)
    }
}

/// Whether answers, told words and all words of memory are the same; else the first that is not.
fn same(proved: &[u32], second: &[u32], said: Said, expected: Said) -> Result<(), String> {
    if said == expected && proved == second {
        return Ok(());
    }
    let answers = [said, expected].map(|said| shown(said.answer, said.told.as_ref().map(|told| &told[..])));
    Err(difference(proved, second, answers, |_| String::new()))
}
