//! One call on both sides, and a verdict.

use crate::proved;
use crate::tally::Tally;
use compare::answers;
use second::calls::{self, Said};
use second::cover::ROWS;
use second::geometry::Edition;
use second::refusal::DAMAGED;
use second::sound::sound;

/// Performs a call on the proved kernel's memory and holds it to the second program's answer and words. A flip is a word and a bit
/// of it that is changed there after the call.
pub fn follow(
    proved: &mut [u32],
    line: &[u32],
    expected: Said,
    after: &[u32],
    flip: Option<(usize, usize)>,
    tally: &mut Tally,
) -> Result<(), String> {
    tally.called(proved, line, expected.answer);
    let outs = tally.outs.compare(proved, line, &expected, after);
    let said = proved::call(proved, line);
    if let Some((index, bit)) = flip {
        proved[index] ^= 1 << bit;
    }
    let done = same(proved, after, said, expected).and(outs);
    done.map_err(|text| format!("{} {:?}\n{text}", ROWS[line[0] as usize].0, &line[1..]))
}

/// Performs a call on both memories.
pub fn perform(proved: &mut [u32], second: &mut [u32], line: &[u32], tally: &mut Tally) -> Result<(), String> {
    let expected = calls::perform(second, line[0], &line[1..]).ok_or("no such call")?;
    follow(proved, line, expected, second, None, tally)
}

/// Whether the words are sound, told by both.
pub fn verdict(words: &[u32], tally: &mut Tally) -> Result<(), String> {
    let (said, expected) = (proved::verdict(words), sound(words).map(|()| 0).map_err(|_| DAMAGED));
    tally.of(words).verdicts[usize::from(expected.is_err())] += 1;
    let difference = || format!("verdict\n  proved {}, second {}", shown(said.into()), shown(expected.into()));
    (said == expected).then_some(()).ok_or_else(difference)
}

/// Whether answers and all words are the same; else the first word that is not.
pub fn same(proved: &[u32], second: &[u32], said: Said, expected: Said) -> Result<(), String> {
    if said == expected && proved == second {
        return Ok(());
    }
    let size = Edition::of(second).page_words();
    let place = |i: usize| format!(" (page {}, word {})", i / size, i % size);
    Err(answers::difference(proved, second, [said, expected].map(shown), place))
}

pub fn shown(said: Said) -> String {
    answers::shown(said.answer, said.context.as_ref().map(|context| &context[..]))
}

#[cfg(test)]
mod tests {
    use super::same;
    use second::calls::Said;

    #[test]
    fn answers_and_words_are_compared() {
        let said = |answer| Said { answer, context: None };
        let of = |one: &[u32], answer, other| same(one, &[1, 2], said(answer), said(other));
        assert_eq!(of(&[1, 2], Ok(3), Ok(3)), Ok(()));
        assert_eq!(of(&[1, 2], Err(1), Err(1)), Ok(()));
        assert!(of(&[1, 2], Ok(3), Err(3)).is_err_and(|text| text.contains("proved ok 3, second no 3")));
        assert!(of(&[1, 3], Ok(0), Ok(0)).is_err_and(|text| text.contains("word 1 (page 0, word 1)")));
    }

    #[test]
    fn contexts_are_compared() {
        let said = |word| Said { answer: Ok(0), context: Some([0, 0, 0, 0, 0, 0, 0, 0, 0, 0, word]) };
        assert_eq!(same(&[1], &[1], said(5), said(5)), Ok(()));
        assert!(same(&[1], &[1], said(5), said(6)).is_err());
    }
}
