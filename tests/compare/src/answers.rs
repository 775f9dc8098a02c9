//! Answers of the C interface, and reports of a difference.

/// The word, or the number of the refusal.
pub type Answer = Result<u32, u32>;

/// The answer of a packed number: the word, or the refusal times 2^32.
pub fn unpacked(packed: u64) -> Answer {
    match (packed >> 32) as u32 {
        0 => Ok(packed as u32),
        refusal => Err(refusal),
    }
}

/// An answer as text, with the words beside it, if the call tells any.
pub fn shown(answer: Answer, beside: Option<&[u32]>) -> String {
    let words = beside.map_or_else(String::new, |words| format!(" {words:?}"));
    answer.map_or_else(|refusal| format!("no {refusal}"), |word| format!("ok {word}")) + &words
}

/// Both answers, and the first word that differs with what is said of its place.
pub fn difference(proved: &[u32], second: &[u32], answers: [String; 2], place: impl Fn(usize) -> String) -> String {
    let differs = (0..second.len()).find(|&i| proved[i] != second[i]);
    let word = differs.map_or("no word differs".to_string(), |i| {
        format!("word {i}{}: proved {:#x}, second {:#x}", place(i), proved[i], second[i])
    });
    let [said, expected] = answers;
    format!("  answer: proved {said}, second {expected}\n  {word}")
}

#[cfg(test)]
mod tests {
    use super::*;

    #[test]
    fn numbers_are_unpacked() {
        assert_eq!(unpacked(0), Ok(0));
        assert_eq!(unpacked(u64::from(u32::MAX)), Ok(u32::MAX));
        assert_eq!(unpacked(13 << 32), Err(13));
    }

    #[test]
    fn the_first_word_that_differs_is_told() {
        let text = |proved: &[u32]| {
            difference(proved, &[1, 2, 3], [shown(Ok(3), None), shown(Err(3), None)], |_| String::new())
        };
        assert_eq!(text(&[1, 2, 3]), "  answer: proved ok 3, second no 3\n  no word differs");
        assert_eq!(text(&[1, 4, 5]), "  answer: proved ok 3, second no 3\n  word 1: proved 0x4, second 0x2");
        assert_eq!(shown(Ok(1), Some(&[8, 9])), "ok 1 [8, 9]");
    }
}
