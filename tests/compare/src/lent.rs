//! Slices lent for words that a call tells: as many are written as there is room for, and all words behind them stay.

use std::collections::BTreeMap;

/// What no call is likely to tell.
const LEFT: u32 = 0xA5C3_0F96;
/// Words behind the lent ones that have to stay.
const BEHIND: usize = 32;

/// A number that follows from others, as all of a round does from its seed.
pub fn mixed<'a>(numbers: impl Iterator<Item = &'a u32>) -> usize {
    numbers.fold(7u32, |mixed, number| (mixed ^ number).wrapping_mul(0x9E37_79B1).rotate_left(9)) as usize
}

/// Calls by the number of words lent: those that told words other than 0, and all others.
#[derive(Default)]
pub struct Lent(BTreeMap<usize, [u64; 2]>);

impl Lent {
    /// Holds a call to the words that it has to tell: it is given a buffer, of which it is lent the first so many words.
    pub fn compare(
        &mut self,
        length: usize,
        told: &[u32],
        call: impl FnOnce(&mut [u32], usize) -> Result<(), String>,
    ) -> Result<(), String> {
        let mut buffer = vec![LEFT; length + BEHIND];
        call(&mut buffer, length)?;
        let written = length.min(told.len());
        if buffer[..written] != told[..written] || buffer[written..].iter().any(|&word| word != LEFT) {
            let last = buffer.iter().rposition(|&word| word != LEFT).map_or(0, |last| last + 1);
            let written = &buffer[..last];
            return Err(format!("  with {length} words lent: proved wrote {written:?}, second tells {told:?}"));
        }
        self.0.entry(length).or_default()[usize::from(told.iter().all(|&word| word == 0))] += 1;
        Ok(())
    }

    pub fn add(&mut self, other: &Lent) {
        for (&length, counts) in &other.0 {
            self.0.entry(length).or_default().iter_mut().zip(counts).for_each(|(own, other)| *own += other);
        }
    }

    /// Of these numbers, those with which no words were told, or no zeros alone.
    pub fn missing(&self, lengths: impl Iterator<Item = usize>) -> Vec<usize> {
        lengths.filter(|length| self.0.get(length).is_none_or(|counts| counts.contains(&0))).collect()
    }

    pub fn count(&self) -> u64 {
        self.0.values().flatten().sum()
    }

    /// By number of words.
    pub fn by_length(&self) -> BTreeMap<usize, u64> {
        self.0.iter().map(|(&length, counts)| (length, counts.iter().sum())).collect()
    }
}

#[cfg(test)]
mod tests {
    use super::Lent;

    #[test]
    fn what_is_written_is_held_to_what_is_told() {
        let told = [4, 5, 6];
        for length in 0..=5 {
            let write = |count: usize, word: u32| {
                Lent::default().compare(length, &told, |buffer, _| {
                    buffer.iter_mut().zip(told).take(count).for_each(|(to, from)| *to = from);
                    buffer[3..].iter_mut().take(count.saturating_sub(3)).for_each(|to| *to = word);
                    Ok(())
                })
            };
            assert!((0..=6).all(|count| write(count, 0).is_ok() == (count == length.min(3))), "{length}");
        }
        assert_eq!(Lent::default().compare(3, &told, |_, _| Err("no".to_string())), Err("no".to_string()));
    }
}
