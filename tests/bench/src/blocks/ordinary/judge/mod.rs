//! Whether memory is sound: one pass over the table. Of each partition its descriptor, structures and slots are looked at once, with what they name.
//! What they name and isn't there is damage: every structure and descriptor of a sound memory lies in it.

mod slots;
mod view;

use super::memory::CURRENT;
use super::partition::is_partition;
use super::sizes::*;
use view::View;

/// A judgement: none where something is not sound.
type Judged = Option<()>;

fn sound(holds: bool) -> Judged {
    holds.then_some(())
}

pub fn is_sound(words: &[u32]) -> bool {
    judged(words).is_some()
}

fn judged(words: &[u32]) -> Judged {
    let sizes = Sizes::of(words.len())?;
    sound(words[..CURRENT] == sizes.header() && words[CURRENT + 1..HEADER_WORDS] == [0; 4])?;
    sound(is_partition(words, words[CURRENT]) && is_partition(words, sizes.root))?;
    let standing = words[sizes.table()].iter().enumerate().filter(|&(_, &at)| at != 0);
    for (j, &at) in standing {
        sound(at as usize / DESCRIPTOR_WORDS == j)?;
        partition(words, sizes, at)?;
    }
    Some(())
}

/// Most table words are 0: what is asked of a partition is kept out of the loop that passes over them.
#[inline(never)]
fn partition(words: &[u32], sizes: Sizes, at: u32) -> Judged {
    View::at(words, sizes, at)?.judge()
}
