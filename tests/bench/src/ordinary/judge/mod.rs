//! Whether memory is sound: one walk of the tree in which each table word is looked at a fixed number of times.

mod cells;
mod view;
mod walk;

use super::address::*;
use super::format::*;
use super::memory::*;
use super::partition::Partition;
use view::View;
use walk::Walk;

/// A judgement: none where something is not sound.
type Judged = Option<()>;

fn sound(holds: bool) -> Judged {
    holds.then_some(())
}

/// The pages are those of the edition that the header names.
pub fn is_sound<const W: usize>(pages: &[Page<W>]) -> bool {
    judged(pages).is_some()
}

fn judged<const W: usize>(pages: &[Page<W>]) -> Judged {
    let sizes = Sizes::of(pages.len())?;
    sound(pages[0][..4] == header(sizes) && is_zero(&pages[0][EDITION + 1..]))?;
    let mut descriptor = root_descriptor();
    descriptor[FLAG] = pages[1][FLAG];
    let five =
        [descriptor, root_directory(sizes, 0), root_directory(sizes, 1), root_directory(sizes, 2), root_list(sizes)];
    sound(pages[1..6] == five)?;
    let mut walk = Walk::new(pages, sizes);
    let root = View::at(pages, Partition::<W>::ROOT_PAGE.address(), 0)?;
    let seen = walk.partition(&root, None, 0)?;
    sound(seen.mapped == sizes.flat && walk.all_used() && walk.current_met)
}

fn is_zero(words: &[u32]) -> bool {
    words.iter().all(|&word| word == 0)
}

fn is_virtual<const W: usize>(address: u32) -> bool {
    address <= last_address::<W>() && address.is_multiple_of(page_bytes::<W>())
}
