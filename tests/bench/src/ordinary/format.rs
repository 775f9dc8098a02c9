//! Format, and the words that it leaves in the root's pages.

use super::address::*;
use super::memory::*;
use super::partition::Partition;
use super::refusal::{Answer, SIZE};

/// The header's first four words.
pub fn header<const W: usize>(sizes: Sizes<W>) -> [u32; 4] {
    [sizes.pages, sizes.threes, Partition::<W>::ROOT_PAGE.address(), sizes.first_flat().address()]
}

pub fn root_descriptor<const W: usize>() -> Page<W> {
    let mut page = [0; W];
    for k in 0..5 {
        page[2 * k + 1] = PPage::<W>(1 + k as u32).address();
    }
    page
}

/// The root's directory (k is 0), shadow 1 (1) or shadow 2 (2).
pub fn root_directory<const W: usize>(sizes: Sizes<W>, k: u32) -> Page<W> {
    let mut page = [0; W];
    for i in 0..sizes.threes {
        page[i as usize] = PPage::<W>(6 + 3 * i + k).address() + PRESENT;
    }
    page
}

pub fn root_list<const W: usize>(sizes: Sizes<W>) -> Page<W> {
    let mut page = [0; W];
    page[0] = 1 + 6 * sizes.threes;
    for k in 0..3 * sizes.threes {
        page[2 + 2 * k as usize] = PPage::<W>(6 + k).address();
    }
    page
}

pub fn format(words: &mut [u32], edition: u32) -> Answer {
    match edition {
        0 => format_pages::<SMALL>(words, edition),
        1 => format_pages::<LARGE>(words, edition),
        _ => Err(SIZE),
    }
}

fn format_pages<const W: usize>(words: &mut [u32], edition: u32) -> Answer {
    let pages: &mut [Page<W>] = whole_pages(words, SIZE)?;
    let sizes = Sizes::of(pages.len()).ok_or(SIZE)?;
    pages.as_flattened_mut().fill(0);
    pages[0][..4].copy_from_slice(&header(sizes));
    pages[0][CURRENT] = Partition::<W>::ROOT_PAGE.address();
    pages[0][EDITION] = edition;
    pages[1] = root_descriptor();
    for k in 0..3 {
        pages[2 + k as usize] = root_directory(sizes, k);
    }
    pages[5] = root_list(sizes);
    for v in 1..=sizes.flat {
        let table = 6 + 3 * (v as usize / W);
        let page = PPage::<W>(sizes.first_flat().0 + v - 1);
        pages[table][v as usize % W] = page.address() + PRESENT + ACCESSIBLE + RIGHTS_BITS;
    }
    Ok(0)
}
