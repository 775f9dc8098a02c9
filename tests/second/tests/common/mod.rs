//! What several tests share.
#![allow(dead_code)]

use second::calls::*;
use second::geometry::{Edition, VPage, SMALL};

/// A freshly formatted memory of small pages.
pub fn formatted(pages: usize) -> Vec<u32> {
    formatted_as(SMALL, pages)
}

pub fn formatted_as(edition: Edition, pages: usize) -> Vec<u32> {
    let mut mem = vec![0xA5A5_A5A5; pages * edition.page_words()];
    assert_eq!(format(&mut mem, edition.number), Ok(0));
    mem
}

/// Performs a line, a call number and its arguments.
pub fn say(mem: &mut [u32], line: &[u32]) -> Answer {
    call(mem, line[0], &line[1..]).expect("a known call")
}

/// Performs lines that all pass.
pub fn pass(mem: &mut [u32], lines: &[&[u32]]) {
    for line in lines {
        assert!(say(mem, line).is_ok(), "{line:?}");
    }
}

/// Chains three pages and prepares the child with them.
pub fn furnish(mem: &mut [u32], child: u32, target: u32, three: [u32; 3]) -> Answer {
    let [a, b, c] = three;
    pass(mem, &[&[12, a, b], &[12, b, c], &[12, c, 0]]);
    say(mem, &[6, child, target, a])
}

/// Where `down` puts the pages it lends.
pub const LOFT: u32 = 1 << 14;

/// From a run of pages in hand at `base`: five make a child, three a three for it, the rest are
/// lent to it at LOFT; then it is entered.
pub fn down(mem: &mut [u32], base: u32, pages: u32) {
    down_with(SMALL, mem, base, &vec![3; pages as usize - 8]);
}

/// The first address of directory index 1: LOFT with small pages.
pub fn loft(edition: Edition) -> u32 {
    VPage::at(edition, 1, 0).address(edition)
}

/// The same in any edition, the pages behind the first eight lent with these rights.
pub fn down_with(edition: Edition, mem: &mut [u32], base: u32, rights: &[u32]) {
    let (size, loft) = (edition.page_bytes(), loft(edition));
    let at = |k: u32| base + size * k;
    pass(mem, &[&[1, at(0), at(1), at(2), at(3), at(4)]]);
    assert_eq!(furnish(mem, base, loft, [at(5), at(6), at(7)]), Ok(0));
    for (k, &rights) in (0..).zip(rights) {
        pass(mem, &[&[3, at(8 + k), base, loft + size * k, rights]]);
    }
    pass(mem, &[&[9, base]]);
}
