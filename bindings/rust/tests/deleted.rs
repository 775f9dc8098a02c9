//! Document 02, L3: what a deleted child leaves in the pages that were lent to it.
use tumashqin::{Edition, Memory, EXECUTE, READ, WRITE};

/// The address of the first page lent to a child, at directory index 1.
fn loft(edition: Edition) -> u32 {
    (edition.page_words() * edition.page_bytes()) as u32
}

/// Of the caller's pages in a row five make a child, three its tables, and the others are lent to it with these rights.
fn child(memory: &mut Memory, edition: Edition, first: u32, rights: &[u32]) {
    let page = |k: usize| first + (k * edition.page_bytes()) as u32;
    memory.create_partition([0, 1, 2, 3, 4].map(page)).unwrap();
    memory.store(page(5), page(6)).unwrap();
    memory.store(page(6), page(7)).unwrap();
    memory.prepare(first, loft(edition), page(5)).unwrap();
    for (k, &rights) in rights.iter().enumerate() {
        let target = loft(edition) + (k * edition.page_bytes()) as u32;
        memory.add_vaddr(page(8 + k), first, target, rights).unwrap();
    }
}

/// The words of a page of the root's, where that has one three of tables.
fn words_of<'a>(memory: &'a Memory, edition: Edition, page: usize) -> &'a [u32] {
    &memory.words()[(8 + page) * edition.page_words()..][..edition.page_words()]
}

#[test]
fn what_is_wiped_and_what_keeps_its_words() {
    for edition in [Edition::Pages256, Edition::Pages4096] {
        let mut words = vec![0; 30 * edition.page_words()];
        let mut memory = Memory::format(&mut words, edition).unwrap();
        let (size, loft) = (edition.page_bytes() as u32, loft(edition));
        let wiped = |memory: &Memory, page| words_of(memory, edition, page).iter().all(|&word| word == 0);
        // Pages 17 to 20 and 21 have words; the last is never lent.
        for page in 17..=21 {
            memory.store(page * size, 7).unwrap();
            memory.store((page + 1) * size - 4, page).unwrap();
        }
        let held = [READ | WRITE, READ | WRITE, READ, READ | EXECUTE];
        child(&mut memory, edition, size, &[&[READ | WRITE; 8][..], &held].concat());
        memory.enter(size).unwrap();
        // The grandchild may write one of its pages; the child, who ends it, may write two of them.
        child(&mut memory, edition, loft, &[READ | WRITE, READ, READ, EXECUTE]);
        let before = memory.words().to_vec();
        assert_eq!(memory.delete_partition(loft), Ok(0));
        assert!((9..=18).all(|page| wiped(&memory, page)));
        for page in 19..=21 {
            let start = (8 + page) * edition.page_words();
            assert_eq!(words_of(&memory, edition, page), &before[start..][..edition.page_words()]);
            assert!(!wiped(&memory, page));
        }
        // The root may write every page: all that it lent are wiped.
        memory.leave().unwrap();
        assert_eq!(memory.delete_partition(size), Ok(0));
        assert!((1..=20).all(|page| wiped(&memory, page)));
        assert!(!wiped(&memory, 21));
    }
}
