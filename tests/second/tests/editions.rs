//! The two editions: their sizes, the addresses of the large one, format's choice and what the header's word says.

mod common;
use common::*;
use second::calls::{call, format, leave};
use second::geometry::*;
use second::memory::{table_word, word, Partition, ROOT_PAGE};
use second::record;
use second::sound::sound;

/// The length that both editions have: 256 small pages, or 16 large ones.
const BOTH: usize = 16_384;
const LAST: u32 = 4_294_963_200;

#[test]
fn sizes_of_large_memories() {
    let cases = [
        (16, 1, 7),
        (1_032, 1, 1_023),
        (1_033, 2, 1_021),
        (2_059, 2, 2_047),
        (2_060, 3, 2_045),
        (3_086, 3, 3_071),
        (3_087, 4, 3_069),
        (4_096, 4, 4_078),
    ];
    for (n, t, f) in cases {
        let sizes = Sizes::of_pages(LARGE, n).unwrap();
        assert_eq!((sizes.threes, sizes.free), (t, f));
        let mem = formatted_as(LARGE, n);
        assert_eq!(mem[..6], [n as u32, t, 4_096, 4_096 * (6 + 3 * t), 4_096, 1]);
        assert_eq!(sound(&mem), Ok(()));
        let root = Partition::at(&mem, ROOT_PAGE);
        assert!(root.mappings(&mem).map(|(v, _)| v.0).eq(1..=f));
    }
}

#[test]
fn lengths_that_an_edition_does_not_have() {
    for (edition, pages) in [(SMALL, 15), (SMALL, 257), (LARGE, 15), (LARGE, 4_097)] {
        for more in [0, 1] {
            assert_refused(edition.number, pages * edition.page_words() + more);
        }
    }
    // 17 large pages are too many small ones, 20 small pages no whole large one, 255 small pages fewer than 16 large ones.
    assert_refused(0, 17 * 1_024);
    assert_refused(1, 20 * 64);
    assert_refused(1, 255 * 64);
    for choice in [2, 3, 6, 10, 256, u32::MAX] {
        for length in [BOTH, 16 * 64, 17 * 1_024] {
            assert_refused(choice, length);
        }
    }
}

/// Format is refused with 2, what follows with 1, and no word changes; where another edition has the length its memory stays in use.
fn assert_refused(choice: u32, length: usize) {
    let mut mem = vec![7; length];
    assert_eq!(format(&mut mem, choice), Err(2));
    assert_eq!(leave(&mut mem), Err(1));
    assert!(mem.iter().all(|&word| word == 7));
    for edition in EDITIONS {
        if format(&mut mem, edition.number).is_ok() {
            let before = mem.clone();
            assert_eq!(format(&mut mem, choice), Err(2));
            assert_eq!(mem, before);
            assert_eq!(leave(&mut mem), Err(14));
        }
    }
}

#[test]
fn words_of_the_smallest_large_memory() {
    let mut mem = formatted_as(LARGE, 16);
    let root = Partition::at(&mem, ROOT_PAGE);
    assert_eq!(mem[2..6], [4_096, 36_864, 4_096, 1]);
    assert_eq!(table_word(&mem, root.directory, VPage(1)), 36_895);
    assert_eq!(say(&mut mem, &[1, 4_096, 8_192, 12_288, 16_384, 20_480]), Ok(0));
    assert_eq!(table_word(&mem, root.directory, VPage(1)), 36_893);
    assert_eq!(word(&mem, PPage(13), 0), 1);
}

#[test]
fn large_addresses() {
    let mut mem = formatted_as(LARGE, 16);
    for (address, refusal) in [
        (0, 3),
        (4_095, 3),
        (4_097, 3),
        (4_352, 3),
        (LAST + 1, 3),
        (u32::MAX, 3),
        (1 << 20, 15),
        (1 << 31, 15),
        (LAST, 15),
    ] {
        assert_eq!(say(&mut mem, &[8, address]), Err(refusal), "{address}");
    }
    for (address, refusal) in [(0, 3), (4_092, 3), (4_098, 3), (u32::MAX, 3), (u32::MAX - 3, 15), (LAST, 15)] {
        assert_eq!(say(&mut mem, &[11, address]), Err(refusal), "{address}");
        assert_eq!(say(&mut mem, &[12, address, 1]), Err(refusal), "{address}");
    }
    // As any argument of a call it is no refusal 3.
    assert_eq!(say(&mut mem, &[1, 4_096, 8_192, 12_288, 16_384, LAST]), Err(7));
    assert_eq!(say(&mut mem, &[9, LAST]), Err(5));
    pass(&mut mem, &[&[1, 4_096, 8_192, 12_288, 16_384, 20_480]]);
    assert_eq!(say(&mut mem, &[3, LAST, 4_096, 8_192, 0]), Err(7));
    assert_eq!(say(&mut mem, &[6, 4_096, 8_192, LAST]), Err(7));
    assert_eq!(say(&mut mem, &[6, 4_096, 8_193, LAST]), Err(3));
}

#[test]
fn the_last_page_mapped_and_in_a_chain() {
    let at = |k: u32| 4_096 * k;
    let mut mem = formatted_as(LARGE, 33);
    pass(&mut mem, &[&[1, at(1), at(2), at(3), at(4), at(5)]]);
    assert_eq!(furnish(&mut mem, at(1), LAST, [at(6), at(7), at(8)]), Ok(0));
    let child = Partition::at(&mem, PPage(9));
    assert!(child.has_three(&mem, 1_023) && child.three_count(&mem) == 1);
    for k in 0..12 {
        pass(&mut mem, &[&[3, at(9 + k), at(1), LAST - at(k), 3]]);
    }
    assert_eq!(say(&mut mem, &[3, at(21), at(1), LAST, 3]), Err(9));
    pass(&mut mem, &[&[9, at(1)], &[12, u32::MAX - 3, 77]]);
    assert_eq!(say(&mut mem, &[11, u32::MAX - 3]), Ok(77));
    // A grandchild whose list is the last page; then one whose shadow 1 table is.
    pass(&mut mem, &[&[1, LAST - at(1), LAST - at(2), LAST - at(3), LAST - at(4), LAST]]);
    assert_eq!(furnish(&mut mem, LAST - at(1), at(1), [LAST - at(5), LAST - at(6), LAST - at(7)]), Ok(0));
    pass(&mut mem, &[&[2, LAST - at(1)], &[1, LAST - at(1), LAST - at(2), LAST - at(3), LAST - at(4), LAST - at(5)]]);
    assert_eq!(furnish(&mut mem, LAST - at(1), at(1), [LAST - at(6), LAST, LAST - at(7)]), Ok(0));
    assert_eq!(say(&mut mem, &[8, LAST]), Err(16));
    assert_eq!(say(&mut mem, &[11, LAST]), Err(16));
    assert_eq!(say(&mut mem, &[7, LAST - at(1), at(1)]), Ok(LAST - at(6)));
    assert_eq!(say(&mut mem, &[11, LAST - at(6)]), Ok(LAST));
    assert_eq!(say(&mut mem, &[11, LAST]), Ok(LAST - at(7)));
    pass(&mut mem, &[&[10]]);
    assert_eq!(say(&mut mem, &[4, at(1), LAST]), Ok(at(9)));
    assert_eq!(say(&mut mem, &[2, at(1)]), Ok(0));
}

#[test]
fn the_last_format_decides() {
    let mut mem = vec![7; BOTH];
    let small = |mem: &mut [u32]| say(mem, &[1, 256, 512, 768, 1_024, 1_280]);
    let large = |mem: &mut [u32]| say(mem, &[1, 4_096, 8_192, 12_288, 16_384, 20_480]);
    for _ in 0..2 {
        pass(&mut mem, &[&[0, 0]]);
        assert_eq!(mem, formatted(256));
        // 4,096 to 20,480 are good addresses of small pages, too.
        assert_eq!(large(&mut mem), Ok(0));
        assert_eq!(small(&mut mem), Ok(0));
        pass(&mut mem, &[&[9, 256], &[0, 1]]);
        assert_eq!(mem, formatted_as(LARGE, 16));
        assert_eq!(small(&mut mem), Err(3));
        assert_eq!(large(&mut mem), Ok(0));
        assert_eq!(say(&mut mem, &[0, 2]), Err(2));
        pass(&mut mem, &[&[9, 4_096]]);
    }
}

#[test]
fn another_word_for_the_edition() {
    for (edition, pages) in [(SMALL, 16), (SMALL, 256), (LARGE, 16), (LARGE, 17)] {
        for value in [0, 1, 2, 3, 6, 10, 1 << 31, u32::MAX] {
            let mut mem = formatted_as(edition, pages);
            mem[EDITION] = value;
            let expected = if value == edition.number { Ok(()) } else { Err(1) };
            assert_eq!(sound(&mem), expected, "{value}");
            let before = mem.clone();
            let answer = call(&mut mem, 8, &[edition.page_bytes()]);
            assert_eq!(answer, Some(expected.map(|()| 0)));
            assert_eq!(mem, before);
        }
    }
    // Too short to name one.
    for length in 0..6 {
        assert_eq!(sound(&vec![0; length]), Err(1));
        assert_eq!(leave(&mut vec![1; length]), Err(1));
    }
}

#[test]
fn another_header() {
    // At the length of both editions the header of the one does not suit the pages of the other.
    for (edition, other, pages) in [(SMALL, LARGE, 256), (LARGE, SMALL, 16)] {
        let (mut mem, header) = (formatted_as(edition, pages), formatted_as(other, 272 - pages));
        assert_eq!(mem.len(), header.len());
        mem[..6].copy_from_slice(&header[..6]);
        assert!(sound(&mem).is_err());
    }
}

#[test]
fn reserved_flags() {
    // Bits 5 to 7 of a small page table word, 5 to 11 of a large one, are 0.
    for (edition, bits) in [(SMALL, 5..8), (LARGE, 5..12)] {
        for bit in bits {
            let mut mem = formatted_as(edition, 16);
            let word = 6 * edition.page_words() + 1;
            mem[word] |= 1 << bit;
            assert_eq!(sound(&mem), Err(1));
        }
    }
}

#[test]
fn a_large_list_page_takes_ten_threes() {
    let at = |k: u32| 4_096 * k;
    let mut mem = formatted_as(LARGE, 60);
    pass(&mut mem, &[&[1, at(1), at(2), at(3), at(4), at(5)]]);
    for k in 0..10 {
        let pages = [0, 1, 2].map(|j| at(6 + 3 * k + j));
        assert_eq!(furnish(&mut mem, at(1), (k + 1) << 22, pages), Ok(0));
    }
    assert_eq!(say(&mut mem, &[5, at(1), 11 << 22]), Err(10));
    assert_eq!(furnish(&mut mem, at(1), 11 << 22, [at(36), at(37), at(38)]), Err(10));
    // The words behind the ten threes are 0.
    assert_eq!(word(&mem, PPage(13), 0), 61);
    for index in [61, 62, 63, 64, 1_022, 1_023] {
        let mut copy = mem.clone();
        copy[13 * 1_024 + index] = 4_096;
        assert_eq!(sound(&copy), Err(1));
    }
}

#[test]
fn records() {
    for (edition, pages, free) in [(SMALL, 256, 238), (LARGE, 16, 7), (LARGE, 1_033, 1_021), (LARGE, 4_096, 4_078)] {
        let mut bytes = [0; record::LENGTH];
        assert_eq!(record::write(&formatted_as(edition, pages), &[9; 64], &mut bytes), Ok(0));
        let (begin, end) = (edition.page_bytes(), edition.page_bytes() * (free + 1));
        assert_eq!(record::read(&bytes), record::Extent { answer: Ok(0), begin, end });
    }
    let mut mem = formatted_as(LARGE, 16);
    mem[EDITION] = 2;
    assert_eq!(record::write(&mem, &[9; 64], &mut [0; record::LENGTH]), Err(1));
}
