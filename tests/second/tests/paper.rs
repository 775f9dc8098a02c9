//! The paper's exact cases and the slips it names.

mod common;
use common::*;
use second::calls::*;
use second::geometry::{Edition, PPage, Sizes, VPage, EDITIONS, SMALL, WRITE};
use second::memory::{set_table_word, table_word, word, words_of, Mapping, Partition, ROOT_PAGE};
use second::sound::sound;

#[test]
fn sizes() {
    for (n, t, f) in [(16, 1, 7), (72, 1, 63), (73, 2, 61), (256, 4, 238)] {
        let sizes = Sizes::of_pages(SMALL, n).unwrap();
        assert_eq!((sizes.threes, sizes.free), (t, f));
        let mem = formatted(n);
        assert_eq!((mem[0], mem[1]), (n as u32, t));
    }
    for length in [15 * 64, 257 * 64, 16 * 64 + 1, 16 * 64 - 1, 0] {
        let mut mem = vec![7; length];
        assert_eq!(format(&mut mem, 0), Err(2));
        assert_eq!(leave(&mut mem), Err(1));
        assert!(mem.iter().all(|&word| word == 7));
    }
}

#[test]
fn words_of_the_smallest_memory() {
    let mut mem = formatted(16);
    let root = Partition::at(&mem, ROOT_PAGE);
    assert_eq!(mem[2..6], [256, 2304, 256, 0]);
    assert_eq!(table_word(&mem, root.directory, VPage(1)), 2335);
    assert_eq!(say(&mut mem, &[1, 256, 512, 768, 1024, 1280]), Ok(0));
    assert_eq!(table_word(&mem, root.directory, VPage(1)), 2333);
    assert_eq!(mem[9 * 64..9 * 64 + 12], [256, 2304, 512, 2560, 768, 2816, 1024, 3072, 1280, 3328, 0, 256]);
    assert_eq!(word(&mem, PPage(13), 0), 1);
}

#[test]
fn address_bounds() {
    let mut mem = formatted(16);
    for (address, refusal) in [(0, 3), (255, 3), (257, 3), (1 << 20, 3), (u32::MAX, 3), ((1 << 20) - 256, 15)] {
        assert_eq!(say(&mut mem, &[8, address]), Err(refusal));
    }
    for (address, refusal) in [(252, 3), (258, 3), (1 << 20, 3), ((1 << 20) - 4, 15)] {
        assert_eq!(say(&mut mem, &[11, address]), Err(refusal));
    }
    assert_eq!(say(&mut mem, &[12, 260, 5]), Ok(0));
    assert_eq!(say(&mut mem, &[11, 260]), Ok(5));
    // A bad first page is 3, before the child is asked for.
    assert_eq!(say(&mut mem, &[6, 256, 4096, 0]), Err(3));
}

#[test]
fn eleventh_three() {
    let mut mem = formatted(73);
    pass(&mut mem, &[&[1, 256, 512, 768, 1024, 1280]]);
    for k in 0..10 {
        let at = |j: u32| 256 * (6 + 3 * k + j);
        assert_eq!(furnish(&mut mem, 256, (k + 1) << 14, [at(0), at(1), at(2)]), Ok(0));
    }
    assert_eq!(say(&mut mem, &[5, 256, 11 << 14]), Err(10));
    assert_eq!(furnish(&mut mem, 256, 11 << 14, [256 * 36, 256 * 37, 256 * 38]), Err(10));
    // Room given back by collect is usable at once; the chain it leaves is a good one.
    assert_eq!(say(&mut mem, &[7, 256, 5 << 14]), Ok(256 * 18));
    assert_eq!(say(&mut mem, &[6, 256, 11 << 14, 256 * 18]), Ok(0));
    let listed = Partition::at(&mem, PPage(12)).list_pairs(&mem);
    let order: Vec<u32> = listed.iter().map(|pair| pair.0 .0).collect();
    assert_eq!(order, (6..18).chain(21..36).chain(18..21).collect::<Vec<_>>());
}

#[test]
fn depth() {
    let mut mem = formatted(256);
    down(&mut mem, 256, 69);
    for level in 2..=8 {
        down(&mut mem, LOFT, 69 - 8 * (level - 1));
    }
    let five = [0, 1, 2, 3, 4].map(|k| LOFT + 256 * k);
    assert_eq!(create_partition(&mut mem, five), Err(13));
    // Deleting the whole branch from the root brings every page back.
    for _ in 0..8 {
        assert_eq!(leave(&mut mem), Ok(0));
    }
    assert_eq!(leave(&mut mem), Err(14));
    assert_eq!(delete_partition(&mut mem, 256), Ok(0));
    let root = Partition::at(&mem, ROOT_PAGE);
    assert!((1..=238).all(|v| root.in_hand(&mem, VPage(v))));
}

#[test]
fn slip_accessible_cleared_in_the_caller_only() {
    let mut mem = formatted(40);
    down(&mut mem, 256, 16);
    down(&mut mem, LOFT, 8);
    pass(&mut mem, &[&[10], &[10]]);
    for v in 9..17 {
        assert_eq!(say(&mut mem, &[12, 256 * v, 1]), Err(16));
        assert_eq!(say(&mut mem, &[8, 256 * v]), Ok(256));
    }
    assert_eq!(say(&mut mem, &[2, 256]), Ok(0));
    assert_eq!(say(&mut mem, &[12, 256 * 9, 1]), Ok(0));
}

#[test]
fn slip_five_pages_checked_singly() {
    let mut mem = formatted(16);
    assert_eq!(say(&mut mem, &[1, 256, 512, 512, 768, 1024]), Err(4));
    assert_eq!(say(&mut mem, &[1, 256, 512, 768, 1024, 256]), Err(4));
    // Twice is asked of all before hand is asked of any.
    assert_eq!(say(&mut mem, &[1, 65536, 512, 768, 1024, 512]), Err(4));
}

#[test]
fn slip_removing_a_page_lent_on() {
    let mut mem = formatted(40);
    down(&mut mem, 256, 20);
    down(&mut mem, LOFT, 12);
    pass(&mut mem, &[&[10], &[10]]);
    // The child has made the first eight kernel pages and lent the next four on.
    for k in 0..12 {
        assert_eq!(say(&mut mem, &[4, 256, LOFT + 256 * k]), Err(7));
    }
    pass(&mut mem, &[&[9, 256], &[4, LOFT, LOFT], &[10]]);
    assert_eq!(say(&mut mem, &[4, 256, LOFT + 256 * 8]), Ok(256 * 17));
}

#[test]
fn slip_chain_followed_after_a_wiped_link() {
    let mut mem = formatted(20);
    pass(&mut mem, &[&[1, 256, 512, 768, 1024, 1280]]);
    assert_eq!(furnish(&mut mem, 256, 4096, [2560, 1536, 2048]), Ok(0));
    let child = Partition::at(&mem, PPage(9));
    let expected = [(10, 18), (6, 14), (8, 16)].map(|(v, p)| (VPage(v), PPage(p)));
    assert_eq!(child.list_pairs(&mem), expected);
    assert_eq!(child.roots().map(|root| word(&mem, root, 0)), [18, 14, 16].map(|p| 256 * p + 1));
}

#[test]
fn chain_refusals() {
    let mut mem = formatted(20);
    pass(&mut mem, &[&[1, 256, 512, 768, 1024, 1280]]);
    // Links of pages 6, 7 and 8, and the refusal.
    let cases = [
        ([0, 0, 0], 11),
        ([1792, 0, 0], 11),
        ([1792, 1536, 0], 11),
        ([1536, 0, 0], 11),
        ([1793, 2048, 0], 11),
        ([1 << 20, 2048, 0], 11),
        ([256, 2048, 0], 7),
        ([65536, 2048, 0], 7),
        ([1792, 2048, 2304], 11),
        ([1792, 2048, 1536], 11),
    ];
    for (links, refusal) in cases {
        for (page, link) in [1536, 1792, 2048].into_iter().zip(links) {
            pass(&mut mem, &[&[12, page, link]]);
        }
        assert_eq!(say(&mut mem, &[6, 256, 4096, 1536]), Err(refusal), "{links:?}");
    }
    assert_eq!(say(&mut mem, &[6, 256, 4096, 512]), Err(7));
}

#[test]
fn slip_shadow_word_one_taken_for_lent() {
    let mut mem = formatted(20);
    pass(&mut mem, &[&[1, 256, 512, 768, 1024, 1280]]);
    for page in 1..=5 {
        assert_eq!(say(&mut mem, &[8, 256 * page]), Err(16));
    }
    assert_eq!(say(&mut mem, &[8, 256 * 6]), Ok(0));
    assert_eq!(say(&mut mem, &[3, 256, 256, 4096, 0]), Err(7));
    assert_eq!(say(&mut mem, &[2, 512]), Err(5));
}

/// Document 02, L2. The root has a child, that a child, and that one more: each has taken eight pages for its child, the last five.
#[test]
fn mapped_in_child_tells_how_a_page_is_had() {
    let mut mem = formatted(33);
    down(&mut mem, 256, 23);
    down(&mut mem, LOFT, 14);
    pass(&mut mem, &[&[1, LOFT, LOFT + 256, LOFT + 512, LOFT + 768, LOFT + 1024]]);
    // Pages from an address on: how many are asked for, and the answer that each gets.
    let asked = |mem: &mut [u32], base: u32, expected: &[(u32, Answer)]| {
        let answers = expected.iter().flat_map(|&(pages, answer)| (0..pages).map(move |_| answer));
        for (page, answer) in (base..).step_by(256).zip(answers) {
            assert_eq!(say(mem, &[8, page]), answer, "{page}");
        }
    };
    asked(&mut mem, LOFT, &[(5, Err(16)), (1, Ok(0)), (1, Err(15))]);
    pass(&mut mem, &[&[10]]);
    // Lent to the child: five that it took, one in its hand.
    asked(&mut mem, LOFT, &[(8, Err(16)), (5, Ok(LOFT)), (1, Ok(LOFT)), (1, Ok(0)), (1, Err(15))]);
    assert_eq!(say(&mut mem, &[11, LOFT + 256 * 12]), Err(16));
    pass(&mut mem, &[&[10]]);
    // Lent to the child: eight that it took, six that it lent on, of which its child took five, one in its hand.
    asked(&mut mem, 256, &[(8, Err(16)), (8, Ok(256)), (6, Ok(256)), (1, Ok(256)), (1, Ok(0)), (1, Err(15))]);
    assert_eq!([16, 21, 22, 23].map(|page| say(&mut mem, &[11, 256 * page])), [Err(16), Err(16), Ok(0), Ok(0)]);
    pass(&mut mem, &[&[2, 256]]);
    asked(&mut mem, 256, &[(24, Ok(0)), (1, Err(15))]);
}

#[test]
fn rights_never_grow() {
    // By place: all but write and execute together, which may not be lent.
    const LENT: [u32; 8] = [0, 1, 2, 3, 4, 5, 2, 3];
    let mut mem = formatted(40);
    pass(&mut mem, &[&[1, 256, 512, 768, 1024, 1280]]);
    assert_eq!(furnish(&mut mem, 256, LOFT, [1536, 1792, 2048]), Ok(0));
    for k in 0..16 {
        pass(&mut mem, &[&[3, 256 * (9 + k), 256, LOFT + 256 * k, LENT[k as usize & 7]]]);
    }
    // From 6 on is asked before the child, a right not held after the hand.
    for rights in 6..=8 {
        assert_eq!(say(&mut mem, &[3, 256 * 25, 256, LOFT + 4096, rights]), Err(6));
        assert_eq!(say(&mut mem, &[3, 256 * 25, 512, LOFT + 4096, rights]), Err(6));
    }
    assert_eq!(say(&mut mem, &[3, 256 * 25, 512, LOFT + 4096, 5]), Err(5));
    pass(&mut mem, &[&[9, 256]]);
    for k in 0..8 {
        let page = LOFT + 256 * k;
        assert_eq!(say(&mut mem, &[11, page]).is_ok(), LENT[k as usize] & 1 != 0);
        assert_eq!(say(&mut mem, &[12, page, 9]).is_ok(), LENT[k as usize] & 2 != 0);
    }
    let at = |k: u32| LOFT + 256 * k;
    assert_eq!(say(&mut mem, &[1, at(2), at(3), at(6), at(7), at(5)]), Err(6));
    assert_eq!(say(&mut mem, &[1, at(2), at(3), at(6), at(7), at(10)]), Ok(0));
    assert_eq!(say(&mut mem, &[3, at(1), at(2), LOFT, 2]), Err(6));
    assert_eq!(say(&mut mem, &[3, at(1), at(2), LOFT, 1]), Err(8));
    assert_eq!(say(&mut mem, &[6, at(2), LOFT, at(14)]), Err(6));
}

/// By these rights the root lends its pages 25 to 31 to its child, and that lends them on to its own child.
const LENT_ON: [[u32; 2]; 7] = [[3, 3], [1, 1], [3, 3], [3, 1], [5, 4], [0, 0], [2, 0]];

/// The root has a child, that a child, and that one more, which is current. Of the root's pages 1 to 8 serve the first of them, 9 to 16 the second and 17
/// to 24 the third; 25 to 31 are lent to the second, 25 and 26 of them also to the third; 32 is in the first one's hand and 33 in the root's. From 25 on
/// they have words.
fn three_below(edition: Edition) -> Vec<u32> {
    let (mut mem, size) = (formatted_as(edition, 42), edition.page_bytes());
    for page in 25..=33 {
        write_words(edition, &mut mem, size * page);
    }
    let lent = |level: usize| LENT_ON.map(|rights| rights[level]);
    down_with(edition, &mut mem, size, &[&[3; 16][..], &lent(0), &[1]].concat());
    down_with(edition, &mut mem, loft(edition), &[&[3; 8][..], &lent(1)].concat());
    down_with(edition, &mut mem, loft(edition), &[3, 1]);
    mem
}

/// Words at both ends of a page.
fn write_words(edition: Edition, mem: &mut [u32], page: u32) {
    pass(mem, &[&[12, page, 7], &[12, page + 4, page], &[12, page + edition.page_bytes() - 4, 9]]);
}

/// The words of a page of the root's, where that has one three.
fn root_words(mem: &[u32], page: u32) -> &[u32] {
    words_of(mem, PPage(8 + page))
}

fn is_wiped(mem: &[u32], page: u32) -> bool {
    root_words(mem, page).iter().all(|&word| word == 0)
}

/// Document 02, L3. The caller holds write on the lent pages 25, 27, 28 and 31; its child does on 25 and 27. 32 was not lent to the child.
#[test]
fn a_caller_below_the_root_keeps_what_it_may_not_write() {
    for edition in EDITIONS {
        let mut mem = three_below(edition);
        pass(&mut mem, &[&[10], &[10]]);
        let before = mem.clone();
        assert_eq!(delete_partition(&mut mem, loft(edition)), Ok(0));
        for page in 9..=33 {
            if [26, 29, 30, 32, 33].contains(&page) {
                assert!(!is_wiped(&mem, page) && root_words(&mem, page) == root_words(&before, page), "{page}");
            } else {
                assert!(is_wiped(&mem, page) && (page < 25 || !is_wiped(&before, page)), "{page}");
            }
        }
        // All are in the caller's hand, with the rights that it held, and accessible in the root.
        let (child, root) = (Partition::at(&mem, PPage(9)), Partition::at(&mem, ROOT_PAGE));
        let rights = |mem: &[u32]| -> Vec<_> { child.mappings(mem).map(|(v, m)| (v, m.page, m.rights)).collect() };
        assert_eq!(rights(&mem), rights(&before));
        assert!(child.mappings(&mem).all(|(v, _)| child.in_hand(&mem, v)));
        assert!((9..=33).all(|page| root.mapping(&mem, VPage(page)).is_some_and(|m| m.accessible)));
        assert_eq!(sound(&mem), Ok(()));
    }
}

/// Document 02, L3. The root holds write on every page: what was lent is wiped, whatever rights it was lent with and however far below it is used.
#[test]
fn the_root_wipes_all_that_was_lent() {
    for edition in EDITIONS {
        // As format leaves it, but for the page that was never lent.
        let mut expected = formatted_as(edition, 42);
        write_words(edition, &mut expected, 33 * edition.page_bytes());
        // With all that is below the child; and once that has ended its own child.
        for lines in [&[&[10u32][..], &[10], &[10]][..], &[&[10], &[10], &[2, loft(edition)], &[10]]] {
            let mut mem = three_below(edition);
            pass(&mut mem, lines);
            assert_eq!(delete_partition(&mut mem, edition.page_bytes()), Ok(0));
            assert!(mem == expected);
        }
    }
}

/// Document 02, L3: "wipe it if it was a kernel page". No calls take write from one, but memory in which it is gone is sound.
#[test]
fn kernel_pages_are_wiped_without_write() {
    for edition in EDITIONS {
        let (loft, size) = (loft(edition), edition.page_bytes());
        let mut mem = three_below(edition);
        // Pages 9 to 24 in the first below the root, of which the second has 17 to 24.
        for (descriptor, pages) in [(PPage(9), 16), (PPage(17), 8)] {
            let own = Partition::at(&mem, descriptor);
            for v in (0..pages).map(|k| VPage::of(edition, loft + size * k)) {
                let mapping = own.mapping(&mem, v).unwrap();
                let fewer = Mapping { rights: mapping.rights & !WRITE, ..mapping };
                set_table_word(&mut mem, own.directory, v, fewer.encode(edition));
            }
        }
        assert_eq!(sound(&mem), Ok(()));
        // The second collects the third's tables.
        pass(&mut mem, &[&[10], &[4, loft, loft], &[4, loft, loft + size]]);
        assert_eq!(collect(&mut mem, loft, loft), Ok(loft + 5 * size));
        for (page, link) in [(22, loft + 6 * size), (23, loft + 7 * size), (24, 0)] {
            let words = root_words(&mem, page);
            assert!(words[0] == link && words[1..].iter().all(|&word| word == 0), "{page}");
        }
        // The first deletes the second, and the third with it. 22 to 24 are no kernel pages any more, and keep their links.
        pass(&mut mem, &[&[10]]);
        let before = mem.clone();
        assert!([9, 17].iter().all(|&page| !is_wiped(&before, page)));
        assert_eq!(delete_partition(&mut mem, loft), Ok(0));
        assert!((9..=21).all(|page| is_wiped(&mem, page)));
        assert!((22..=24).all(|page| root_words(&mem, page) == root_words(&before, page)));
        assert_eq!(sound(&mem), Ok(()));
    }
}

/// Document 02, L3: "removeVAddr stays". What is taken back keeps its words, and is no lent page any more when the child is deleted.
#[test]
fn a_page_that_is_removed_keeps_its_words() {
    for edition in EDITIONS {
        let (mut mem, size, loft) = (formatted_as(edition, 20), edition.page_bytes(), loft(edition));
        down_with(edition, &mut mem, size, &[3, 3]);
        pass(&mut mem, &[&[12, loft, 5], &[12, loft + size, 6], &[10]]);
        assert_eq!(say(&mut mem, &[4, size, loft]), Ok(9 * size));
        assert_eq!(say(&mut mem, &[2, size]), Ok(0));
        assert_eq!(say(&mut mem, &[11, 9 * size]), Ok(5));
        assert_eq!(say(&mut mem, &[11, 10 * size]), Ok(0));
    }
}
