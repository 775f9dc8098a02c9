//! Replay: the bench morning and scripts that can't be read.

mod common;
use common::*;
use second::geometry::{PPage, VPage, SMALL};
use second::memory::{table_word, Partition};
use second::replay::replay;

const MORNING: [&[u32]; 15] = [
    &[1, 256, 512, 768, 1024, 1280],
    &[5, 256, 4096],
    &[12, 1536, 1792],
    &[12, 1792, 2048],
    &[6, 256, 4096, 1536],
    &[3, 2304, 256, 4096, 3],
    &[8, 2304],
    &[12, 256, 1],
    &[9, 256],
    &[12, 4100, 77],
    &[10],
    &[11, 2308],
    &[4, 256, 4096],
    &[7, 256, 4096],
    &[2, 256],
];

const TRANSCRIPT: &str = "20 11\n1 ok 0\n2 ok 3\n3 ok 0\n4 ok 0\n5 ok 0\n6 ok 0\n7 ok 256\n8 no 16\n9 ok 0\n\
    10 ok 0\n11 ok 0\n12 ok 77\n13 ok 2304\n14 ok 1536\n15 ok 0\n";

fn script(pages: u32, count: u32, offset: u32, records: &[&[u32]]) -> Vec<u8> {
    let header = [pages, count, offset];
    let words = header.iter().chain(records.iter().flat_map(|record| record.iter()));
    words.flat_map(|word| word.to_le_bytes()).collect()
}

fn is_bad(script: &[u8]) -> bool {
    replay(script) == b"bad script\n"
}

#[test]
fn morning() {
    let morning = script(20, 15, 12, &MORNING);
    assert_eq!(String::from_utf8(replay(&morning)).unwrap(), TRANSCRIPT);
    let mut shifted = script(20, 15, 15, &[]);
    shifted.extend([1, 2, 3]);
    shifted.extend(&morning[12..]);
    assert_eq!(replay(&shifted), TRANSCRIPT.as_bytes());
}

#[test]
fn morning_in_memory() {
    let mut mem = formatted(20);
    pass(&mut mem, &MORNING[..6]);
    let child = Partition::at(&mem, PPage(9));
    assert_eq!(table_word(&mem, child.directory, VPage::of(SMALL, 4096)), 4367);
    assert_eq!(table_word(&mem, child.shadow2, VPage::of(SMALL, 4096)), 2304);
    for line in &MORNING[6..] {
        let _ = say(&mut mem, line);
    }
    // All is as formatted but for the word stored and the links that collect left.
    let mut expected = formatted(20);
    expected[17 * 64 + 1] = 77;
    expected[14 * 64] = 1792;
    expected[15 * 64] = 2048;
    assert_eq!(mem, expected);
}

#[test]
fn bad_scripts() {
    let good = script(20, 2, 12, &[&[10], &[8, 256]]);
    assert_eq!(replay(&good), b"20 11\n1 no 14\n2 ok 0\n");
    assert!((0..good.len()).all(|end| is_bad(&good[..end])));
    for left_over in 1..5 {
        assert!(is_bad(&[&good[..], &vec![0; left_over]].concat()));
    }
    for (pages, count, offset) in [(15, 0, 12), (257, 0, 12), (0, 0, 12), (20, 0, 11), (20, 0, 0), (20, 0, 13)] {
        assert!(is_bad(&script(pages, count, offset, &[])));
    }
    for (count, offset) in [(1, 12), (u32::MAX, 12), (0, u32::MAX)] {
        assert!(is_bad(&script(20, count, offset, &[])));
    }
    for unknown in [0, 13, u32::MAX] {
        assert!(is_bad(&script(20, 1, 12, &[&[unknown]])));
    }
}

#[test]
fn bounds_of_good_scripts() {
    assert_eq!(replay(&script(20, 0, 12, &[])), b"20 11\n");
    let mut gap = script(256, 0, 4096, &[]);
    gap.resize(4096, 0xFF);
    assert_eq!(replay(&gap), b"256 238\n");
    gap[8..12].copy_from_slice(&4097u32.to_le_bytes());
    assert!(is_bad(&gap));
    gap.push(0);
    assert!(is_bad(&gap));
}
