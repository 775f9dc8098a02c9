//! The exact cases of docs/BLOCKS.md.

use second::blocks::bytes::facts;
use second::blocks::calls::{format, perform, Said, CALLS};
use second::blocks::geometry::{words_of_kib, Geometry};
use second::blocks::memory::{family, Partition};
use second::blocks::refusal::*;
use second::blocks::sound::broken;

fn formatted(kib: usize) -> Vec<u32> {
    let mut mem = vec![0xA5A5_A5A5; words_of_kib(kib)];
    assert_eq!(format(&mut mem), Ok(0));
    mem
}

fn say(mem: &mut [u32], line: &[u32]) -> Result<u32, u32> {
    let said = perform(mem, line[0], &line[1..]).expect("a known call");
    facts(mem).expect("the facts");
    said.answer
}

fn pass(mem: &mut [u32], lines: &[&[u32]]) {
    for line in lines {
        assert!(say(mem, line).is_ok(), "{line:?}");
    }
}

/// The left column of the case, then the right one.
const CASE: [(&[u32], Result<u32, u32>); 26] = [
    (&[7, 8, 1096], Ok(9)),
    (&[1, 8], Ok(0)),
    (&[7, 9, 1392], Ok(10)),
    (&[3, 8, 9], Ok(0)),
    (&[7, 10, 5488], Ok(11)),
    (&[5, 8, 10, 3], Ok(8)),
    (&[1, 10], Err(BLOCK)),
    (&[5, 8, 11, 8], Err(RIGHTS)),
    (&[9, 8, 8, 1], Ok(1)),
    (&[12, 8], Ok(0)),
    (&[7, 8, 3440], Ok(9)),
    (&[7, 9, 3471], Err(PIECE)),
    (&[10, 0, 1], Ok(1)),
    (&[13], Ok(0)),
    (&[6, 8, 10], Err(UNMERGED)),
    (&[12, 8], Ok(0)),
    (&[8, 9, 8], Ok(8)),
    (&[13], Ok(0)),
    (&[6, 8, 10], Ok(0)),
    (&[4, 8], Ok(9)),
    (&[2, 8], Ok(0)),
    (&[8, 8, 9], Ok(8)),
    (&[8, 8, 11], Err(APART)),
    (&[8, 8, 10], Ok(8)),
    (&[8, 8, 11], Ok(8)),
    (&[9, 0, 8, 1], Ok(1)),
];

#[test]
fn the_case_whole() {
    let mut mem = formatted(16);
    for (place, (line, answer)) in CASE.iter().enumerate() {
        let said = perform(&mut mem, line[0], &line[1..]).unwrap();
        assert_eq!(said.answer, *answer, "{line:?}");
        assert_eq!(said.told, (line[0] == 10).then_some([8, 1392, 3440, 3, 1, 0]));
        facts(&mem).unwrap();
        if place == 5 {
            let root = Partition::read(&mem, 136);
            assert_eq!(root.slot(10).words(), [1392, 5488, 7, 2, 8, 8, 0, 9, 11]);
            let child = Partition::read(&mem, 242);
            assert_eq!(child.slot(8).words(), [1392, 5488, 3, 1, 0, 0, 10, 0, 0]);
            assert_eq!((root.slot(8).place(), root.slot(9).place(), child.structures[0].at), (242, 274, 274));
            let family: Vec<usize> = family(&mem, 136).iter().map(|one| one.at).collect();
            assert_eq!(family, [136, 242]);
        }
    }
    assert_eq!(mem, formatted(16));
    let none = Said { answer: Ok(0), told: Some([0; 6]) };
    let start = Said { answer: Ok(1), told: Some([8, 968, 16384, 7, 1, 0]) };
    assert_eq!(perform(&mut mem, 11, &[0, 5000]), Some(start));
    assert_eq!(perform(&mut mem, 11, &[0, 900]), Some(none));
    assert_eq!(perform(&mut mem, 10, &[0, 2]), Some(none));
    assert_eq!(perform(&mut mem, 11, &[9, 900]), Some(Said { answer: Err(CHILD), ..none }));
    assert_eq!(say(&mut mem, &[13]), Err(ROOT));
}

#[test]
fn sizes() {
    for (words, root, first_byte, free) in [(4096, 136, 968, 15_416), (16_384, 520, 2504, 63_032)] {
        let geometry = Geometry::of_length(words).unwrap();
        assert_eq!((geometry.root, geometry.first_byte, geometry.free()), (root, first_byte, free));
    }
    for words in 0..17_000 {
        let permitted = words % 256 == 0 && (4096..=16_384).contains(&words);
        assert_eq!(Geometry::of_length(words).is_some(), permitted);
    }
}

#[test]
fn lengths_not_permitted() {
    for words in [0, 1, 8, 31, 3840, 4097, 16_640] {
        let mut mem = vec![7; words];
        for (number, (_, count)) in (0..).zip(CALLS) {
            let said = perform(&mut mem, number, &[8; 3][..count]).unwrap();
            assert_eq!(said.answer, Err(if number == 0 { LENGTH } else { DAMAGED }));
            assert_eq!(said.told, matches!(number, 10 | 11).then_some([0; 6]));
        }
        assert!(mem.iter().all(|&word| word == 7));
        assert_eq!(broken(&mem), [1]);
    }
}

#[test]
fn all_words_of_a_formatted_memory() {
    let mem = formatted(16);
    let named = [(0, 4096), (1, 136), (2, 968), (3, 136), (8 + 4, 136), (136 + 8, 8), (136 + 16, 168)];
    let slot = [(170, 968), (171, 16_384), (172, 7), (173, 1)];
    let used: Vec<(usize, u32)> = (0..).zip(mem.iter().copied()).filter(|&(_, word)| word != 0).collect();
    assert_eq!(used, [&named[..], &slot[..]].concat());
}

#[test]
fn room_for_a_descriptor() {
    for (start, answer) in [(1000, Ok(0)), (1001, Err(9)), (1002, Err(9)), (1003, Err(9)), (1004, Ok(0))] {
        let mut mem = formatted(16);
        pass(&mut mem, &[&[7, 8, start], &[7, 9, start + 128]]);
        assert_eq!(say(&mut mem, &[1, 9]), answer);
    }
    for (bytes, answer) in [(295, Err(9)), (296, Ok(0)), (297, Ok(0))] {
        let mut mem = formatted(16);
        pass(&mut mem, &[&[7, 8, 1000], &[7, 9, 1000 + bytes]]);
        assert_eq!(say(&mut mem, &[3, 0, 9]), answer);
    }
}

#[test]
fn the_smallest_pieces() {
    let mut mem = formatted(16);
    for address in [0, 967, 968, 968 + 31, 16_384 - 31, 16_384, 16_385, u32::MAX] {
        assert_eq!(say(&mut mem, &[7, 8, address]), Err(PIECE));
    }
    assert_eq!(say(&mut mem, &[7, 8, 968 + 32]), Ok(9));
    assert_eq!(say(&mut mem, &[7, 9, 16_384 - 32]), Ok(10));
    // A piece of 63 bytes cannot be cut, one of 64 can.
    assert_eq!(say(&mut mem, &[7, 9, 1000 + 63]), Ok(11));
    assert_eq!(say(&mut mem, &[7, 9, 1000 + 32]), Err(PIECE));
    assert_eq!(say(&mut mem, &[7, 11, 1063 + 64]), Ok(12));
    assert_eq!(say(&mut mem, &[7, 11, 1063 + 32]), Ok(13));
}

#[test]
fn a_seventeenth_structure_and_a_ninth_enabling() {
    let mut mem = formatted(16);
    // The lowest piece is cut off again and again, for the root's own structures: it has one, and fifteen more.
    let mut rest = 8;
    for _ in 0..15 {
        let start = Partition::current(&mem).slot(rest).start;
        let next = say(&mut mem, &[7, rest, start + 296]).unwrap();
        assert_eq!(say(&mut mem, &[3, 0, rest]), Ok(0));
        rest = next;
    }
    assert_eq!(say(&mut mem, &[3, 0, rest]), Err(STRUCTURE));
    let mut cut = Vec::new();
    for _ in 0..9 {
        let start = Partition::current(&mem).slot(rest).start;
        let next = say(&mut mem, &[7, rest, start + 33]).unwrap();
        cut.push(std::mem::replace(&mut rest, next));
    }
    // Entry 1 was the starting block's, which is taken.
    for (entry, &number) in (1..=8).zip(&cut) {
        assert_eq!(say(&mut mem, &[9, 0, number, 5]), Ok(entry));
    }
    assert_eq!(say(&mut mem, &[9, 0, cut[8], 1]), Err(ENABLED));
    assert_eq!(say(&mut mem, &[9, 0, cut[8], 0]), Ok(0));
    assert_eq!(say(&mut mem, &[9, 0, cut[4], 1]), Ok(5));
    assert_eq!(say(&mut mem, &[9, 0, cut[4], 0]), Ok(0));
    assert_eq!(say(&mut mem, &[9, 0, cut[8], 1]), Ok(5));
}

#[test]
fn nine_below_the_root() {
    let mut mem = formatted(16);
    for level in 1..=20 {
        let start = Partition::current(&mem).slot(8).start;
        pass(&mut mem, &[&[7, 8, start + 128], &[7, 9, start + 128 + 296], &[1, 8], &[3, 8, 9]]);
        pass(&mut mem, &[&[5, 8, 10, 7], &[12, 8]]);
        assert_eq!(Partition::current(&mem).level, level);
    }
    for _ in 1..=20 {
        pass(&mut mem, &[&[13]]);
    }
    pass(&mut mem, &[&[2, 8], &[8, 8, 9], &[8, 8, 10], &[9, 0, 8, 1]]);
    assert!(mem[242..].iter().all(|&word| word == 0) && mem == formatted(16));
}

#[test]
fn what_is_named_badly() {
    let mut mem = formatted(16);
    for number in [0, 7, 9, 15, 16, 135, 136, u32::MAX] {
        for line in [&[2, number][..], &[5, number, 8, 0], &[6, number, 8], &[12, number]] {
            assert_eq!(say(&mut mem, line), Err(CHILD));
        }
        for line in [&[1, number][..], &[3, 0, number], &[7, number, 2000], &[8, 8, number], &[9, 0, number, 0]] {
            assert_eq!(say(&mut mem, line), Err(BLOCK));
        }
    }
    assert_eq!(say(&mut mem, &[8, 8, 8]), Err(APART));
    for entry in [0, 9, u32::MAX] {
        assert_eq!(perform(&mut mem, 10, &[0, entry]), Some(Said { answer: Ok(0), told: Some([0; 6]) }));
    }
    for (number, count) in [(14, 0), (0, 1), (1, 0), (13, 1), (u32::MAX, 2)] {
        assert_eq!(perform(&mut mem, number, &[8; 2][..count]), None);
    }
}
