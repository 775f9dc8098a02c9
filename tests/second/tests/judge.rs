//! The judge of soundness: each sentence broken alone, circles, and memories of any words.

mod common;
use common::*;
use second::calls::{call, ARGUMENTS};
use second::random::Random;
use second::sound::sound;

/// A child at 256 (page 9) with a three (pages 14 to 16) and four pages, a bare child at 5120 (page 28).
fn two_children() -> Vec<u32> {
    let mut mem = formatted(40);
    down(&mut mem, 256, 12);
    pass(&mut mem, &[&[10], &[1, 5120, 5376, 5632, 5888, 6144]]);
    mem
}

/// A page, a word index in it and a value.
type Change = (usize, usize, u32);

fn verdict(changes: &[Change]) -> Result<(), u32> {
    let mut mem = two_children();
    for &(page, index, value) in changes {
        mem[64 * page + index] = value;
    }
    sound(&mem)
}

#[test]
fn sentences() {
    // Pages 6, 7, 8 are the root's tables, 10 to 13 the first
    // child's directory, shadows and list.
    let cases: [(&[Change], u32); 38] = [
        (&[(0, 0, 41)], 1),
        (&[(0, 1, 2)], 1),
        (&[(0, 4, 256 * 40)], 1),
        (&[(0, 63, 1)], 1),
        (&[(9, 12, 2)], 1),
        (&[(1, 12, 2)], 1),
        (&[(9, 13, 1)], 1),
        (&[(1, 13, 1)], 1),
        (&[(10, 1, 0)], 1),
        (&[(6, 0, 256 * 9 + 31)], 1),
        (&[(6, 30, 256 * 38 + 30)], 1),
        (&[(13, 0, 8)], 1),
        (&[(13, 63, 256)], 1),
        (&[(1, 0, 256)], 2),
        (&[(6, 30, 256 * 38 + 27)], 2),
        (&[(6, 32, 256 * 38 + 31)], 2),
        (&[(8, 30, 256)], 2),
        (&[(13, 2, 256 * 15), (13, 4, 256 * 14)], 3),
        (&[(10, 2, 256 * 14 + 1), (11, 2, 256 * 15 + 1), (12, 2, 256 * 16 + 1)], 3),
        (&[(13, 0, 13)], 3),
        (&[(9, 11, 512)], 4),
        (&[(9, 0, 512)], 4),
        (&[(9, 2, 768)], 4),
        (&[(13, 1, 0)], 4),
        (&[(7, 0, 1)], 4),
        (&[(7, 30, 1)], 1),
        (&[(0, 4, 0)], 5),
        (&[(0, 4, 256 * 10)], 5),
        (&[(16, 0, 256)], 6),
        (&[(7, 30, 256)], 6),
        (&[(7, 30, 512)], 6),
        (&[(14, 0, 256 * 17 + 13)], 6),
        (&[(6, 30, 256 * 38 + 29)], 7),
        (&[(6, 1, 256 * 9 + 31)], 7),
        (&[(28, 4, 5888), (28, 5, 256 * 31), (6, 22, 256 * 30 + 31)], 8),
        (&[(16, 40, 256)], 9),
        (&[(14, 0, 256 * 17 + 27)], 12),
        (&[(14, 0, 256 * 17 + 31)], 12),
    ];
    assert_eq!(verdict(&[]), Ok(()));
    for (changes, sentence) in cases {
        assert_eq!(verdict(changes), Err(sentence), "{changes:?}");
    }
    // A live flag of 1, in the root and in a child, is sound.
    assert_eq!(verdict(&[(1, 12, 1)]), Ok(()));
    assert_eq!(verdict(&[(9, 12, 1)]), Ok(()));
    // Fewer rights in a leaf, and any word of a page in hand, are sound.
    assert_eq!(verdict(&[(14, 0, 256 * 17 + 3), (38, 5, 1), (17, 63, 9)]), Ok(()));
    assert_eq!(verdict(&[(0, 4, 256 * 28)]), Ok(()));
}

#[test]
fn circles() {
    // The child maps its own, the root's and its sibling's descriptor as a child's.
    for page in [9, 1, 28] {
        assert_eq!(verdict(&[(14, 0, 256 * page + 31), (15, 0, 1)]), Err(4));
    }
    // Every word leads to every page.
    let mut mem: Vec<u32> = (0..64 * 256).map(|i| (i % 256) << 8 | 1).collect();
    assert_eq!(sound(&mem), Err(1));
    mem.fill(1);
    assert_eq!(sound(&mem), Err(1));
}

#[test]
fn any_memory_is_refused_unchanged() {
    let mut random = Random::new(7);
    for round in 0..250u32 {
        let length = match round % 4 {
            0 => random.below(200),
            1 => 64 * random.below(300),
            _ => 64 * 40,
        };
        // Words that look like the kernel's, in a sound memory or all over.
        let mut mem = if length == 64 * 40 { two_children() } else { vec![0; length] };
        let changed = if length == 64 * 40 { 1 + random.below(40) } else { length };
        for _ in 0..changed {
            let index = random.below(length);
            let address = 256 * random.below(50) as u32;
            mem[index] = random.pick(&[0, 1, address, address + 1, address + 31, round * 0x0101_0101]).unwrap();
        }
        let damaged = sound(&mem).is_err();
        for number in 0..=ARGUMENTS.len() {
            let count = if number == 0 { 1 } else { ARGUMENTS[number - 1] };
            let arguments: Vec<u32> = (0..count).map(|_| 256 * random.below(5000) as u32).collect();
            let before = mem.clone();
            let answer = call(&mut mem, number as u32, &arguments).unwrap();
            if number > 0 && damaged {
                assert_eq!(answer, Err(1));
            }
            assert!(answer.is_ok() || mem == before);
            mem = before;
        }
    }
}
