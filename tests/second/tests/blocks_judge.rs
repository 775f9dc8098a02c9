//! The judge of soundness of blocks: each sentence by hand, alone where one change of the rules' words can, and memories of any words.
//! Each of the nine can be broken alone. The clause of 3 that a level is below W/32 cannot: levels that count from the root up stay below it.

use second::blocks::calls::{format, perform, CALLS};
use second::blocks::geometry::words_of_kib;
use second::blocks::sound::{broken, sound};
use second::random::Random;

/// The paper's case after its eleventh call. The root stands at 136, its structure at 168, with blocks 8 to 11 at 170, 179, 188 and 197; the child at 242, its
/// structure at 274, with blocks 8 and 9 at 276 and 285. The child is current and has block 8 enabled.
fn middle_of_the_case() -> Vec<u32> {
    let mut mem = vec![7; words_of_kib(16)];
    assert_eq!(format(&mut mem), Ok(0));
    let lines: [&[u32]; 9] = [
        &[7, 8, 1096],
        &[1, 8],
        &[7, 9, 1392],
        &[3, 8, 9],
        &[7, 10, 5488],
        &[5, 8, 10, 3],
        &[9, 8, 8, 1],
        &[12, 8],
        &[7, 8, 3440],
    ];
    for line in lines {
        assert!(perform(&mut mem, line[0], &line[1..]).is_some_and(|said| said.answer.is_ok()));
    }
    mem
}

/// Indices and values, and the sentences that are broken then.
type Case = (&'static [(usize, u32)], &'static [u32]);

const CASES: [Case; 50] = [
    (&[], &[]),
    // Sound: the root current, other entries, fewer rights and as many as the source has, another boundary, any free word.
    (&[(3, 136)], &[]),
    (&[(144, 11)], &[]),
    (&[(250, 0), (257, 9)], &[]),
    (&[(278, 0), (287, 0)], &[]),
    (&[(278, 7), (287, 7)], &[]),
    (&[(277, 1424), (285, 1424)], &[]),
    (&[(349, 9), (4095, 1)], &[]),
    // 1, the header.
    (&[(0, 4097)], &[1]),
    (&[(1, 135)], &[1]),
    (&[(2, 972)], &[1]),
    (&[(3, 0)], &[1]),
    (&[(3, 243)], &[1]),
    (&[(4, 1)], &[1]),
    (&[(7, 1)], &[1]),
    // 2, the table.
    (&[(20, 136)], &[2]),
    (&[(135, 1)], &[2]),
    (&[(12, 0)], &[2, 3]),
    (&[(15, 0)], &[1, 7]),
    (&[(20, 384)], &[3]),
    // 3, descriptors.
    (&[(139, 1)], &[3]),
    (&[(249, 1)], &[3]),
    (&[(136, 136)], &[3]),
    (&[(138, 1), (244, 2)], &[3]),
    (&[(244, 2)], &[3]),
    (&[(243, 11)], &[3, 5, 7, 8]),
    // 4, entries.
    (&[(144, 9)], &[4]),
    (&[(144, 136)], &[4]),
    (&[(144, 11), (151, 11)], &[4]),
    (&[(251, 8)], &[4]),
    // 5, structures.
    (&[(168, 8)], &[5]),
    (&[(169, 1)], &[5]),
    (&[(275, 1)], &[5, 7]),
    (&[(275, 2)], &[5, 7]),
    (&[(258, 0)], &[4, 7]),
    // 6, slots.
    (&[(206, 5)], &[6]),
    (&[(214, 1)], &[6]),
    (&[(277, 1423), (285, 1423)], &[6]),
    (&[(200, 5)], &[6]),
    (&[(278, 8), (287, 8)], &[6, 8]),
    // 7, uses.
    (&[(201, 8)], &[7]),
    (&[(202, 1)], &[7]),
    (&[(184, 2)], &[5, 7]),
    (&[(193, 9)], &[7, 9]),
    (&[(192, 9)], &[7, 8]),
    // 8, sources.
    (&[(172, 3), (181, 3), (190, 3), (199, 3)], &[8]),
    (&[(176, 1), (185, 1), (194, 1), (203, 1)], &[8]),
    // 9, chains.
    (&[(277, 3441)], &[9]),
    (&[(284, 0)], &[9]),
    (&[(292, 0)], &[9]),
];

#[test]
fn sentences() {
    for (changes, sentences) in CASES {
        let mut mem = middle_of_the_case();
        changes.iter().for_each(|&(index, value)| mem[index] = value);
        assert_eq!(broken(&mem), sentences, "{changes:?}");
        assert_eq!(sound(&mem), sentences.is_empty());
    }
}

#[test]
fn circles() {
    // A child that is its own parent, and words that lead everywhere.
    let mut mem = middle_of_the_case();
    mem[242] = 242;
    assert!(broken(&mem).contains(&3));
    for value in [0, 1, 8, 136, 242, u32::MAX] {
        mem[..8].fill(value);
        mem[200..].fill(value);
        assert!(!sound(&mem));
        mem.fill(value);
        assert!(!sound(&mem));
    }
    let mut mem: Vec<u32> = (0..4096).map(|i| if i < 136 { 32 * (i - i.min(8)) + 1 } else { i % 140 }).collect();
    assert!(!sound(&mem));
    mem.rotate_left(1);
    assert!(!sound(&mem));
}

#[test]
fn any_memory_is_refused_unchanged() {
    let (mut random, mut sounds) = (Random::new(7), 0);
    for round in 0..600u32 {
        let length = match round % 4 {
            0 => random.below(200),
            1 => 256 * random.below(80),
            _ => 4096,
        };
        // Words that look like the kernel's, in a sound memory or all over.
        let mut mem = if length == 4096 { middle_of_the_case() } else { vec![0; length] };
        let changed = if length == 4096 { 1 + random.below(12) } else { length };
        for _ in 0..changed {
            let index = if random.once_in(2) { random.below(length) } else { random.below(length.min(360)) };
            let near = mem[index].wrapping_add(1);
            let (small, place) = (random.below(12) as u32, random.below(4 * 4096) as u32);
            mem[index] = random.pick(&[0, small, place, place / 4, near, 32 * small + 8, u32::MAX]).unwrap();
        }
        let damaged = !broken(&mem).is_empty();
        sounds += usize::from(!damaged);
        for (number, (_, count)) in (0..).zip(CALLS) {
            let arguments: Vec<u32> = (0..count).map(|_| random.below(140) as u32).collect();
            let before = mem.clone();
            let answer = perform(&mut mem, number, &arguments).unwrap().answer;
            assert!(number == 0 || !damaged || answer == Err(1));
            assert!(answer.is_ok() || mem == before);
            mem = before;
        }
    }
    assert!(sounds > 5);
}
