//! The wrong programs that docs/BLOCKS.md names: each is caught.

use second::blocks::bytes::{check, counts};
use second::blocks::calls::{format, perform, Answer, Said};
use second::blocks::geometry::*;
use second::blocks::make::make;
use second::blocks::sound::broken;
use second::blocks::wrong::{
    call, keeps_lent_enabled, leaves_descendants, merges_what_adjoins, removes_what_is_lent_on,
};

/// The calls on which the wrong program does what the right one doesn't, with the sentences that are broken then. After each the sequence goes on rightly.
fn caught(wrong: fn(&mut [u32], &[u32]) -> Said) -> Vec<(Answer, Vec<u32>)> {
    let mut caught = Vec::new();
    for (seed, kib) in [(1, 16), (2, 16), (3, 17), (4, 20)] {
        let mut mem = vec![7; words_of_kib(kib)];
        assert_eq!(format(&mut mem), Ok(0));
        for line in make(seed, 5000, kib) {
            let (before, mut other) = (mem.clone(), mem.clone());
            wrong(&mut other, &line);
            let answer = call(&mut mem, &line).answer;
            let fails = check(&before, line[0], answer, &other).is_err();
            assert_eq!(fails, other != mem, "{line:?}");
            if fails {
                caught.push((answer, broken(&other)));
            }
        }
    }
    caught
}

#[test]
fn merges_whatever_adjoins() {
    let caught = caught(merges_what_adjoins);
    assert!(!caught.is_empty() && caught.iter().all(|(answer, broken)| *answer == Err(6) && broken.contains(&9)));
}

#[test]
fn removes_what_the_child_lent_on() {
    let caught = caught(removes_what_is_lent_on);
    assert!(!caught.is_empty() && caught.iter().all(|(answer, broken)| *answer == Err(7) && broken.contains(&8)));
}

#[test]
fn leaves_the_descendants_of_a_deleted_child() {
    let caught = caught(leaves_descendants);
    assert!(!caught.is_empty() && caught.iter().all(|(answer, broken)| *answer == Ok(0) && broken.contains(&3)));
}

#[test]
fn keeps_a_lent_block_enabled() {
    let caught = caught(keeps_lent_enabled);
    assert!(!caught.is_empty() && caught.iter().all(|(answer, broken)| answer.is_ok() && *broken == [4]));
}

#[test]
fn takes_the_bytes_of_a_structure_for_those_of_its_block() {
    let free = u64::from(Geometry::of_length(words_of_kib(16)).unwrap().free());
    let mut mem = vec![7; words_of_kib(16)];
    assert_eq!(format(&mut mem), Ok(0));
    let mut wrong = 0;
    for line in make(1, 3000, 16) {
        let _ = perform(&mut mem, line[0], &line[1..]);
        let right = counts(&mem, |block| block.bytes());
        assert_eq!(right.hand + right.kernel, free);
        let other = counts(&mem, |_| 4 * STRUCTURE_WORDS as u32);
        wrong += usize::from(other.hand + other.kernel != free);
    }
    assert!(wrong > 1000, "{wrong}");
}
