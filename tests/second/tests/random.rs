//! Random calls: what holds after each of them, and which refusals come up.

mod common;
use common::*;
use second::calls::found;
use second::cover::Cover;
use second::damage::{damage, unwritable_kernel_page, wide_damage};
use second::geometry::{Edition, PPage, Sizes, VPage, EDITIONS, LARGE, SMALL, WRITE};
use second::make::make;
use second::memory::{words_of, Partition};
use second::random::Random;
use second::sound::{broken, numbers, sound};
use second::tree::tree;
use std::collections::BTreeSet;

/// Counts of pages in hand and of kernel pages add to F; each page has one use; kernel pages are
/// nowhere accessible; siblings share no page.
fn check_counts(mem: &[u32]) {
    let sizes = Sizes::of(mem).unwrap();
    let nodes = tree(mem);
    let mut hand = Vec::new();
    let mut kernel: Vec<PPage> = Vec::new();
    for node in &nodes {
        let own = node.partition;
        hand.extend(own.mappings(mem).filter(|&(v, _)| own.in_hand(mem, v)).map(|(_, m)| m.page));
        if node.parent.is_some() {
            kernel.extend(own.kernel_pairs(mem).iter().map(|pair| pair.1));
        }
    }
    assert_eq!(hand.len() + kernel.len(), sizes.free as usize);
    let used: BTreeSet<PPage> = hand.iter().chain(&kernel).copied().collect();
    assert!(used.into_iter().eq((sizes.first_flat().0..sizes.pages).map(PPage)));
    let closed: BTreeSet<PPage> = kernel.into_iter().collect();
    let mut seen = BTreeSet::new();
    for node in &nodes {
        for (_, m) in node.partition.mappings(mem) {
            assert!(!m.accessible || m.page >= sizes.first_flat() && !closed.contains(&m.page));
            assert!(seen.insert((node.parent.map(|parent| parent.0), m.page)), "siblings share {:?}", m.page);
        }
    }
}

#[test]
fn every_call_keeps_the_memory_sound() {
    let small = [(1, 16, 2000), (2, 20, 3000), (3, 73, 3000), (4, 140, 3000), (5, 256, 3000)];
    let large = [(1, 16, 1000), (2, 20, 1500), (3, 100, 1500)];
    for (edition, (seed, pages, count)) in small.map(|s| (SMALL, s)).into_iter().chain(large.map(|s| (LARGE, s))) {
        let mut mem = formatted_as(edition, pages);
        for line in make(edition, seed, count, pages) {
            let before = mem.clone();
            let answer = say(&mut mem, &line);
            assert_eq!(sound(&mem), Ok(()), "{line:?}");
            check_counts(&mem);
            let changes = answer.is_ok() && !matches!(line[0], 5 | 8 | 11);
            assert!(changes || mem == before, "{line:?}");
        }
    }
}

/// How often a page came back from a deleted child, by what it was: a kernel page of the child, one of a partition below it, both again where the caller
/// may not write them, a lent page with words that it may write, and one with words that it may not.
type Returned = [u32; 6];

/// What a deletePartition that passed left, given the memory before it: no page is returned twice; each is in the caller's hand, and wiped unless it was
/// no kernel page and the caller may not write it; but for the tables of the caller and its ancestors no other word changes.
fn check_returned(before: &[u32], child: u32, mem: &[u32], returned: &mut Returned) {
    let (caller, edition) = (Partition::current(before), Edition::of(before));
    let is_zero = |words: &[u32]| words.iter().all(|&word| word == 0);
    let own = |v: VPage| caller.mapping(before, v).unwrap();
    let kernel = Partition::at(before, own(VPage::of(edition, child)).page).kernel_pairs(before);
    let lent = caller.mappings(before).map(|(v, _)| v).filter(|&v| caller.shadow1(before, v) == child);
    let all: Vec<(VPage, bool)> = kernel.iter().map(|pair| (pair.0, true)).chain(lent.map(|v| (v, false))).collect();
    let pages: BTreeSet<PPage> = all.iter().map(|&(v, _)| own(v).page).collect();
    assert_eq!(pages.len(), all.len(), "a page is returned twice");
    for (v, of_child) in all {
        let (writable, was_kernel) = (own(v).rights & WRITE != 0, of_child || !own(v).accessible);
        let (old, new) = (words_of(before, own(v).page), words_of(mem, own(v).page));
        assert!(caller.in_hand(mem, v));
        assert!(if was_kernel || writable { is_zero(new) } else { new == old });
        let kinds = [of_child, was_kernel && !of_child, of_child && !writable, was_kernel && !of_child && !writable];
        let kinds = kinds.into_iter().chain([true, false].map(|kind| !was_kernel && !is_zero(old) && writable == kind));
        returned.iter_mut().zip(kinds).for_each(|(count, met)| *count += u32::from(met));
    }
    let nodes = tree(before);
    let place = nodes.iter().position(|node| node.partition == caller);
    let places = std::iter::successors(place, |&place| nodes[place].parent.map(|parent| parent.0));
    let tables = places.flat_map(|place| nodes[place].partition.list_pairs(before));
    let tables: BTreeSet<PPage> = tables.map(|pair| pair.1).collect();
    for page in (0..Sizes::of(mem).unwrap().pages).map(PPage) {
        let may_change = pages.contains(&page) || tables.contains(&page);
        assert!(may_change || words_of(mem, page) == words_of(before, page), "{page:?}");
    }
}

#[test]
fn what_a_deleted_child_leaves() {
    for edition in EDITIONS {
        let (mut returned, mut unwritable, mut random) = (Returned::default(), Returned::default(), Random::new(13));
        for (seed, pages, count) in [(1, 20, 1000), (2, 60, 5000), (3, 110, 5000)] {
            let mut mem = formatted_as(edition, pages);
            for line in make(edition, seed, count, pages) {
                let before = mem.clone();
                if say(&mut mem, &line).is_ok() && line[0] == 2 {
                    check_returned(&before, line[1], &mem, &mut returned);
                }
                // At times in memory that no calls make.
                if let Some((changes, child)) = unwritable_kernel_page(&mem, &mut random).filter(|_| line[0] == 9) {
                    let mut copy = mem.clone();
                    changes.into_iter().for_each(|(index, value)| copy[index] = value);
                    assert_eq!(sound(&copy), Ok(()));
                    let before = copy.clone();
                    pass(&mut copy, &[&[2, child]]);
                    check_returned(&before, child, &copy, &mut unwritable);
                    assert_eq!(sound(&copy), Ok(()));
                }
            }
        }
        assert!(returned[2..4] == [0, 0] && [0, 1, 4, 5].iter().all(|&kind| returned[kind] > 9), "{returned:?}");
        assert!(unwritable.iter().all(|&count| count > 9), "{unwritable:?}");
    }
}

#[test]
fn every_refusal_comes_up() {
    for (edition, pages, count) in [(SMALL, 256, 4000), (LARGE, 90, 4000)] {
        let mut cover = Cover::default();
        for seed in 1..=3 {
            let mut mem = vec![7; pages * edition.page_words()];
            for line in std::iter::once(vec![0, edition.number]).chain(make(edition, seed, count, pages)) {
                cover.count(line[0] as usize, say(&mut mem, &line));
            }
        }
        // What is left needs damaged memory or another length, or is the record's.
        let mut left = cover.missing(&[edition]);
        left.retain(|pair| !pair.ends_with(" no 1") && !pair.starts_with("record"));
        assert_eq!(left, ["format no 2"]);
        assert!(cover.passed() > cover.calls() * 3 / 4);
    }
}

#[test]
fn every_sentence_is_broken_alone() {
    for edition in EDITIONS {
        let (mut mem, mut random) = (formatted_as(edition, 90), Random::new(12));
        let (mut alone, mut deep) = (BTreeSet::new(), 0);
        for line in make(edition, 2, 3000, 90) {
            let answer = say(&mut mem, &line);
            if answer == Err(13) {
                // The same child all the same is one too deep, and nothing else is wrong.
                let mut copy = mem.clone();
                let five = [1, 2, 3, 4, 5].map(|k| VPage::of(edition, line[k]));
                found(&mut copy, &Partition::current(&mem), five);
                assert_eq!(broken(&copy), [5]);
                deep += 1;
            }
            for _ in 0..3 {
                let mut copy = mem.clone();
                wide_damage(&mem, &mut random).into_iter().for_each(|(index, value)| copy[index] = value);
                if let [sentence] = broken(&copy)[..] {
                    alone.insert(sentence);
                }
            }
        }
        assert!(alone.iter().copied().eq(numbers()) && deep > 0, "{edition:?}: {alone:?} {deep}");
    }
}

#[test]
fn any_sound_memory_stays_sound() {
    let mut random = Random::new(11);
    for (edition, seed, pages, count) in
        [(SMALL, 6, 20, 2000), (SMALL, 7, 73, 2000), (SMALL, 8, 256, 2000), (LARGE, 9, 20, 1000), (LARGE, 10, 81, 500)]
    {
        let lines = make(edition, seed, count, pages);
        let mut mem = formatted_as(edition, pages);
        for part in lines.chunks(100) {
            for _ in 0..20 {
                let mut copy = mem.clone();
                damage(&mem, &mut random).into_iter().for_each(|(index, value)| copy[index] = value);
                let good = sound(&copy).is_ok();
                for line in part.iter().filter(|line| good && line[0] != 0).take(20) {
                    let _ = say(&mut copy, line);
                    assert_eq!(sound(&copy), Ok(()), "{line:?}");
                }
            }
            for line in part {
                let _ = say(&mut mem, line);
            }
        }
    }
}

#[test]
fn the_same_seed_makes_the_same_calls() {
    assert_eq!(make(SMALL, 9, 500, 73), make(SMALL, 9, 500, 73));
    assert_ne!(make(SMALL, 9, 500, 73), make(SMALL, 10, 500, 73));
}
