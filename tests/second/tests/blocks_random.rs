//! Random calls of blocks: what holds after each of them, and which answers and ways come up.

use second::blocks::bytes::{check, facts};
use second::blocks::calls::{format, perform, Answer};
use second::blocks::cover::Cover;
use second::blocks::damage::{applied, damage};
use second::blocks::geometry::*;
use second::blocks::make::make;
use second::blocks::memory::*;
use second::blocks::sound::{broken, sound};
use second::random::Random;
use std::collections::BTreeSet;

fn formatted(kib: usize) -> Vec<u32> {
    let mut mem = vec![7; words_of_kib(kib)];
    assert_eq!(format(&mut mem), Ok(0));
    mem
}

fn say(mem: &mut [u32], line: &[u32]) -> Answer {
    perform(mem, line[0], &line[1..]).expect("a known call").answer
}

/// Seed, KiB and calls.
const SEQUENCES: [(u32, usize, usize); 6] =
    [(1, 16, 6000), (2, 16, 6000), (3, 17, 6000), (4, 64, 3000), (5, 64, 3000), (6, 33, 3000)];

#[test]
fn the_facts_hold_after_each_call() {
    for (seed, kib, count) in SEQUENCES {
        let mut mem = formatted(kib);
        for line in make(seed, count, kib) {
            let before = mem.clone();
            let answer = say(&mut mem, &line);
            check(&before, line[0], answer, &mem).unwrap_or_else(|fact| panic!("{seed}, {line:?}: {fact}"));
        }
    }
}

#[test]
fn every_answer_and_every_way_come_up() {
    let mut cover = Cover::default();
    for (seed, kib, count) in SEQUENCES.into_iter().chain([(7, 15, 300), (8, 65, 300)]) {
        let mut mem = vec![7; words_of_kib(kib)];
        let refused = format(&mut mem).is_err();
        for line in make(seed, count, kib).into_iter().chain(refused.then_some(vec![0])) {
            let before = mem.clone();
            let answer = say(&mut mem, &line);
            cover.count(&before, &line, answer);
        }
    }
    assert_eq!(cover.missing(), Vec::<String>::new(), "{cover}");
    assert_eq!(cover.impossible(), Vec::<String>::new());
    assert!(cover.passed() > cover.calls() / 2, "{} of {}", cover.passed(), cover.calls());
}

/// The partitions below a child as the paper has them: those whose descriptors stand in blocks that are lent to it.
fn below_by_bytes(mem: &[u32], parent: &Partition, child: &Partition) -> BTreeSet<usize> {
    let lent: Vec<_> = parent.blocks().filter(|block| block.lent_to(child.number)).collect();
    let stands_in = |at: usize, block: &Slot| {
        let words = (at..at + DESCRIPTOR_WORDS).flat_map(|index| 4 * index as u32..4 * index as u32 + 4);
        words.into_iter().all(|byte| block.has_byte(byte))
    };
    let all = partitions(mem).into_iter().map(|one| one.at);
    all.filter(|&at| lent.iter().any(|block| stands_in(at, block))).collect()
}

#[test]
fn those_below_a_child_by_parents_and_by_bytes() {
    let (mut compared, mut most) = (0, 0);
    for (seed, kib, count) in SEQUENCES {
        let mut mem = formatted(kib);
        for line in make(seed, count / 2, kib) {
            let _ = say(&mut mem, &line);
            if !matches!(line[0], 1 | 2 | 5) {
                continue;
            }
            let all = partitions(&mem);
            for child in all.iter().filter(|one| one.level > 0) {
                let parent = all.iter().find(|one| one.at == child.parent).unwrap();
                let by_parents: BTreeSet<usize> = family(&mem, child.at)[1..].iter().map(|one| one.at).collect();
                most = most.max(by_parents.len());
                assert_eq!(by_parents, below_by_bytes(&mem, parent, child));
                compared += 1;
            }
        }
    }
    assert!(compared > 1000 && most > 9, "{compared} {most}");
}

#[test]
fn words_and_answers_follow_from_length_and_arguments() {
    for (seed, kib, count) in [(9, 16, 1500), (10, 40, 1000)] {
        let mut random = Random::new(seed);
        let mut one: Vec<u32> = (0..words_of_kib(kib)).map(|_| random.draw() as u32).collect();
        let mut other = vec![u32::MAX; words_of_kib(kib)];
        for line in std::iter::once(vec![0]).chain(make(seed, count, kib)) {
            assert_eq!(perform(&mut one, line[0], &line[1..]), perform(&mut other, line[0], &line[1..]));
            assert_eq!(one, other, "{line:?}");
        }
    }
}

/// What the calls search for is what the numbers name.
#[test]
fn links_lead_where_searches_do() {
    for (seed, kib, count) in [(11, 16, 3000), (12, 50, 2000)] {
        let mut mem = formatted(kib);
        for line in make(seed, count, kib) {
            let _ = say(&mut mem, &line);
            let all = partitions(&mem);
            for one in &all {
                for block in one.blocks() {
                    let next = one.blocks().find(|other| other.previous == block.number);
                    assert_eq!(next.map_or(0, |next| next.number), block.next);
                    if block.usage == LENT {
                        let child = all.iter().find(|child| child.parent == one.at && child.number == block.child);
                        let mut pieces = child.unwrap().blocks().filter(|piece| piece.source == block.number);
                        assert_eq!(pieces.find(|piece| piece.previous == 0).unwrap().number, block.link);
                    }
                }
                for structure in one.structures.iter().filter(|structure| structure.block != 0) {
                    let stands_in = |block: &Slot| block.usage == HAS_STRUCTURE && block.place() == structure.at;
                    let mut pools = all.iter().filter(|pool| pool.blocks().any(stands_in));
                    let pool = pools.next().unwrap();
                    assert_eq!(pool.at, if structure.own == 1 { one.at } else { one.parent });
                    assert!(stands_in(&pool.slot(structure.block)) && pools.next().is_none());
                }
            }
        }
    }
}

/// Soundness is enough: what no call made, but is sound, has the facts too and keeps them.
#[test]
fn any_sound_memory_stays_sound() {
    let (mut random, mut tried) = (Random::new(13), 0);
    for (seed, kib, count) in [(14, 16, 3000), (15, 17, 2000), (16, 64, 800)] {
        let mut mem = formatted(kib);
        for part in make(seed, count, kib).chunks(50) {
            for _ in 0..60 {
                let changes = damage(&mem, &mut random);
                let mut copy = applied(&mem, &changes);
                if copy == mem || !sound(&copy) {
                    continue;
                }
                tried += 1;
                facts(&copy).unwrap_or_else(|fact| panic!("{changes:?}: {fact}"));
                for line in part.iter().filter(|line| line[0] != 0).take(20) {
                    let before = copy.clone();
                    let answer = say(&mut copy, line);
                    check(&before, line[0], answer, &copy).unwrap_or_else(|fact| panic!("{line:?}: {fact}"));
                }
            }
            for line in part {
                let _ = say(&mut mem, line);
            }
        }
    }
    assert!(tried > 300, "{tried}");
}

#[test]
fn every_sentence_is_broken_alone() {
    let (mut alone, mut random) = ([0; 10], Random::new(17));
    for (seed, kib, count) in [(18, 16, 4000), (19, 20, 3000), (20, 64, 500)] {
        let mut mem = formatted(kib);
        for line in make(seed, count, kib) {
            let _ = say(&mut mem, &line);
            for _ in 0..3 {
                let mut copy = applied(&mem, &damage(&mem, &mut random));
                let sentences = broken(&copy);
                assert_eq!(sentences.is_empty(), sound(&copy));
                if let [sentence] = sentences[..] {
                    alone[sentence as usize] += 1;
                }
                if !sentences.is_empty() && line[0] != 0 {
                    let before = copy.clone();
                    assert_eq!(say(&mut copy, &line), Err(1));
                    assert_eq!(copy, before);
                }
            }
        }
    }
    assert!(alone[1..].iter().all(|&count| count > 20), "{alone:?}");
}

#[test]
fn the_same_seed_makes_the_same_calls() {
    assert_eq!(make(9, 500, 16), make(9, 500, 16));
    assert_ne!(make(9, 500, 16), make(10, 500, 16));
    assert!(make(9, 500, 3).len() == 500 && make(9, 0, 16).is_empty());
}
