//! Document 02, L11: the pages that a partition is shown, the makers of pairs of memories, and the second program in both memories of a pair.

mod common;
use common::*;
use second::calls::perform;
use second::geometry::*;
use second::make::Work;
use second::memory::{set_word, Partition, CURRENT, HEADER, PARENT};
use second::neighbours::{alike, differences, first_difference, Around};
use second::pairs::{calls_within, grown, KINDS};
use second::random::Random;

/// A child of the pages 9 to 28, of which 17 to 28 are lent to it, and a child of that one of 17 to 25, which is current.
fn two_levels() -> Vec<u32> {
    let mut mem = formatted(40);
    down(&mut mem, 256, 20);
    down(&mut mem, LOFT, 9);
    mem
}

fn shown(mem: &[u32], descriptor: u32) -> Vec<usize> {
    let shown = Around::of(mem, PPage(descriptor)).unwrap().shown;
    (0..shown.len()).filter(|&page| shown[page]).collect()
}

#[test]
fn what_a_partition_is_shown() {
    let mem = two_levels();
    assert!(shown(&mem, 17).into_iter().eq(17..=25));
    assert!(shown(&mem, 9).into_iter().eq(9..=28));
    assert!(shown(&mem, 1).into_iter().eq(1..=39));
    let around = Around::current(&mem).unwrap();
    assert!(around.own().depth == 2 && around.is_current(&mem));
    assert!(around.ancestors().map(|node| node.partition.descriptor.0).eq([9, 1]));
    let (v, mapping) = around.own().mappings[0];
    assert_eq!((v.address(SMALL), mapping.page), (LOFT, PPage(25)));
    let lenders: Vec<_> = around.lenders(&mem, v).iter().map(|(v, m)| (v.address(SMALL), m.page, m.rights)).collect();
    assert_eq!(lenders, [(LOFT + 8 * 256, PPage(25), 3), (17 * 256, PPage(25), 7)]);
    let above = Around::of(&mem, PPage(9)).unwrap();
    assert!(above.is_current(&mem) && above.siblings().count() == 0 && above.others().count() == 1);
}

#[test]
fn every_premise_is_asked() {
    let (mem, mut random) = (two_levels(), Random::new(1));
    let failing = |other: &[u32]| alike(&mem, other).map(|_| ()).err();
    assert_eq!(failing(&mem), None);
    let changed = |page: u32, index: usize, value: u32| {
        let mut other = mem.clone();
        set_word(&mut other, PPage(page), index, value);
        other
    };
    assert_eq!(failing(&changed(17, PARENT, 256)), Some("both are sound"));
    assert_eq!(failing(&grown(LARGE, 40, 1, &mut random)), Some("the same edition"));
    assert_eq!(failing(&formatted(41)), Some("the same page count"));
    assert_eq!(failing(&changed(HEADER.0, CURRENT, 256)), Some("the same partition is current"));
    assert_eq!(failing(&changed(25, 5, 77)), Some("equal in every word that is shown"));
    // A word in the hand of the parent, or of the root, is not shown.
    assert_eq!(failing(&changed(26, 5, 77)), None);
    assert_eq!(failing(&changed(39, 5, 77)), None);
    // The same descriptor page, of a child of the root.
    let mut other = formatted(40);
    down(&mut other, 17 * 256 - 8 * 256, 9);
    assert_eq!(Partition::current(&other).descriptor, PPage(17));
    assert_eq!(failing(&other), Some("the same depth"));
}

#[test]
fn pairs_of_each_kind_and_depth() {
    for edition in EDITIONS {
        let (mut random, mut met) = (Random::new(3), [[0; MOST_DEPTH + 1]; KINDS.len()]);
        for turn in 0..32 {
            let depth = 1 + turn % MOST_DEPTH;
            let mem = grown(edition, 50 + 18 * depth, depth, &mut random);
            for kind in KINDS {
                let [one, other] = kind.pair(&mem, &mut random);
                let around = alike(&one, &other).unwrap_or_else(|premise| panic!("{kind:?}: {premise}"));
                let differs = differences(&one, &other, &around.shown, false).next().is_some();
                assert!(!differs || around.place != 0);
                met[kind as usize][around.own().depth] += u32::from(differs);
            }
        }
        assert!(met.iter().all(|depths| depths[0] == 0 && depths[1..].iter().all(|&pairs| pairs > 0)), "{met:?}");
    }
}

#[test]
fn both_runs_are_the_same_to_it() {
    for edition in EDITIONS {
        let (mut random, mut parted) = (Random::new(4), 0);
        for depth in 1..=MOST_DEPTH {
            let mem = grown(edition, 50 + 18 * depth, depth, &mut random);
            for kind in KINDS {
                let [mut one, mut other] = kind.pair(&mem, &mut random);
                let around = alike(&one, &other).unwrap();
                let own = around.own().partition.descriptor;
                let within = calls_within(&mut one.clone(), &mut random, &[Work::Talk, Work::Calls(60)]);
                for line in within.into_iter().chain([vec![15, 0, 2]]) {
                    let by_own = Partition::current(&one).descriptor == own;
                    let said = [&mut one, &mut other].map(|mem| perform(mem, line[0], &line[1..]).unwrap());
                    // The parent's slot page is not shown: one run may be refused while the other leaves B.
                    let answers = said.map(|said| said.answer);
                    if by_own && line == [15, 0, 2] && answers.contains(&Ok(0)) {
                        assert!(answers.iter().all(|answer| matches!(answer, Ok(0) | Err(20))));
                        parted += u32::from(answers[0] != answers[1]);
                        break;
                    }
                    assert_eq!(said[0], said[1], "{kind:?} {line:?}");
                    assert_eq!(first_difference(&one, &other, &around.shown, true), None, "{kind:?} {line:?}");
                    for mem in [&one, &other] {
                        let now = Around::of(mem, own).unwrap();
                        assert!(now.is_current(mem) && now.shown == around.shown, "{kind:?} {line:?}");
                    }
                }
            }
        }
        assert_eq!(parted > 0, edition == SMALL);
    }
}
