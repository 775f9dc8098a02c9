//! The ordinary version and the proved kernel do what the independent program of tests/second does: on guided random calls, and on damaged memories.

use bench::builder::WAYS;
use bench::call::{Answer, Call, Words, DONE, NAMES};
use bench::kernel::{KernelCall, Tree};
use bench::library;
use bench::scenario::{down_to, lent_pages, LENT, MOST_DEPTH};
use second::calls::{call, perform, Said, ARGUMENTS};
use second::damage::wide_damage;
use second::geometry::{Edition, EDITION, EDITIONS, LARGE, SMALL, WRITE};
use second::make::make;
use second::memory::Mapping;
use second::random::Random;
use second::sound::sound;

/// An edition and a number of pages, and by what the number of calls is divided: more words take longer to compare.
const SIZES: [(Edition, usize, usize); 11] = [
    (SMALL, 16, 1),
    (SMALL, 20, 1),
    (SMALL, 33, 1),
    (SMALL, 72, 1),
    (SMALL, 73, 1),
    (SMALL, 120, 1),
    (SMALL, 200, 1),
    (SMALL, 256, 1),
    (LARGE, 16, 2),
    (LARGE, 33, 6),
    (LARGE, 73, 20),
];

/// How a page comes back that was lent to a child that is deleted, by the caller's mapping: a kernel page, one wiped since the caller has write, and one kept.
fn kind(own: &Mapping) -> usize {
    match (own.accessible, own.rights & WRITE) {
        (false, _) => 0,
        (true, WRITE) => 1,
        _ => 2,
    }
}

/// What the independent program says: a resume has eleven words besides, zeros where it is refused.
fn answer_of(Said { answer, context }: Said) -> Answer {
    match context {
        None => answer.map(Words::One),
        Some(words) => {
            assert!(answer == Ok(0) || answer.is_err() && words.iter().all(|&word| word == 0), "{answer:?} {words:?}");
            answer.map(|_| Words::Eleven(words))
        }
    }
}

/// What guided calls met: how many lent pages of each kind came back, and how many calls of each number passed.
#[derive(Default)]
struct Met {
    returned: [usize; 3],
    passed: [usize; NAMES.len()],
}

/// Guided random calls on all three, with every word compared after each; then what the caller does with the memory.
fn all(edition: Edition, seed: u32, calls: usize, pages: usize, mut then: impl FnMut(&[u32])) -> Met {
    let mut met = Met::default();
    let mut ordinary = vec![0; edition.page_words() * pages];
    let (mut proved, mut other) = (ordinary.clone(), ordinary.clone());
    for line in std::iter::once(vec![0, edition.number]).chain(make(edition, seed, calls, pages)) {
        let made = Call::new(line[0], &line[1..]);
        let lent = if made.number == 2 { lent_pages(&ordinary, line[1]) } else { Vec::new() };
        let answer = made.ordinary(&mut ordinary);
        assert_eq!(answer, made.proved(&mut proved), "{line:?}");
        assert_eq!(Some(answer), perform(&mut other, line[0], &line[1..]).map(answer_of), "{line:?}");
        assert!(ordinary == proved, "{line:?}");
        assert!(ordinary == other, "{line:?}");
        then(&ordinary);
        if answer.is_ok() {
            met.passed[made.number as usize] += 1;
            lent.iter().for_each(|own| met.returned[kind(own)] += 1);
        }
    }
    met
}

#[test]
fn calls() {
    let (mut returned, mut passed) = ([0; 3], [0; NAMES.len()]);
    for ((edition, pages, fewer), seed) in SIZES.into_iter().zip(1..) {
        let met = all(edition, seed, 6000 / fewer, pages, |_| ());
        returned.iter_mut().zip(met.returned).for_each(|(sum, count)| *sum += count);
        passed.iter_mut().zip(met.passed).for_each(|(sum, count)| *sum += count);
    }
    assert!(returned.iter().all(|&count| count > 50), "{returned:?}");
    // Format is made once for each size, and few contexts stand ready to be resumed.
    assert!(passed[1..15].iter().all(|&count| count > 50) && passed[15] > 10, "{passed:?}");
}

/// Every way of notify, dispatch and resume.
#[test]
fn contexts() {
    for (level, pages) in [(1, 32), (2, 96), (MOST_DEPTH, 96)] {
        let scenario = down_to(level, SMALL, pages);
        assert_eq!(scenario.ways.len(), WAYS.len());
        for (step, way) in scenario.ways.iter().zip(WAYS) {
            let before = step.memory(&scenario.whole);
            let [mut ordinary, mut proved, mut other] = [(); 3].map(|()| before.clone());
            let arguments = &step.call.arguments[..ARGUMENTS[step.call.number as usize - 1]];
            let answer = step.call.ordinary(&mut ordinary);
            assert!(answer.is_ok(), "{way}: {answer:?}");
            assert_eq!(answer, step.call.proved(&mut proved), "{way}");
            assert_eq!(Some(answer), perform(&mut other, step.call.number, arguments).map(answer_of), "{way}");
            assert!(ordinary == proved && ordinary == other, "{way}");
        }
    }
}

/// The end of a child to which many pages were lent.
#[test]
fn many_lent_pages() {
    for scenario in EDITIONS.into_iter().flat_map(|edition| LENT.map(|recipe| recipe(edition, 256))) {
        let step = scenario.passing(2).expect("a child that is ended");
        let before = step.memory(&scenario.whole);
        let [mut ordinary, mut proved, mut other] = [(); 3].map(|()| before.clone());
        assert_eq!(step.call.ordinary(&mut ordinary), DONE, "{}", scenario.title());
        assert_eq!(step.call.proved(&mut proved), DONE, "{}", scenario.title());
        assert_eq!(call(&mut other, 2, &step.call.arguments[..1]), Some(Ok(0)), "{}", scenario.title());
        assert!(ordinary == proved, "{}", scenario.title());
        assert!(ordinary == other, "{}", scenario.title());
    }
}

#[test]
fn verdicts_on_damaged_memories() {
    let mut random = Random::new(5);
    let mut counts = [[0; 2]; 2];
    for ((edition, pages, fewer), seed) in SIZES.into_iter().zip(100..) {
        let mut turn = 0;
        all(edition, seed, 3000 / fewer, pages, |memory| {
            turn += 1;
            for _ in 0..if turn % 8 == 0 { 12 } else { 1 } {
                let mut changed = memory.to_vec();
                for (index, word) in wide_damage(memory, &mut random) {
                    changed[index] = word;
                }
                let expected = sound(&changed).is_ok();
                counts[edition.number as usize][usize::from(expected)] += 1;
                let answer = if expected { Call::JUDGED_SOUND } else { Err(1) };
                assert_eq!(Call::JUDGE.ordinary(&mut changed), answer);
                assert_eq!(Call::JUDGE.proved(&mut changed), answer);
            }
        });
    }
    let [small, large] = counts;
    assert!(small[0] > 5000 && small[1] > 500 && large[0] > 500 && large[1] > 50, "{counts:?}");
}

/// What is refused for its length, or for an edition that there is not: format with 2, all else with 1. No word changes.
#[test]
fn lengths_and_editions_that_are_not_permitted() {
    for edition in EDITIONS {
        let page = edition.page_words();
        let lengths = [0, 1, EDITION, EDITION + 1, page * 15, page * 16 - 1, page * 16 + 1, page * (4 * page + 1)];
        for length in lengths {
            refused(edition.number, vec![7; length]);
            let mut named = vec![7; length];
            named.iter_mut().skip(EDITION).take(1).for_each(|word| *word = edition.number);
            refused(edition.number, named);
        }
    }
    for edition in [2, 3, 1 << 31, u32::MAX] {
        for length in [64 * 16, 64 * 256, 1024 * 4096] {
            let mut named = vec![0; length];
            named[EDITION] = edition;
            refused(edition, named);
        }
    }
}

fn refused(edition: u32, memory: Vec<u32>) {
    let mut words = memory.clone();
    for number in 0..NAMES.len() {
        let arguments = vec![edition; if number == 0 { 1 } else { ARGUMENTS[number - 1] }];
        let (call, refusal) = (Call::new(number as u32, &arguments), if number == 0 { 2 } else { 1 });
        assert_eq!(call.ordinary(&mut words), Err(refusal));
        assert_eq!(library::call(&call, &mut words).0, Err(refusal));
    }
    assert!(words == memory);
}
