//! The block kernel: the ordinary version and the proved kernel do what the independent program of tests/second does, on guided random calls and on damaged
//! memories; and a version that does not is found.

use bench::blocks::call::{Answer, Call, Words, FIND, NAMES};
use bench::blocks::library;
use bench::blocks::scenario::BELOW;
use bench::kernel::{self, KernelCall, Tree};
use second::blocks::calls::{perform, Said, CALLS};
use second::blocks::damage::{applied, damage};
use second::blocks::geometry::{words_of_kib, HEADER_WORDS};
use second::blocks::make::make;
use second::blocks::memory::partitions;
use second::blocks::sound::sound;
use second::random::Random;

type Version = kernel::Version<Call>;

const KIB: [usize; 6] = [16, 17, 24, 40, 63, 64];

/// What the independent program says: six words where a block is told, zeros for none and beside a refusal.
fn answer_of(Said { answer, told }: Said) -> Answer {
    match (answer, told) {
        (Ok(word), None) => Ok(Words::One(word)),
        (Ok(1), Some(block)) => Ok(Words::Told(Some(block))),
        (Ok(0), Some([0, 0, 0, 0, 0, 0])) => Ok(Words::Told(None)),
        (Err(refusal), None | Some([0, 0, 0, 0, 0, 0])) => Err(refusal),
        _ => panic!("{answer:?} {told:?}"),
    }
}

/// Guided random calls in a version and in the independent program, every word compared after each; then what the caller does with the memory. How many
/// calls of each number passed, or the first in which they differ.
fn guided(
    version: Version,
    kib: usize,
    seed: u32,
    calls: usize,
    mut then: impl FnMut(&[u32]),
) -> Result<[usize; NAMES.len()], Vec<u32>> {
    let mut passed = [0; NAMES.len()];
    let mut words = vec![0; words_of_kib(kib)];
    let mut other = words.clone();
    for line in std::iter::once(vec![0]).chain(make(seed, calls, kib)) {
        let call = Call::new(line[0], &line[1..]);
        let answer = version(&call, &mut words);
        let expected = perform(&mut other, line[0], &line[1..]).map(answer_of);
        if Some(answer) != expected || words != other {
            return Err(line);
        }
        then(&words);
        passed[call.number as usize] += usize::from(answer.is_ok());
    }
    Ok(passed)
}

#[test]
fn calls() {
    for version in [Call::ordinary, Call::proved] {
        let mut passed = [0; NAMES.len()];
        for (kib, seed) in KIB.into_iter().zip(1..) {
            let of_kib = guided(version, kib, seed, 5000, |_| ()).unwrap_or_else(|line| panic!("{kib} KiB: {line:?}"));
            passed.iter_mut().zip(of_kib).for_each(|(sum, count)| *sum += count);
        }
        assert!(passed[1..].iter().all(|&count| count > 50), "{passed:?}");
    }
}

/// Damages of the memories that guided calls lead to: how many were not sound and how many were, or the first judged otherwise.
fn damages(version: Version) -> Result<[usize; 2], Vec<u32>> {
    let (mut random, mut counts, mut wrong) = (Random::new(5), [0; 2], None);
    for (kib, seed) in KIB.into_iter().zip(100..) {
        let judge = |memory: &[u32]| {
            let mut changed = applied(memory, &damage(memory, &mut random));
            let is_sound = sound(&changed);
            counts[usize::from(is_sound)] += 1;
            let answer = if is_sound { Call::JUDGED_SOUND } else { Err(1) };
            if version(&Call::JUDGE, &mut changed) != answer {
                wrong = Some(changed);
            }
        };
        guided(Call::ordinary, kib, seed, 2500, judge).unwrap_or_else(|line| panic!("{kib} KiB: {line:?}"));
    }
    wrong.map_or(Ok(counts), Err)
}

#[test]
fn verdicts_on_damaged_memories() {
    for version in [Call::ordinary, Call::proved] {
        let counts = damages(version).expect("the same verdicts");
        assert!(counts[0] > 5000 && counts[1] > 500, "{counts:?}");
    }
}

/// The end of a child that has much below it.
#[test]
fn much_below() {
    for scenario in BELOW.iter().flat_map(|recipe| [16, 40, 64].map(recipe)) {
        let step = scenario.passing(2).expect("a child that is ended");
        let mut other = step.memory(&scenario.whole);
        let expected = perform(&mut other, 2, &step.call.arguments[..1]).map(answer_of);
        for version in [Call::ordinary, Call::proved] {
            let mut words = step.memory(&scenario.whole);
            assert_eq!(Some(version(&step.call, &mut words)), expected, "{}", scenario.title());
            assert!(words == other, "{}", scenario.title());
        }
    }
}

/// What is refused for its length: format with 13, all else with 1. No word changes.
#[test]
fn lengths_that_are_not_permitted() {
    for length in [0, 1, 8, 256, 3840, 4095, 4097, 4224, 16383, 16385, 16640] {
        let mut words = vec![7; length];
        for (number, (_, arguments)) in (0..).zip(CALLS) {
            let (call, refusal) = (Call::new(number, &vec![0; arguments]), if number == 0 { 13 } else { 1 });
            assert_eq!(call.ordinary(&mut words), Err(refusal), "{length} words: {call:?}");
            assert_eq!(library::call(&call, &mut words).0, Err(refusal), "{length} words: {call:?}");
        }
        assert!(words.iter().all(|&word| word == 7));
    }
}

/// Delete leaves the descendants of the child in the table.
fn leaves_descendants(call: &Call, words: &mut [u32]) -> Answer {
    let (table, before) = (HEADER_WORDS..HEADER_WORDS + words.len() / 32, words.to_vec());
    let answer = call.ordinary(words);
    if call.number == 2 && answer.is_ok() {
        words[table.clone()].copy_from_slice(&before[table]);
    }
    answer
}

/// Find tells no child.
fn tells_no_child(call: &Call, words: &mut [u32]) -> Answer {
    match call.ordinary(words) {
        Ok(Words::Told(Some([number, start, end, rights, usage, _]))) if call.number == FIND => {
            Ok(Words::Told(Some([number, start, end, rights, usage, 0])))
        }
        answer => answer,
    }
}

/// A cut changes a byte of the block.
fn changes_a_byte(call: &Call, words: &mut [u32]) -> Answer {
    let answer = call.ordinary(words);
    if call.number == 7 && answer.is_ok() {
        words[words.len() - 1] ^= 1;
    }
    answer
}

/// The judge does not look at the last descriptor's word 7.
fn looks_at_less(call: &Call, words: &mut [u32]) -> Answer {
    if let Some(last) = partitions(words).last() {
        if let Some(word) = words.get_mut(last.at + 7) {
            *word = 0;
        }
    }
    call.ordinary(words)
}

#[test]
fn wrong_versions_are_found() {
    for (version, number) in [(leaves_descendants as Version, 2), (tells_no_child, FIND), (changes_a_byte, 7)] {
        let found = guided(version, 24, 3, 5000, |_| ()).expect_err("a version that is wrong");
        assert_eq!(found[0], number);
    }
    assert!(damages(looks_at_less).is_err());
}
