//! Memories that did not come from calls: whether they are sound is told by the verdict, and by the answer of every call but format, which is 1 where they
//! are not.

use crate::any_numbers;
use crate::both::Both;
use crate::kinds::{self, Kind};
use second::blocks::calls::{format, CALLS};
use second::blocks::damage::{applied, damage, descriptors_exchanged, structures_exchanged};
use second::blocks::geometry::*;
use second::blocks::make::guide;
use second::blocks::memory::{word, CURRENT};
use second::blocks::sound::broken;
use second::random::Random;

/// Guided calls on a sound memory.
const CALLS_ON_SOUND: usize = 12;

/// Performs every call but format on a memory that is not sound, or some guided ones on a sound one; at times format follows.
fn judge(both: &mut Both, kind: Kind, mem: &[u32], random: &mut Random) -> Result<(), String> {
    let (mut proved, mut second) = (mem.to_vec(), mem.to_vec());
    let sentences = broken(mem);
    both.tally.judged(kind, &sentences);
    let mut result = both.verdict(mem);
    if sentences.is_empty() {
        guide(&mut second, random, CALLS_ON_SOUND, |line, said, after| {
            if result.is_ok() {
                result = both.follow(&mut proved, line, said, after, None);
            }
        });
    } else {
        let lines = (1..CALLS.len()).map(|number| likely_call(mem, number, random)).collect::<Vec<_>>();
        result = result.and_then(|()| lines.iter().try_for_each(|line| both.perform(&mut proved, &mut second, line)));
    }
    if random.once_in(8) {
        result = result.and_then(|()| both.perform(&mut proved, &mut second, &[0]));
    }
    result.map_err(|text| format!("{kind}, a memory that breaks {sentences:?}: {text}"))
}

/// A call with numbers that may well be good.
fn likely_call(mem: &[u32], number: usize, random: &mut Random) -> Vec<u32> {
    if random.once_in(8) {
        return any_numbers::call(number, random);
    }
    let mut line = vec![number as u32];
    line.extend((0..CALLS[number].1).map(|_| {
        let (block, address) = (8 + random.below(8) as u32, random.below(4 * mem.len() + 1) as u32);
        random.pick(&[0, 1, block, block, block, address]).unwrap_or(8)
    }));
    line
}

/// A few words of a sound memory changed, or its length. None where nothing is to be exchanged.
fn change(mem: &[u32], random: &mut Random) -> Option<(Kind, Vec<u32>)> {
    let some = random.pick(&[1, 31, words_of_kib(1)])?;
    let (kind, changes) = match random.below(40) {
        0 => return Some((kinds::LONGER, [mem, &vec![0; some]].concat())),
        1 => return Some((kinds::SHORTER, mem[..mem.len() - some].to_vec())),
        2 => (Some(kinds::STRUCTURES), structures_exchanged(mem, random)),
        3 => (Some(kinds::DESCRIPTORS), descriptors_exchanged(mem, random)),
        _ => (None, damage(mem, random)),
    };
    let copy = applied(mem, &changes);
    let words = copy.iter().zip(mem).filter(|(word, old)| word != old).count();
    (words > 0).then(|| (kind.unwrap_or(kinds::changed(words)), copy))
}

pub fn changed(both: &mut Both, mem: &[u32], random: &mut Random) -> Result<(), String> {
    let Some((kind, copy)) = change(mem, random) else { return Ok(()) };
    judge(both, kind, &copy, random).map_err(|text| {
        let words: Vec<_> = (0..copy.len()).filter(|&i| mem.get(i) != Some(&copy[i])).map(|i| (i, copy[i])).collect();
        format!("then of {} words these changed: {:?}\n{text}", copy.len(), &words[..words.len().min(96)])
    })
}

/// Random words, all the same word, and words like the kernel's behind a good header and table.
pub fn any_words(both: &mut Both, kib: usize, random: &mut Random) -> Result<(), String> {
    let length = words_of_kib(kib);
    let random_words: Vec<u32> = (0..length).map(|_| random.draw() as u32).collect();
    let mut like = random_words.clone();
    let _ = format(&mut like);
    let root = word(&like, CURRENT) as usize;
    let headed = [&like[..root], &random_words[root..]].concat();
    for word in &mut like[root..] {
        let (small, address) = (random.below(16) as u32, random.below(4 * length) as u32);
        if random.once_in(3) {
            *word = random.pick(&[0, small, small, address, address / 4]).unwrap_or(0);
        }
    }
    let filled = kinds::FILLED.map(|(kind, word)| (kind, vec![word; length]));
    [(kinds::RANDOM, random_words), (kinds::HEADED, headed), (kinds::LIKELY, like)]
        .into_iter()
        .chain(filled)
        .try_for_each(|(kind, mem)| judge(both, kind, &mem, random))
}

/// A length that isn't permitted, with any words or those of a good memory: every call, format, and every call again.
pub fn other_length(both: &mut Both, random: &mut Random) -> Result<(), String> {
    let few = [0, 1, 2, 3, 4, 7, 8, 9, 135, 136, 242, 256, 1024, 3840, 4095, random.below(words_of_kib(16))];
    let many = [4097, 4128, 4351, 8191, 8200, 16_383, 16_385, 16_640, 20_480, 65_536];
    let length = random.pick(&few).filter(|_| random.once_in(2)).or(random.pick(&many)).unwrap_or(0);
    let mut second: Vec<u32> = (0..length).map(|_| random.draw() as u32).collect();
    if random.once_in(2) {
        let mut good = vec![0; words_of_kib(16)];
        let _ = format(&mut good);
        second.iter_mut().zip(good).for_each(|(word, good)| *word = good);
        // The header names the length that there is.
        second.iter_mut().take(1).for_each(|word| *word = length as u32);
    }
    let mut proved = second.clone();
    both.tally.lengths += 1;
    let mut result = both.verdict(&second);
    let mut calls = || (1..CALLS.len()).map(|number| likely_call(&second, number, random)).collect::<Vec<_>>();
    let lines = [calls(), vec![vec![0]], calls()].concat();
    for line in lines {
        result = result.and_then(|()| both.perform(&mut proved, &mut second, &line));
    }
    result.map_err(|text| format!("memory of {length} words: {text}"))
}
