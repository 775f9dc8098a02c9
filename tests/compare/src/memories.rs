//! Memories that did not come from calls: whether they are sound is told by the verdict, and by a call's answer, which is
//! 1 where they are not.

use crate::both::{follow, perform, verdict};
use crate::records;
use crate::tally::Tally;
use second::calls::{format, found, ARGUMENTS};
use second::damage::{unwritable_kernel_page, wide_damage};
use second::geometry::*;
use second::make::guide;
use second::memory::Partition;
use second::random::Random;
use second::sound::broken;

/// Performs a call on a memory that is not sound, or some guided ones on a sound one; at times a record and format follow.
fn judge(mem: &[u32], random: &mut Random, tally: &mut Tally) -> Result<(), String> {
    let (mut proved, mut second) = (mem.to_vec(), mem.to_vec());
    let sentences = broken(mem);
    tally.of(mem).judged.count(&sentences);
    tally.flags.count(mem, &sentences);
    let mut result = verdict(mem, tally);
    if sentences.is_empty() {
        guide(&mut second, random, 12, |line, said, after| {
            if result.is_ok() {
                result = follow(&mut proved, line, said, after, None, tally);
            }
        });
    } else if result.is_ok() {
        let number = 1 + random.below(ARGUMENTS.len());
        result = perform(&mut proved, &mut second, &any_call(mem, number, random), tally);
    }
    if result.is_ok() && random.once_in(8) {
        let choice = random.below(3) as u32;
        result = records::compare(&mut proved, random, tally)
            .and_then(|()| perform(&mut proved, &mut second, &[10], tally))
            .and_then(|()| perform(&mut proved, &mut second, &[0, choice], tally));
    }
    result.map_err(|text| format!("memory that breaks {sentences:?}: {text}"))
}

/// Addresses that may well be good.
fn any_call(mem: &[u32], number: usize, random: &mut Random) -> Vec<u32> {
    let mut line = vec![number as u32];
    line.extend((0..ARGUMENTS[number - 1]).map(|_| Edition::of(mem).page_bytes() * random.below(300) as u32));
    line
}

/// A few words, or pages, of a sound memory changed; or its header to another edition's; or its length.
pub fn changed(mem: &[u32], random: &mut Random, tally: &mut Tally) -> Result<(), String> {
    let mut copy = mem.to_vec();
    let words = Edition::of(mem).page_words();
    let pages = mem.len() / words;
    let (one, other) = (words * random.below(pages), words * random.below(pages));
    match random.below(40) {
        0 => copy.copy_within(one..one + words, other),
        1 => (0..words).for_each(|i| copy.swap(one + i, other + i)),
        2 => copy.resize(mem.len() + random.pick(&[1, words]).unwrap_or(1), 0),
        3 => copy.truncate(mem.len() - random.pick(&[1, words]).unwrap_or(1)),
        4 => other_header(&mut copy, random),
        _ => wide_damage(mem, random).into_iter().for_each(|(index, value)| copy[index] = value),
    }
    if Edition::named(&copy).is_some_and(|edition| edition != Edition::of(mem)) {
        tally.of(&copy).from_the_other += 1;
    }
    judge(&copy, random, tally).map_err(|text| {
        let words: Vec<_> = (0..copy.len()).filter(|&i| mem.get(i) != Some(&copy[i])).map(|i| (i, copy[i])).collect();
        format!("then of {} words these changed: {:?}\n{text}", copy.len(), &words[..words.len().min(64)])
    })
}

/// The header, or the first pages, that the other edition's format writes, where it has the length; else its number alone.
fn other_header(mem: &mut [u32], random: &mut Random) {
    let other = EDITIONS[1 - Edition::of(mem).number as usize];
    let mut fresh = vec![0; mem.len()];
    let words = random.pick(&[EDITION + 1, other.page_words(), 6 * other.page_words()]).unwrap_or(0);
    match format(&mut fresh, other.number) {
        Ok(_) => mem[..words].copy_from_slice(&fresh[..words]),
        Err(_) => mem[EDITION] = other.number,
    }
}

/// The partition that was refused with 13, created all the same.
pub fn one_too_deep(mem: &[u32], line: &[u32], random: &mut Random, tally: &mut Tally) -> Result<(), String> {
    let mut copy = mem.to_vec();
    let five = [1, 2, 3, 4, 5].map(|k| VPage::of(Edition::of(mem), line[k]));
    found(&mut copy, &Partition::current(mem), five);
    judge(&copy, random, tally).map_err(|text| format!("created all the same: {text}"))
}

/// A kernel page that the root alone may write, which no calls make: what the child has of empty tables is collected, and the child deleted.
pub fn unwritable(mem: &[u32], random: &mut Random, tally: &mut Tally) -> Result<(), String> {
    let Some((changes, child)) = unwritable_kernel_page(mem, random) else { return Ok(()) };
    let (mut second, edition) = (mem.to_vec(), Edition::of(mem));
    changes.into_iter().for_each(|(index, value)| second[index] = value);
    tally.of(&second).judged.count(&broken(&second));
    let mut result = verdict(&second, tally);
    let caller = Partition::current(&second);
    let own = caller.mapping(&second, VPage::of(edition, child)).map(|m| Partition::at(&second, m.page));
    let indices = (0..edition.page_words()).filter(|&index| own.is_some_and(|own| own.has_three(&second, index)));
    let targets = indices.map(|index| VPage::at(edition, index, 1).address(edition));
    let lines: Vec<_> = targets.map(|target| vec![7, child, target]).chain([vec![2, child]]).collect();
    let mut proved = second.clone();
    for line in lines {
        result = result.and_then(|()| perform(&mut proved, &mut second, &line, tally));
    }
    result.map_err(|text| format!("then write taken from a kernel page: {text}"))
}

/// Random words, all the same word, and words like the kernel's behind a good header, some 40 in a page. With large pages not each of them every time.
pub fn any_words(edition: Edition, pages: usize, random: &mut Random, tally: &mut Tally) -> Result<(), String> {
    let length = pages * edition.page_words();
    let mut like = vec![0; length];
    let _ = format(&mut like, edition.number);
    for word in &mut like[EDITION + 1..] {
        let address = edition.page_bytes() * random.below(pages + 2) as u32;
        if random.once_in(edition.page_words() / 64) && !random.once_in(3) {
            *word = random.pick(&[0, 0, 1, address, address + 1, address + 29, address + 31]).unwrap_or(0);
        }
    }
    let random_words: Vec<u32> = (0..length).map(|_| random.draw() as u32).collect();
    let mut named = random_words.clone();
    named[EDITION] = edition.number;
    let memories = [random_words, named, like].into_iter().chain([0, 1, u32::MAX].map(|word| vec![word; length]));
    memories.into_iter().try_for_each(|mem| match edition {
        LARGE if !random.once_in(4) => Ok(()),
        _ => judge(&mem, random, tally),
    })
}

/// A length that no edition has, or one alone.
pub fn other_length(random: &mut Random, tally: &mut Tally) -> Result<(), String> {
    let none = [0, 1, 5, 6, 63, 64, 960, 1023, 1025, 1087, 4700, 16383, 16385, 16447, 16448, 17407, random.below(1024)];
    let one = [1024, 15360, 17408, 20480];
    let length = random.pick(&none).filter(|_| !random.once_in(4)).or(random.pick(&one)).unwrap_or(0);
    let mut words: Vec<u32> = (0..length).map(|_| random.draw() as u32).collect();
    if let Some(word) = words.get_mut(EDITION) {
        *word = random.below(3) as u32;
    }
    each_call(words, random, tally)
}

/// Every call, format with each edition and with none, and every call again.
pub fn each_call(mut words: Vec<u32>, random: &mut Random, tally: &mut Tally) -> Result<(), String> {
    let mut proved = words.clone();
    let mut result = verdict(&words, tally);
    let formats = [2 + random.below(9) as u32, 0, 1].map(|choice| vec![0, choice]);
    let mut calls = || -> Vec<_> { (1..=ARGUMENTS.len()).map(|number| any_call(&words, number, random)).collect() };
    let lines = [calls(), formats.to_vec(), calls()].concat();
    for line in lines {
        result = result.and_then(|()| perform(&mut proved, &mut words, &line, tally));
    }
    result.map_err(|text| format!("memory of {} words: {text}", words.len()))
}
