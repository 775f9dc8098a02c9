//! A round: one guided sequence from format, with changed memories and start-up records in between, replay scripts, and pairs of memories.

use crate::both::{follow, perform};
use crate::tally::Tally;
use crate::{memories, pairs, proved, records, scripts};
use second::calls::Answer;
use second::geometry::*;
use second::make::{guide, guide_but, Work};
use second::random::Random;
use second::refusal::DEPTH;

/// Guided calls of a round's sequence.
pub const CALLS: usize = 2000;

/// Words of 256 small pages, and of 16 large ones: here format may choose either edition.
const BOTH: usize = 16_384;

/// Counts of large pages that have to occur: the least ones, and in short sequences those where T changes and the most.
pub const FEW: [usize; 2] = [16, 17];
pub const MANY: [usize; 7] = [1_032, 1_033, 2_059, 2_060, 3_086, 3_087, 4_096];

/// Works of notify, dispatch and resume in a round of small pages, and the least pages that they are done in.
const TALKS: usize = 16;
const CONTEXT_PAGES: usize = 60;

/// All of a round follows from its seed; seeds in a row have either edition in turn. With a flip one bit of the proved
/// kernel's memory is changed after the call of that index.
pub fn round(seed: u32, flip: Option<usize>, tally: &mut Tally) -> Result<(), String> {
    let (edition, turn) = (EDITIONS[seed as usize % 2], seed as usize / 2);
    let small = small_pages(turn);
    let pages = if edition == SMALL { small } else { large_pages(turn) };
    let mut random = Random::new(seed);
    let mut done = memories::other_length(&mut random, tally)
        .and_then(|()| memories::any_words(edition, pages, &mut random, tally))
        .and_then(|()| sequence(edition, pages, Random::new(!seed), flip, &mut random, tally))
        .and_then(|()| scripts::compare(small, &mut random, tally));
    if edition == SMALL {
        done = done.and_then(|()| contexts(pages.max(CONTEXT_PAGES), &mut random, tally));
    }
    if edition == LARGE && turn.is_multiple_of(5) {
        done = done.and_then(|()| many_pages(MANY[turn / 5 % MANY.len()], &mut random, tally));
    }
    done = done.and_then(|()| pairs::compare(edition, turn, [proved::call, pairs::second_program], &mut random, tally));
    done.map_err(|text| format!("seed {seed}, edition {}, {pages} pages, {text}", edition.number))
}

/// Goes through all page counts.
fn small_pages(turn: usize) -> usize {
    LEAST_PAGES + turn * 89 % (SMALL.most_pages() - LEAST_PAGES + 1)
}

/// Mostly few: the least number, some more for ten threes, and as many as eight levels take.
fn large_pages(turn: usize) -> usize {
    let more = turn / 4;
    match turn % 4 {
        0 => LEAST_PAGES,
        1 => LEAST_PAGES + 1 + more % 32,
        2 => 49 + more % 32,
        _ => 81 + more % 32,
    }
}

/// Guided calls from format. Where the length is that of both editions, format chooses anew from time to time.
fn sequence(
    mut edition: Edition,
    pages: usize,
    mut guiding: Random,
    flip: Option<usize>,
    random: &mut Random,
    tally: &mut Tally,
) -> Result<(), String> {
    let mut second: Vec<u32> = (0..pages * edition.page_words()).map(|_| random.draw() as u32).collect();
    let mut proved = second.clone();
    let both = second.len() == BOTH;
    let (mut index, mut result) = (0, Ok(()));
    while index < CALLS && result.is_ok() {
        perform(&mut proved, &mut second, &[0, edition.number], tally)?;
        let count = if both { 50 + guiding.below(300) } else { CALLS };
        guide(&mut second, &mut guiding, count.min(CALLS - index), |line, said, after| {
            if result.is_err() {
                return;
            }
            let flip = (flip == Some(index)).then(|| (random.below(proved.len()), random.below(32)));
            result = follow(&mut proved, line, said, after, flip, tally)
                .and_then(|()| between(&mut proved, line, said.answer, after, random, tally))
                .map_err(|text| format!("call {index}: {text}"));
            index += 1;
        });
        if edition == LARGE {
            tally.sequence(pages_of(&second));
        }
        edition = EDITIONS[guiding.below(2)];
    }
    result
}

/// Notify, dispatch and resume between partitions that have slot pages, and lose and get them.
fn contexts(pages: usize, random: &mut Random, tally: &mut Tally) -> Result<(), String> {
    let mut second: Vec<u32> = (0..pages * SMALL.page_words()).map(|_| random.draw() as u32).collect();
    let mut proved = second.clone();
    let mut result = perform(&mut proved, &mut second, &[0, SMALL.number], tally);
    for work in std::iter::once(Work::Dig).chain([Work::Talk; TALKS]) {
        guide_but(&mut second, random, work, &|_, _| false, |line, said, after| {
            if result.is_ok() {
                result = follow(&mut proved, line, said, after, None, tally);
            }
        });
    }
    result.map_err(|text| format!("then {pages} pages, notify, dispatch and resume: {text}"))
}

/// A memory of many large pages: calls on the first and the last of them and at the last virtual page, a record, a changed memory, and a few guided calls.
fn many_pages(pages: usize, random: &mut Random, tally: &mut Tally) -> Result<(), String> {
    let mut second: Vec<u32> = (0..pages * LARGE.page_words()).map(|_| random.draw() as u32).collect();
    let mut proved = second.clone();
    let mut result = perform(&mut proved, &mut second, &[0, LARGE.number], tally);
    for line in edge_calls(Sizes::of(&second).map_or(0, |sizes| sizes.free)) {
        result = result.and_then(|()| perform(&mut proved, &mut second, &line, tally));
    }
    result = result.and_then(|()| records::compare(&mut proved, random, tally));
    result = result.and_then(|()| memories::changed(&second, random, tally));
    guide(&mut second, random, 12, |line, said, after| {
        if result.is_ok() {
            result = follow(&mut proved, line, said, after, None, tally);
        }
    });
    tally.sequence(pages);
    if pages == LARGE.most_pages() {
        // One page more is too many, whatever the words are.
        proved.resize((pages + 1) * LARGE.page_words(), 0);
        result = result.and_then(|()| memories::each_call(proved, random, tally));
    }
    result.map_err(|text| format!("then {pages} pages: {text}"))
}

/// A child is made of the last pages that were handed to the root and ends, with a page lent to it at the last virtual page; another one has two pages, there
/// and before it.
fn edge_calls(free: u32) -> Vec<Vec<u32>> {
    let page = |k: u32| VPage(k).address(LARGE);
    let (child, last) = (page(free), page(LARGE.virtual_pages() - 1));
    let create: Vec<u32> = std::iter::once(1).chain((free - 4..=free).rev().map(page)).collect();
    let furnished = vec![
        create,
        vec![12, page(free - 5), page(free - 6)],
        vec![12, page(free - 6), page(2)],
        vec![6, child, last, page(free - 5)],
    ];
    let mut lines = vec![vec![8, page(free)], vec![8, page(free + 1)]];
    lines.extend(furnished.clone());
    lines.extend([vec![3, page(1), child, last, 1], vec![12, page(2) - 4, 5], vec![2, child], vec![11, page(2) - 4]]);
    lines.extend(furnished);
    lines.extend([
        vec![3, page(1), child, last, 7],
        vec![3, page(1), child, last, 5],
        vec![3, page(free - 7), child, last - page(1), 3],
        vec![8, page(1)],
        vec![12, page(free - 4), 1],
        vec![9, child],
        vec![12, u32::MAX - 3, 77],
        vec![11, last - 4],
        vec![10],
        vec![11, page(2) - 4],
        vec![4, child, last],
        vec![7, child, last],
    ]);
    lines
}

fn pages_of(mem: &[u32]) -> usize {
    mem.len() / Edition::of(mem).page_words()
}

/// What is compared after a call, on the memory that it left. No word changes by it.
fn between(
    proved: &mut [u32],
    line: &[u32],
    answer: Answer,
    second: &[u32],
    random: &mut Random,
    tally: &mut Tally,
) -> Result<(), String> {
    if answer == Err(DEPTH) {
        memories::one_too_deep(second, line, random, tally)?;
    }
    if random.once_in(50) {
        (0..4).try_for_each(|_| memories::changed(second, random, tally))?;
    }
    if random.once_in(50) {
        memories::unwritable(second, random, tally)?;
    }
    if random.once_in(50) {
        (0..4).try_for_each(|_| records::compare(proved, random, tally))?;
    }
    if random.once_in(200) {
        // An edition that the length does not have, or none.
        let other = 1 - Edition::of(second).number;
        let choice = random.pick(&[other, 2, 6, 10, u32::MAX]).filter(|_| second.len() != BOTH).unwrap_or(2);
        perform(proved, &mut second.to_vec(), &[0, choice], tally)?;
    }
    (proved == second).then_some(()).ok_or("a record or a refused format changed the memory".to_string())
}
