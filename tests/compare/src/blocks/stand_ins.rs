//! Kernels that are wrong in one thing, tried by the comparison in place of the proved one: each is reported. Those of docs/BLOCKS.md are the second program's.

use crate::kernel::{Call, Kernel, Tell, Verdict};
use crate::round::round;
use crate::tally::Tally;
use second::blocks::calls::{Answer, Said, CALLS};
use second::blocks::geometry::{DESCRIPTOR_WORDS, STRUCTURE_WORDS};
use second::blocks::memory::*;
use second::blocks::refusal::*;
use second::blocks::sound::{broken, sound};
use second::blocks::wrong::{
    call, keeps_lent_enabled, leaves_descendants, merges_what_adjoins, removes_what_is_lent_on,
};

const ROUNDS: u32 = 40;

/// The second program itself.
const SECOND: Kernel = Kernel { call: &call, tell: &tell, verdict: &verdict };

fn tell(mem: &[u32], line: &[u32], out: &mut [u32], length: usize) -> Answer {
    let said = call(&mut mem.to_vec(), line);
    out[..length].iter_mut().zip(said.told.into_iter().flatten()).for_each(|(word, told)| *word = told);
    said.answer
}

fn verdict(mem: &[u32]) -> Answer {
    sound(mem).then_some(0).ok_or(DAMAGED)
}

fn with_call(call: Call) -> Kernel {
    Kernel { call, ..SECOND }
}

fn with_tell(tell: Tell) -> Kernel {
    Kernel { tell, ..SECOND }
}

fn with_verdict(verdict: Verdict) -> Kernel {
    Kernel { verdict, ..SECOND }
}

/// The first report in some rounds.
fn reported(kernel: Kernel) -> Option<String> {
    (1..=ROUNDS).find_map(|seed| round(&kernel, seed, None, &mut Tally::default()).err())
}

/// It is reported for this call, with this text.
fn assert_reported(kernel: Kernel, call: &str, what: &str) {
    let text = reported(kernel).expect("a difference");
    assert!(text.contains(&format!("{call} [")) && text.contains(what), "{text}");
}

// Programs that do another thing than the rules say.

/// Wipes the block that it gives back, too.
fn wipes_what_comes_back(mem: &mut [u32], line: &[u32]) -> Said {
    let (here, said) = (Partition::current(mem), call(mem, line));
    if let (&[6, _, block], Ok(_)) = (line, said.answer) {
        let block = here.slot(block);
        mem[block.place()..block.end as usize / 4].fill(0);
    }
    said
}

/// Wipes all of the block that it takes.
fn wipes_all_that_it_takes(mem: &mut [u32], line: &[u32]) -> Said {
    let (here, said) = (Partition::current(mem), call(mem, line));
    if let (&[1, block], Ok(_)) = (line, said.answer) {
        let block = here.slot(block);
        mem[block.place() + DESCRIPTOR_WORDS..block.end as usize / 4].fill(0);
    }
    said
}

/// Leaves the last word of a structure as it was in the block that it takes.
fn wipes_less_than_it_takes(mem: &mut [u32], line: &[u32]) -> Said {
    let (here, before, said) = (Partition::current(mem), mem.to_vec(), call(mem, line));
    if let (&[3, _, block], Ok(_)) = (line, said.answer) {
        let last = here.slot(block).place() + STRUCTURE_WORDS - 1;
        mem[last] = before[last];
    }
    said
}

/// Wipes all words but the last.
fn formats_all_but_a_word(mem: &mut [u32], line: &[u32]) -> Said {
    let last = mem.last().copied();
    let said = call(mem, line);
    if let ([0], Ok(_), Some(last)) = (line, said.answer, last) {
        mem[mem.len() - 1] = last;
    }
    said
}

// Programs that answer another thing.

fn rights_before_the_block(mem: &mut [u32], line: &[u32]) -> Said {
    let said = call(mem, line);
    match (line, said.answer) {
        (&[5, _, _, rights], Err(BLOCK)) if rights > 7 => Said { answer: Err(RIGHTS), ..said },
        _ => said,
    }
}

/// Answers the number of the block that it collects into a child's pool, as if that were the caller's.
fn collect_always_names_the_block(mem: &mut [u32], line: &[u32]) -> Said {
    let (before, said) = (partitions(mem), call(mem, line));
    let ([4, _], Ok(0)) = (line, said.answer) else { return said };
    let after = partitions(mem);
    let blocks = before.iter().zip(&after).flat_map(|(old, new)| old.blocks().zip(new.blocks()));
    let back = blocks.into_iter().find(|(old, new)| old.usage == HAS_STRUCTURE && new.in_hand());
    Said { answer: Ok(back.map_or(0, |(old, _)| old.number)), ..said }
}

fn formats_any_length(mem: &mut [u32], line: &[u32]) -> Said {
    let said = call(mem, line);
    match (line, said.answer) {
        ([0], Err(LENGTH)) => Said { answer: Ok(0), ..said },
        _ => said,
    }
}

/// Tells the use in place of the rights.
fn another_word_of_the_six(mem: &mut [u32], line: &[u32]) -> Said {
    let mut said = call(mem, line);
    said.told.iter_mut().for_each(|told| told[3] = told[4]);
    said
}

/// As that, in lent words.
fn another_word_lent(mem: &[u32], line: &[u32], out: &mut [u32], length: usize) -> Answer {
    let answer = tell(mem, line, out, length);
    if let [_, _, _, rights, usage, ..] = &mut out[..length] {
        *rights = *usage;
    }
    answer
}

// Programs that write other words of a lent slice.

fn six_words_whatever_is_lent(mem: &[u32], line: &[u32], out: &mut [u32], length: usize) -> Answer {
    tell(mem, line, out, length.max(6))
}

fn one_word_less(mem: &[u32], line: &[u32], out: &mut [u32], length: usize) -> Answer {
    tell(mem, line, out, length.min(5))
}

fn wipes_past_the_sixth(mem: &[u32], line: &[u32], out: &mut [u32], length: usize) -> Answer {
    out[..length].fill(0);
    tell(mem, line, out, length)
}

fn no_zeros_for_none(mem: &[u32], line: &[u32], out: &mut [u32], length: usize) -> Answer {
    let answer = call(&mut mem.to_vec(), line).answer;
    tell(mem, line, out, if answer == Ok(0) { 0 } else { length })
}

fn no_zeros_beside_a_refusal(mem: &[u32], line: &[u32], out: &mut [u32], length: usize) -> Answer {
    let answer = call(&mut mem.to_vec(), line).answer;
    tell(mem, line, out, if answer.is_err() { 0 } else { length })
}

// Programs that judge wrongly.

/// The verdict does not ask one of the sentences.
fn without(unasked: u32) -> impl Fn(&[u32]) -> Answer {
    move |mem| broken(mem).iter().all(|&sentence| sentence == unasked).then_some(0).ok_or(DAMAGED)
}

/// One call takes damaged memory.
fn takes_damaged(number: u32) -> impl Fn(&mut [u32], &[u32]) -> Said {
    move |mem, line| {
        let said = call(mem, line);
        match said.answer {
            Err(DAMAGED) if line[0] == number => Said { answer: Ok(0), ..said },
            _ => said,
        }
    }
}

/// One call changes a word where it refuses.
fn changes_where_refused(number: u32) -> impl Fn(&mut [u32], &[u32]) -> Said {
    move |mem, line| {
        let said = call(mem, line);
        if let (true, Err(_), Some(word)) = (line[0] == number, said.answer, mem.last_mut()) {
            *word ^= 1;
        }
        said
    }
}

#[test]
fn nothing_of_the_second_program() {
    assert_eq!(reported(SECOND), None);
}

#[test]
fn a_merge_of_whatever_adjoins() {
    assert_reported(with_call(&merges_what_adjoins), "merge", "second no 6");
}

#[test]
fn a_remove_of_what_is_lent_on() {
    assert_reported(with_call(&removes_what_is_lent_on), "remove", "proved ok 0, second no 7");
}

#[test]
fn descendants_left_in_the_table() {
    assert_reported(with_call(&leaves_descendants), "delete", "word ");
}

#[test]
fn a_lent_block_that_stays_enabled() {
    assert_reported(with_call(&keeps_lent_enabled), "add", "word ");
}

#[test]
fn words_wiped_that_stay() {
    assert_reported(with_call(&wipes_what_comes_back), "remove", "word ");
    assert_reported(with_call(&wipes_all_that_it_takes), "create", "word ");
}

#[test]
fn a_word_left_that_is_wiped() {
    assert_reported(with_call(&wipes_less_than_it_takes), "prepare", "word ");
}

#[test]
fn a_format_of_fewer_words() {
    assert_reported(with_call(&formats_all_but_a_word), "format", "word ");
}

#[test]
fn refusals_in_another_order() {
    assert_reported(with_call(&rights_before_the_block), "add", "proved no 4, second no 3");
}

#[test]
fn a_number_of_another_pool() {
    assert_reported(with_call(&collect_always_names_the_block), "collect", "second ok 0");
}

#[test]
fn a_format_of_any_length() {
    assert_reported(with_call(&formats_any_length), "format", "proved ok 0, second no 13");
}

#[test]
fn another_word_told() {
    assert_reported(with_call(&another_word_of_the_six), "", "answer: proved ok 1 [");
    assert_reported(with_tell(&another_word_lent), "", "words lent: proved wrote [");
}

#[test]
fn other_words_of_a_lent_slice() {
    let wrong: [Tell; 5] = [
        &six_words_whatever_is_lent,
        &one_word_less,
        &wipes_past_the_sixth,
        &no_zeros_for_none,
        &no_zeros_beside_a_refusal,
    ];
    wrong.into_iter().for_each(|tell| assert_reported(with_tell(tell), "", "words lent: proved wrote ["));
}

#[test]
fn a_verdict_without_a_sentence() {
    for sentence in 1..=9 {
        let text = reported(with_verdict(&without(sentence))).expect("a difference");
        assert!(text.ends_with("verdict\n  proved ok 0, second no 1"), "{text}");
    }
}

#[test]
fn a_call_on_damaged_memory() {
    for (number, (name, _)) in (0..).zip(CALLS).skip(1) {
        assert_reported(with_call(&takes_damaged(number)), name, "answer: proved ok 0");
    }
}

#[test]
fn a_word_changed_by_a_refusal() {
    for (number, (name, _)) in (0..).zip(CALLS) {
        assert_reported(with_call(&changes_where_refused(number)), name, "word ");
    }
}
