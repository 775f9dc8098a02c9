//! Kernels that are wrong in one thing, tried by the comparison of pairs. Those that L11 forbids are held to themselves, so that what is reported is a
//! difference between the two runs; those that are wrong in notify, dispatch or resume are held to the second program.

use crate::pairs::{compare, second_program, Kernel, Kernels};
use crate::tally::Tally;
use second::calls::Said;
use second::contexts::*;
use second::geometry::*;
use second::memory::*;
use second::neighbours::Around;
use second::random::Random;
use second::refusal::{self, *};

/// The first report in some rounds of pairs.
fn reported(kernels: Kernels) -> Option<String> {
    (0..64).find_map(|seed| {
        let (edition, mut random) = (EDITIONS[seed % 2], Random::new(seed as u32));
        compare(edition, seed / 2, kernels, &mut random, &mut Tally::default()).err()
    })
}

fn assert_reported(kernel: Kernel, what: &str) {
    let text = reported([kernel; 2]).expect("the runs differ");
    assert!(text.contains(&format!("THE RUNS DIFFER in {what}")), "{text}");
}

/// Held to the second program, it is reported for this call.
fn assert_wrong(kernel: Kernel, call: &str, what: &str) {
    let text = reported([kernel, second_program]).expect("a difference");
    assert!(text.contains(&format!("{call} [")) && text.contains(what), "{text}");
}

/// The mapping that the caller's parent has of the page which the caller has at this address.
fn parents(mem: &[u32], address: u32) -> Option<Mapping> {
    let v = VPage::of(Edition::of(mem), address);
    Some(Around::current(mem)?.lenders(mem, v).first()?.1)
}

fn may_write(mapping: Mapping) -> bool {
    mapping.rights & WRITE != 0
}

/// Refuses to lend, and to tell to whom a page is lent, where the caller's parent may not write it.
fn by_the_parents_right(mem: &mut [u32], line: &[u32]) -> Said {
    let page = match *line {
        [3, page, ..] | [8, page] => Some(page),
        _ => None,
    };
    let barred = page.and_then(|page| parents(mem, page)).is_some_and(|mapping| !may_write(mapping));
    let mut copy = mem.to_vec();
    let said = second_program(&mut copy, line);
    unless(barred, RIGHTS, said, mem, &copy)
}

/// Refuses a call that would pass where something bars it; else does what the copy has.
fn unless(barred: bool, refusal: u32, said: Said, mem: &mut [u32], copy: &[u32]) -> Said {
    if barred && said.answer.is_ok() {
        return Said { answer: Err(refusal), context: said.context.map(|_| [0; CONTEXT_WORDS]) };
    }
    mem.copy_from_slice(copy);
    said
}

/// Loads the word of the page behind the one that is mapped.
fn of_another_page(mem: &mut [u32], line: &[u32]) -> Said {
    let said = second_program(mem, line);
    let ([11, address], Ok(_)) = (line, said.answer) else { return said };
    let edition = Edition::of(mem);
    let mapping = Partition::current(mem).mapping(mem, VPage::of(edition, *address));
    let behind = |m: Mapping| word(mem, PPage(m.page.0 + 1), (address % edition.page_bytes() / 4) as usize);
    mapping.map(behind).ok_or(UNMAPPED).into()
}

/// Counts the depth by the parent's list: a parent with more than one three is taken to be too deep.
fn depth_by_another_word(mem: &mut [u32], line: &[u32]) -> Said {
    let parent = named_page(mem, Partition::current(mem).descriptor, PARENT);
    let too_deep = parent != HEADER && word(mem, Partition::at(mem, parent).list, 0) > 7;
    let mut copy = mem.to_vec();
    let said = second_program(&mut copy, line);
    unless(line[0] == 1 && too_deep, DEPTH, said, mem, &copy)
}

/// Wipes what comes back from a deleted child by the parent's right to write, not by the caller's.
fn wiped_by_the_parents_right(mem: &mut [u32], line: &[u32]) -> Said {
    let (caller, edition) = (Partition::current(mem), Edition::of(mem));
    let lent = |&(v, mapping): &(VPage, Mapping)| mapping.accessible && caller.shadow1(mem, v) == line[1];
    let wiped = |&(v, _): &(VPage, Mapping)| parents(mem, v.address(edition)).is_some_and(may_write);
    let pages: Vec<_> = match line[0] {
        2 => caller.mappings(mem).filter(lent).filter(wiped).map(|(_, mapping)| mapping.page).collect(),
        _ => Vec::new(),
    };
    let said = second_program(mem, line);
    if said.answer.is_ok() {
        pages.into_iter().for_each(|page| words_of_mut(mem, page).fill(0));
    }
    said
}

/// Asks for the slot page of the caller's parent in notify and dispatch to a child.
fn parents_slot_page_asked(mem: &mut [u32], line: &[u32]) -> Said {
    let parent = named_page(mem, Partition::current(mem).descriptor, PARENT);
    let to_child = matches!(*line, [13 | 14, at, ..] if at != 0);
    let barred = to_child && parent != HEADER && slot_page(mem, &Partition::at(mem, parent)).is_err();
    let mut copy = mem.to_vec();
    let said = second_program(&mut copy, line);
    unless(barred, SLOT_PAGE, said, mem, &copy)
}

/// The target of notify, dispatch or resume.
fn target(mem: &[u32], line: &[u32]) -> Option<Partition> {
    let (caller, edition) = (Partition::current(mem), Edition::of(mem));
    match *line {
        [13..=15, 0, ..] => Some(named_page(mem, caller.descriptor, PARENT)).filter(|&page| page != HEADER),
        [13..=15, at, ..] => caller.mapping(mem, VPage::of(edition, at)).map(|mapping| mapping.page),
        _ => None,
    }
    .map(|descriptor| Partition::at(mem, descriptor))
}

/// Saves a notify to the parent in slot 2.
fn saves_in_the_wrong_slot(mem: &mut [u32], line: &[u32]) -> Said {
    let (before, page) = (mem.to_vec(), slot_page(mem, &Partition::current(mem)));
    let said = second_program(mem, line);
    if let ([13, 0, ..], Ok(page), Ok(_)) = (line, page, said.answer) {
        for index in 0..=VALID {
            let saved = word(mem, page, slot_word(TO_PARENT, index));
            set_word(mem, page, slot_word(TO_CHILD, index), saved);
            let old = word(&before, page, slot_word(TO_PARENT, index));
            set_word(mem, page, slot_word(TO_PARENT, index), old);
        }
    }
    said
}

/// Takes pipflags whole for the flag, where that is 2 or 3.
fn pipflags_whole(mem: &mut [u32], line: &[u32]) -> Said {
    let target = target(mem, line);
    let said = second_program(mem, line);
    if let (Some(target), Some(context), Ok(_)) = (target, said.context, said.answer) {
        if context[PIPFLAGS] > 1 {
            set_word(mem, target.descriptor, FLAG, context[PIPFLAGS]);
        }
    }
    said
}

/// Wipes the padding of the slot that it saves in.
fn padding_wiped(mem: &mut [u32], line: &[u32]) -> Said {
    let page = slot_page(mem, &Partition::current(mem));
    let said = second_program(mem, line);
    if let ([13, target, ..], Ok(page), Ok(_)) = (line, page, said.answer) {
        let slot = if *target == 0 { TO_PARENT } else { TO_CHILD };
        (VALID + 1..SLOT_WORDS).for_each(|index| set_word(mem, page, slot_word(slot, index), 0));
    }
    said
}

/// Takes a valid word of 2 for 1.
fn valid_2_taken(mem: &mut [u32], line: &[u32]) -> Said {
    let mut copy = mem.to_vec();
    if let ([15, _, slot @ 0..=3], Some(page)) = (line, target(mem, line).and_then(|owner| slot_page(mem, &owner).ok()))
    {
        if word(mem, page, slot_word(*slot, VALID)) == 2 {
            set_word(&mut copy, page, slot_word(*slot, VALID), 1);
        }
    }
    let said = second_program(&mut copy, line);
    if said.answer.is_ok() {
        mem.copy_from_slice(&copy);
    }
    said
}

/// Sets the parent's flag, too, where the root becomes current.
fn parents_flag_set(mem: &mut [u32], line: &[u32]) -> Said {
    let parent = target(mem, line);
    let said = second_program(mem, line);
    if let ([15, 0, _], Some(parent), Ok(_)) = (line, parent, said.answer) {
        if Partition::current(mem).descriptor != parent.descriptor {
            set_word(mem, parent.descriptor, FLAG, 1);
        }
    }
    said
}

/// Asks for the target's slot page in notify.
fn targets_slot_page_asked(mem: &mut [u32], line: &[u32]) -> Said {
    let barred = line[0] == 13 && target(mem, line).is_some_and(|target| slot_page(mem, &target).is_err());
    let mut copy = mem.to_vec();
    let said = second_program(&mut copy, line);
    unless(barred, SLOT_PAGE, said, mem, &copy)
}

/// Refuses a bad address before the edition.
fn edition_after_the_address(mem: &mut [u32], line: &[u32]) -> Said {
    let said = second_program(mem, line);
    let size = Edition::of(mem).page_bytes();
    match *line {
        [13..=15, at, ..] if said.answer == Err(refusal::EDITION) && at != 0 && (at < size || at % size != 0) => {
            Said { answer: Err(ADDRESS), ..said }
        }
        _ => said,
    }
}

/// Answers another word as the last register.
fn context_of_other_words(mem: &mut [u32], line: &[u32]) -> Said {
    let mut said = second_program(mem, line);
    if let (Some(context), Ok(_)) = (&mut said.context, said.answer) {
        if *context != [0; CONTEXT_WORDS] {
            context[CONTEXT_WORDS - 1] = context[CONTEXT_WORDS - 1].wrapping_add(1);
        }
    }
    said
}

#[test]
fn nothing_of_the_second_program() {
    assert_eq!(reported([second_program; 2]), None);
}

#[test]
fn a_slot_page_of_the_parent() {
    assert_reported(parents_slot_page_asked, "the answer: ");
}

#[test]
fn a_context_in_the_wrong_slot() {
    assert_wrong(saves_in_the_wrong_slot, "notify", "word ");
}

#[test]
fn a_flag_of_all_pipflags() {
    assert_wrong(pipflags_whole, "resume", "word 12)");
}

#[test]
fn padding_that_does_not_stay() {
    assert_wrong(padding_wiped, "notify", "word ");
}

#[test]
fn a_slot_that_is_not_valid() {
    assert_wrong(valid_2_taken, "resume", "answer: proved ok 0");
}

#[test]
fn a_flag_of_the_parent() {
    assert_wrong(parents_flag_set, "resume", "word 12)");
}

#[test]
fn a_slot_page_of_the_target() {
    assert_wrong(targets_slot_page_asked, "notify", "answer: proved no 20, second ok 0");
}

#[test]
fn an_address_before_the_edition() {
    assert_wrong(edition_after_the_address, "", "answer: proved no 3, second no 24");
}

#[test]
fn another_word_of_a_context() {
    assert_wrong(context_of_other_words, "resume", "answer: proved ok 0");
}

#[test]
fn an_ancestors_right_in_place_of_the_callers() {
    assert_reported(by_the_parents_right, "the answer: ");
}

#[test]
fn a_word_of_a_page_that_is_not_mapped() {
    assert_reported(of_another_page, "the answer: ");
}

#[test]
fn a_depth_counted_by_another_word() {
    assert_reported(depth_by_another_word, "the answer: ");
}

#[test]
fn a_page_wiped_by_an_ancestors_right() {
    assert_reported(wiped_by_the_parents_right, "word ");
}
