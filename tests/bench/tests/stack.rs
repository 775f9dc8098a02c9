//! The stack that the library takes: how it is measured, and its bar, which is of the archive and not of the machine.

use bench::builder::WAYS;
use bench::call::NAMES;
use bench::kernel::Tree;
use bench::painted::{call, Function, ARGUMENTS};
use bench::report::stack::{sizes, Stack};
use bench::scenario::{down_to, MOST_DEPTH};
use second::geometry::{Edition, EDITIONS, SMALL};
use second::tree::tree;
use std::hint::black_box;

/// The sixth and what is on the stack, each a digit.
extern "C" fn digits(
    _: usize,
    _: usize,
    _: usize,
    _: usize,
    _: usize,
    a: usize,
    b: usize,
    c: usize,
    d: usize,
    e: usize,
    f: usize,
    g: usize,
    h: usize,
) -> usize {
    [a, b, c, d, e, f, g, h].into_iter().fold(0, |number, digit| 16 * number + digit)
}

extern "C" fn kibibyte() -> u8 {
    black_box([1; 1024])[7]
}

/// The function at an address.
fn function(address: *const ()) -> Function {
    unsafe { std::mem::transmute(address) }
}

#[test]
fn painted() {
    let called = unsafe { call(function(digits as *const ()), [1, 2, 3, 4, 5, 6, 7, 8, 9, 10, 11, 12, 13]) };
    assert_eq!(called.answer, 0x6789_ABCD);
    assert!(called.stack < 128, "{}", called.stack);
    let called = unsafe { call(function(kibibyte as *const ()), [0; ARGUMENTS]) };
    assert!((1024..4096).contains(&called.stack), "{}", called.stack);
}

/// The editions with the numbers of pages that are measured.
fn all() -> impl Iterator<Item = (Edition, usize)> {
    EDITIONS.into_iter().flat_map(|edition| sizes(edition).iter().map(move |&pages| (edition, pages)))
}

/// Every call that is measured is made on a tree as deep as its column says, and is there from the first child on.
#[test]
fn depths() {
    for (edition, pages) in all() {
        for depth in 0..=MOST_DEPTH {
            let scenario = down_to(depth, edition, pages);
            let passing: Vec<_> = (1..NAMES.len() as u32).filter_map(|number| scenario.passing(number)).collect();
            let [all, ways] = if edition == SMALL { [15, WAYS.len()] } else { [12, 0] };
            assert_eq!([passing.len(), scenario.ways.len()], if depth == 0 { [4, 0] } else { [all, ways] });
            assert_eq!(scenario.refused.len(), 15);
            for step in passing.into_iter().chain(&scenario.refused).chain(&scenario.ways) {
                let before = step.memory(&scenario.whole);
                assert_eq!(tree(&before).iter().map(|node| node.depth).max(), Some(depth), "{:?}", step.call);
            }
        }
    }
}

#[test]
fn bar() {
    for (edition, pages) in all() {
        let stack = Stack::measure(edition, pages);
        let bar = stack.bar();
        assert!(bar.holds(), "{} KiB in {}: {}", bar.figure, bar.name, bar.place);
        assert!((1..=MOST_DEPTH).all(|depth| stack.most(depth - 1) < stack.most(depth)), "a level takes stack");
    }
}
