//! What is measured of the block kernel, in tables, and the bars that it is held to.

pub mod stack;

use super::call::Call;
use super::damaged::damaged;
use super::scenario::*;
use crate::kernel::KernelCall;
use crate::measure;
use crate::report::bar::{verdicts, Bar};
use crate::report::calls::{self, Calls};
use crate::report::damaged::{self as damages, Damages};
use crate::report::deleting::{self, ending, Deleting};
use crate::report::growth::{Growth, Size, Units};
use crate::report::guided::{self, Guided};
use crate::report::Report;
use second::blocks::geometry::words_of_kib;
use second::blocks::make::guide;
use stack::Stack;
use std::time::Duration;

type Bench = measure::Bench<Call>;

/// "no call slower than 2.0 times the ordinary Rust version"
const MOST: f64 = 2.0;
const UNITS: Units = Units { size: "KiB", part: "partition and structure", parts: "partitions and structures" };
/// Damaged memories are measured where the tree is the largest, and beside the smallest memory.
const MOST_KIB: usize = 64;

/// The trees on which all calls are measured.
pub const SCENARIOS: [(Recipe, usize); 16] = [
    (one_child, 16),
    (one_child, 64),
    (deep, 16),
    (deep, 40),
    (deep, 64),
    (broad, 16),
    (broad, 64),
    (bare, 16),
    (bare, 64),
    (bushy, 40),
    (bushy, 64),
    (many_blocks, 16),
    (many_blocks, 40),
    (many_blocks, 64),
    (many_pieces, 16),
    (many_pieces, 64),
];

/// From the least memory to the most.
const SIZES: [usize; 4] = [16, 24, 40, 64];
/// The recipes whose partitions and structures grow with the memory.
const GROWING: [Recipe; 6] = [deep, broad, bare, bushy, many_blocks, many_pieces];

fn growth(bench: &mut Bench) -> Growth {
    let mut size = |recipe: Recipe, kib| {
        let Scenario { name, whole, .. } = recipe(kib);
        Size::of(name.to_string(), kib, parts(&whole), whole, bench)
    };
    Growth {
        units: UNITS,
        recipes: GROWING.map(|recipe| SIZES.map(|kib| size(recipe, kib)).into()).into(),
        others: SIZES.map(|kib| size(one_child, kib)).into(),
    }
}

fn guided(bench: &mut Bench) -> Guided {
    let guide: guided::Guide = &|kib, random, calls, show| {
        let mut words = vec![0; words_of_kib(kib)];
        let _ = second::blocks::calls::format(&mut words);
        guide(&mut words, random, calls, |_, _, memory| show(memory));
    };
    Guided::new("", &SIZES, guide, bench)
}

/// Children that have much below them: the partitions and structures that go with each.
fn deletings(bench: &mut Bench) -> Vec<Deleting> {
    let scenarios = BELOW.iter().flat_map(|recipe| [16, 64].map(recipe));
    let deleting = |scenario: Scenario| {
        let step = ending(&scenario);
        let mut memory = step.memory(&scenario.whole);
        let before = Call::counts(&memory);
        let _ = step.call.trusting(&mut memory);
        let counts = before.into_iter().zip(Call::counts(&memory)).take(2);
        let gone: Vec<_> = counts.map(|((name, before), (_, after))| (name, before - after)).collect();
        let parts = gone.iter().map(|(_, count)| count).sum();
        Deleting::of(&scenario, gone, parts, bench)
    };
    scenarios.map(deleting).collect()
}

/// Measures for so long.
pub fn measure(time: Duration) -> Report {
    let mut bench = Bench::default();
    let (mut all, mut damaged_all) = (Vec::new(), Vec::new());
    for scenario in SCENARIOS.map(|(recipe, kib)| recipe(kib)) {
        let place = bench.memory(scenario.whole.clone());
        let measured = Calls::of(&scenario, place, &mut bench);
        if scenario.kib == MOST_KIB || all.is_empty() {
            let memories = damaged(&scenario.whole);
            damaged_all.push(Damages::of(&scenario, memories, measured.judge, place, &mut bench));
        }
        all.push(measured);
    }
    let (growth, guided, deletings) = (growth(&mut bench), guided(&mut bench), deletings(&mut bench));
    let stack = Stack::measure();
    bench.run(time);

    let figures =
        calls::figures(&all, &bench).chain(guided.figures(&bench)).chain(deleting::figures(&deletings, &bench));
    let mut bars = vec![Bar::new("a call over the ordinary version's", MOST, figures)];
    bars.extend(growth.bars(&bench));
    let name = "damaged memory over the sound".to_string();
    bars.push(damages::bar(name, &damaged_all, std::iter::empty(), &bench));
    bars.push(stack.bar());

    let mut short = vec![calls::summary(&all, &bench), guided.table(UNITS.size, &bench)];
    short.extend(growth.tables(&bench));
    let title = "delete of a child that has much below it, the whole call and less the judge";
    short.push(deleting::table(title, UNITS.part, &deletings, &bench));
    short.push(damages::table(&damaged_all, &bench));
    short.extend([stack.summary(), verdicts(&bars)]);
    let calls = all.iter().map(|calls| calls.table(&bench)).collect();
    Report { calls, stack: vec![stack.table()], short, bars }
}
