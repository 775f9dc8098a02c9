//! Wiping a page: createPartition takes five pages, and deletePartition returns a child's and those lent to it, each wiped; the judge's cost is taken off.

use super::bar::ratio;
use super::calls::Calls;
use super::Bench;
use crate::call::Step;
use crate::kernel::{KernelCall, Tree};
use crate::measure::{Place, Row};
use crate::scenario::{kernel_pages, lent_pages, Scenario};
use crate::table::Table;

/// A call that wipes pages, and the judge on the same memory.
struct Wiped {
    pages: usize,
    call: Row,
    judge: Row,
}

impl Wiped {
    fn of(step: &Step, call: Row, scenario: &Scenario, place: Place, bench: &mut Bench) -> Wiped {
        let mut memory = step.memory(&scenario.whole);
        let before = kernel_pages(&memory);
        // Pages lent to the child that ends, which were no kernel pages; in each scenario the caller holds write on them.
        let lent = lent_pages(&memory, step.call.arguments[0]).iter().filter(|own| own.accessible).count();
        let _ = step.call.ordinary(&mut memory);
        let pages = before.abs_diff(kernel_pages(&memory)) + lent;
        Wiped { pages, call, judge: bench.add(&Step::judge(step.before.clone()), place) }
    }

    /// For each page, with all else that the call does after the judgement. A ratio only where both differences are above the clock's noise.
    fn cells(&self, bench: &Bench) -> [String; 4] {
        let (call, judge) = (bench.times(self.call), bench.times(self.judge));
        let [proved, ordinary] = [call.proved - judge.proved, call.ordinary - judge.ordinary];
        let known = proved.min(ordinary) > bench.noise();
        let share = if known { ratio(proved / ordinary) } else { String::new() };
        let page = |time: f64| format!("{:.1}", time / self.pages as f64);
        [self.pages.to_string(), page(proved), page(ordinary), share]
    }
}

pub struct Wiping {
    title: String,
    create: Wiped,
    delete: Wiped,
}

impl Wiping {
    /// The calls are measured already, on the scenario's whole memory, which is at the place.
    pub fn of(scenario: &Scenario, calls: &Calls, place: Place, bench: &mut Bench) -> Wiping {
        let mut wiped = |number| {
            let measured = scenario.passing(number).zip(calls.passing(number));
            let (step, call) = measured.expect("a child that is made and ended");
            Wiped::of(step, call, scenario, place, bench)
        };
        Wiping { title: scenario.title(), create: wiped(1), delete: wiped(2) }
    }
}

pub fn table(all: &[Wiping], bench: &Bench) -> Table {
    let title = "Wiping a page: createPartition and deletePartition less the judge, by page taken and returned";
    let head = ["", "taken", "proved", "ordinary", "ratio", "returned", "proved", "ordinary", "ratio"];
    let mut table = Table::new(title, &head);
    for wiping in all {
        let [a, b, c, d] = wiping.create.cells(bench);
        let [e, f, g, h] = wiping.delete.cells(bench);
        table.row([wiping.title.clone(), a, b, c, d, e, f, g, h]);
    }
    table
}
