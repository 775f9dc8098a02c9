//! What is measured of the page kernel, in tables, and the bars that it is held to; and the tables that both kernels share.

pub mod bar;
pub mod calls;
mod contexts;
pub mod damaged;
pub mod deleting;
pub mod growth;
pub mod guided;
pub mod memories;
pub mod stack;
mod wiping;

use crate::call::Call;
use crate::damaged::damaged;
use crate::measure;
use crate::scenario::*;
use crate::table::Table;
use bar::{verdicts, Bar};
use calls::Calls;
use contexts::Contexts;
use damaged::Damages;
use deleting::{ending, Deleting};
use growth::{Growth, Size, Units};
use guided::Guided;
use second::geometry::{Edition, EDITIONS, LARGE};
use second::make::guide;
use second::memory::words_of;
use stack::Stack;
use std::time::Duration;
use wiping::Wiping;

type Bench = measure::Bench<Call>;

/// "no call slower than 2.0 times the ordinary Rust version at any size"
const MOST: f64 = 2.0;
/// In a memory of more pages the judge hides what wiping costs.
const MOST_WIPED: usize = 256;

pub struct Report {
    /// Each call in each scenario.
    pub calls: Vec<Table>,
    /// Each function on a tree of each depth.
    pub stack: Vec<Table>,
    /// The rest, short enough for a document.
    pub short: Vec<Table>,
    pub bars: Vec<Bar>,
}

/// How a table's title and a bar's name tell the edition.
fn suffix(edition: Edition) -> &'static str {
    if edition == LARGE {
        ", large pages"
    } else {
        ""
    }
}

/// The trees on which all calls are measured.
fn scenarios(edition: Edition) -> Vec<Scenario> {
    let recipes: &[(Recipe, usize)] = if edition == LARGE {
        &[
            (one_child, 16),
            (deep, 256),
            (broad, 256),
            (deep, 1024),
            (broad, 1024),
            (broad_few_tables, 1024),
            (deep, 4096),
            (deep_few_tables, 4096),
            (broad, 4096),
        ]
    } else {
        &[
            (one_child, 16),
            (one_child, 256),
            (deep, 73),
            (broad, 73),
            (deep, 256),
            (deep_few_tables, 256),
            (broad, 256),
            (broad_few_tables, 256),
            (bare, 256),
        ]
    };
    recipes.iter().map(|(recipe, pages)| recipe(edition, *pages)).collect()
}

/// The recipes whose kernel pages grow with the memory, at several sizes; and those of few kernel pages and many mappings, more of them the more pages there
/// are.
fn growth(edition: Edition, bench: &mut Bench) -> Growth {
    let sizes: &[usize] = if edition == LARGE { &[16, 256, 1024, 4096] } else { &[16, 32, 73, 128, 256] };
    let mut size = |recipe: Recipe, pages| {
        let Scenario { name, whole, .. } = recipe(edition, pages);
        Size::of(format!("{}{name}", prefix(edition)), pages, kernel_pages(&whole), whole, bench)
    };
    let recipes: [Recipe; 4] = [deep, broad, broad_falling, bare];
    let others: [Recipe; 3] = [one_child, deep_few_tables, broad_few_tables];
    Growth {
        units: Units { size: "pages", part: "kernel page", parts: "kernel pages" },
        recipes: recipes.map(|recipe| sizes.iter().map(|&pages| size(recipe, pages)).collect()).into(),
        others: others.map(|recipe| size(recipe, edition.most_pages())).into(),
    }
}

fn guided(edition: Edition, bench: &mut Bench) -> Guided {
    let sizes: &[usize] = if edition == LARGE { &[16, 32] } else { &[16, 32, 73, 128, 256] };
    let guide: guided::Guide = &|pages, random, calls, show| {
        let mut words = vec![0; edition.page_words() * pages];
        let _ = second::calls::format(&mut words, edition.number);
        guide(&mut words, random, calls, |_, _, memory| show(memory));
    };
    Guided::new(prefix(edition), sizes, guide, bench)
}

/// Children to which many pages were lent.
fn deletings(edition: Edition, bench: &mut Bench) -> Vec<Deleting> {
    let sizes: &[usize] = if edition == LARGE { &[256, 4096] } else { &[256] };
    let scenarios = LENT.iter().flat_map(|recipe| sizes.iter().map(move |&pages| recipe(edition, pages)));
    let deleting = |scenario: Scenario| {
        let step = ending(&scenario);
        let mut memory = step.memory(&scenario.whole);
        let lent = lent_pages(&memory, step.call.arguments[0]);
        let _ = step.call.trusting(&mut memory);
        // All zeros afterwards; before, each that is no kernel page has another word.
        let wiped = lent.iter().filter(|own| words_of(&memory, own.page).iter().all(|&word| word == 0)).count();
        Deleting::of(&scenario, vec![("lent", lent.len()), ("wiped", wiped)], lent.len(), bench)
    };
    scenarios.map(deleting).collect()
}

/// What is measured in the scenarios of an edition.
struct Measured {
    edition: Edition,
    calls: Vec<Calls>,
    wiping: Vec<Wiping>,
    deleting: Vec<Deleting>,
    contexts: Vec<Contexts>,
    damages: Vec<Damages>,
    stacks: Vec<Stack>,
    growth: Growth,
    guided: Guided,
}

impl Measured {
    fn new(edition: Edition, bench: &mut Bench) -> Measured {
        let (mut calls, mut wiping, mut damages) = (Vec::new(), Vec::new(), Vec::new());
        for scenario in scenarios(edition) {
            let place = bench.memory(scenario.whole.clone());
            let measured = Calls::of(&scenario, place, bench);
            if scenario.pages() <= MOST_WIPED {
                wiping.push(Wiping::of(&scenario, &measured, place, bench));
            }
            damages.push(Damages::of(&scenario, damaged(&scenario.whole), measured.judge, place, bench));
            calls.push(measured);
        }
        let stacks = stack::sizes(edition).iter().map(|&pages| Stack::measure(edition, pages)).collect();
        Measured {
            edition,
            calls,
            wiping,
            deleting: deletings(edition, bench),
            contexts: Contexts::all(edition, bench),
            damages,
            stacks,
            growth: growth(edition, bench),
            guided: guided(edition, bench),
        }
    }

    /// The tables that are short enough for a document.
    fn short(&self, bench: &Bench) -> Vec<Table> {
        let mut short = vec![calls::summary(&self.calls, bench), self.guided.table("pages", bench)];
        short.extend(self.growth.tables(bench));
        short.push(wiping::table(&self.wiping, bench));
        let title = "deletePartition of a child to which many pages were lent, the whole call and less the judge";
        short.push(deleting::table(title, "lent page", &self.deleting, bench));
        if !self.contexts.is_empty() {
            short.push(contexts::table(&self.contexts, bench));
        }
        short.push(damaged::table(&self.damages, bench));
        short.iter_mut().for_each(|table| table.title += suffix(self.edition));
        short.extend(self.stacks.iter().map(Stack::summary));
        short
    }

    fn bars(&self, bench: &Bench) -> Vec<Bar> {
        let of = suffix(self.edition);
        let deleting = deleting::figures(&self.deleting, bench);
        let contexts = contexts::figures(&self.contexts, bench);
        let figures =
            calls::figures(&self.calls, bench).chain(self.guided.figures(bench)).chain(deleting).chain(contexts);
        let mut bars = vec![Bar::new(format!("a call over the ordinary version's{of}"), MOST, figures)];
        bars.extend(self.growth.bars(bench));
        let contexts = contexts::damages(&self.contexts, bench);
        bars.push(damaged::bar(format!("damaged memory over the sound{of}"), &self.damages, contexts, bench));
        bars.extend(self.stacks.iter().map(Stack::bar));
        bars
    }
}

impl Report {
    /// Measures for so long.
    pub fn measure(time: Duration) -> Report {
        let mut bench = Bench::default();
        let measured = EDITIONS.map(|edition| Measured::new(edition, &mut bench));
        bench.run(time);
        let bars: Vec<_> = measured.iter().flat_map(|measured| measured.bars(&bench)).collect();
        let mut short: Vec<_> = measured.iter().flat_map(|measured| measured.short(&bench)).collect();
        short.push(verdicts(&bars));
        let calls = measured.iter().flat_map(|measured| &measured.calls).map(|calls| calls.table(&bench)).collect();
        let stack = measured.iter().flat_map(|measured| &measured.stacks).map(Stack::table).collect();
        Report { calls, stack, short, bars }
    }
}
