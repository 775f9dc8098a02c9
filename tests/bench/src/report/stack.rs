//! The stack that each function takes on a tree of each depth.

use super::bar::Bar;
use super::memories::Memories;
use crate::builder::WAYS;
use crate::call::{Call, Step, NAMES};
use crate::kernel::Tree;
use crate::library;
use crate::patch::Patch;
use crate::scenario::{down_to, prefix, Scenario, MOST_DEPTH};
use crate::table::Table;
use second::geometry::{Edition, LARGE};
use second::record::{LENGTH, REVISION};

/// Kibibytes: what include/tumashqin.h says.
const MOST: f64 = 4.0;
/// The places of these two among the lines.
const ON_JUDGE: usize = 0;
const ON_DAMAGED: usize = 1;

/// Bytes by the tree's depth; none where the call cannot pass.
struct Line {
    name: String,
    bytes: Vec<Option<usize>>,
}

/// With how many pages it is measured: marks of pages are the most with the most.
pub fn sizes(edition: Edition) -> &'static [usize] {
    if edition == LARGE {
        &[96, 4096]
    } else {
        &[96]
    }
}

pub struct Stack {
    /// Edition and number of pages.
    size: String,
    lines: Vec<Line>,
}

impl Stack {
    pub fn measure(edition: Edition, pages: usize) -> Stack {
        let mut lines: Vec<Line> = Vec::new();
        for depth in 0..=MOST_DEPTH {
            for (k, (name, bytes)) in functions(&down_to(depth, edition, pages)).into_iter().enumerate() {
                if k == lines.len() {
                    lines.push(Line { name, bytes: Vec::new() });
                }
                lines[k].bytes.push(bytes);
            }
        }
        Stack { size: format!("{}{pages}", prefix(edition)), lines }
    }

    /// The most at a depth, and the first function that takes it.
    pub fn most(&self, depth: usize) -> (usize, &str) {
        let bytes = self.lines.iter().filter_map(|line| Some((line.bytes[depth]?, line.name.as_str())));
        bytes.rev().max_by_key(|line| line.0).expect("a function")
    }

    /// Each function at each depth.
    pub fn table(&self) -> Table {
        let depths: Vec<String> = (0..=MOST_DEPTH).map(|depth| depth.to_string()).collect();
        let head: Vec<&str> = std::iter::once("").chain(depths.iter().map(String::as_str)).collect();
        let title = format!("Bytes of stack, by the levels of the tree below the root; {} pages", self.size);
        let mut table = Table::new(title, &head);
        let cell = |bytes: &Option<usize>| bytes.map_or(String::new(), |bytes| bytes.to_string());
        let row = |line: &Line| std::iter::once(line.name.clone()).chain(line.bytes.iter().map(cell)).collect();
        table.rows = self.lines.iter().map(row).collect();
        table
    }

    /// The most at each depth.
    pub fn summary(&self) -> Table {
        let head = ["levels below the root", "most", "by", "the judge", "on damaged memory"];
        let title = format!("Bytes of stack that a call takes, from its return address on; {} pages", self.size);
        let mut table = Table::new(title, &head);
        for depth in 0..=MOST_DEPTH {
            let (most, name) = self.most(depth);
            let [judge, damaged] = [ON_JUDGE, ON_DAMAGED]
                .map(|k| self.lines[k].bytes[depth].map_or(String::new(), |bytes| bytes.to_string()));
            table.row([depth.to_string(), most.to_string(), name.to_string(), judge, damaged]);
        }
        table
    }

    pub fn bar(&self) -> Bar {
        let figures = (0..=MOST_DEPTH).map(|depth| {
            let (bytes, name) = self.most(depth);
            (bytes as f64 / 1024.0, format!("{depth} levels: {name}"))
        });
        Bar::new(format!("stack of a call, in KiB, {} pages", self.size), MOST, figures)
    }
}

/// Every function on the tree of a scenario, and the judge on damages of it.
fn functions(scenario: &Scenario) -> Vec<(String, Option<usize>)> {
    let whole = &scenario.whole;
    let mut memories = Memories::of(scenario);
    let mut all = vec![
        ("the judge".to_string(), Some(memories.on(&Step::judge(Patch::default())))),
        ("the judge on damaged memory".to_string(), memories.damages()),
    ];
    for (number, name) in (0..).zip(NAMES) {
        let format = Step { call: Call::new(0, &[scenario.edition.number]), before: Patch::default() };
        let passing = if number == 0 { Some(&format) } else { scenario.passing(number) };
        let refused = scenario.refused(number);
        all.push((name.to_string(), passing.map(|step| memories.on(step))));
        if number > 0 {
            all.push((format!("{name}, refused"), refused.map(|step| memories.on(step))));
        }
    }
    for (k, way) in WAYS.into_iter().enumerate() {
        all.push((way.to_string(), scenario.ways.get(k).map(|step| memories.on(step))));
    }
    all.extend(records(whole, scenario.edition).map(|(name, bytes)| (name.to_string(), Some(bytes))));
    all
}

/// The record's writer where it passes and where it is refused after the judgement, and its readers.
fn records(whole: &[u32], edition: Edition) -> [(&'static str, usize); 6] {
    let (mut record, revision) = ([0; LENGTH], [7; REVISION]);
    let (refusal, short) = library::write_record(whole, &revision[1..], &mut record);
    assert_eq!((refusal, record), (17, [0; LENGTH]));
    let (refusal, written) = library::write_record(whole, &revision, &mut record);
    assert_eq!(refusal, 0);
    let [check, begin, end, part] = library::READERS.map(|(name, reader)| {
        let (answer, bytes) = library::read(reader, &record);
        (name, answer, bytes)
    });
    assert_eq!((check.1, begin.1, part.1), (0, edition.page_bytes(), 64));
    let reader = |(name, _, bytes)| (name, bytes);
    let [check, begin, end, part] = [check, begin, end, part].map(reader);
    [("write record", written), ("write record, refused", short), check, begin, end, part]
}
