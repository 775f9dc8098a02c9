//! The stack that each function takes on trees of several shapes.

use super::super::call::{Call, Step, NAMES};
use super::super::scenario::*;
use crate::kernel::Tree;
use crate::patch::Patch;
use crate::report::bar::Bar;
use crate::report::memories::Memories;
use crate::table::Table;

/// Kibibytes: what include/tumashqin_block.h says.
const MOST: f64 = 4.0;
/// The places of these two among the lines.
const ON_JUDGE: usize = 0;
const ON_DAMAGED: usize = 1;

/// Bytes by the tree; none where the call is not made.
struct Line {
    name: String,
    bytes: Vec<Option<usize>>,
}

pub struct Stack {
    titles: Vec<String>,
    lines: Vec<Line>,
}

/// The trees: the root alone with a child, the deepest and the broadest, and those of many blocks and pieces.
fn scenarios() -> Vec<Scenario> {
    let recipes: [Recipe; 5] = [deep, broad, bushy, many_blocks, many_pieces];
    let largest = recipes.iter().chain(&BELOW).map(|recipe| recipe(64));
    [one_child(16), deep(16)].into_iter().chain(largest).collect()
}

impl Stack {
    pub fn measure() -> Stack {
        let mut stack = Stack { titles: Vec::new(), lines: Vec::new() };
        for scenario in scenarios() {
            stack.titles.push(scenario.title());
            for (k, (name, bytes)) in functions(&scenario).into_iter().enumerate() {
                if k == stack.lines.len() {
                    stack.lines.push(Line { name, bytes: Vec::new() });
                }
                stack.lines[k].bytes.push(bytes);
            }
        }
        stack
    }

    pub fn trees(&self) -> usize {
        self.titles.len()
    }

    /// The most on a tree, and the first function that takes it.
    pub fn most(&self, tree: usize) -> (usize, &str) {
        let bytes = self.lines.iter().filter_map(|line| Some((line.bytes[tree]?, line.name.as_str())));
        bytes.rev().max_by_key(|line| line.0).expect("a function")
    }

    /// Each function on each tree.
    pub fn table(&self) -> Table {
        let head: Vec<&str> = std::iter::once("").chain(self.titles.iter().map(String::as_str)).collect();
        let mut table = Table::new("Bytes of stack", &head);
        let row = |line: &Line| std::iter::once(line.name.clone()).chain(line.bytes.iter().map(cell)).collect();
        table.rows = self.lines.iter().map(row).collect();
        table
    }

    /// The most on each tree.
    pub fn summary(&self) -> Table {
        let head = ["tree", "most", "by", "the judge", "on damaged memory"];
        let mut table = Table::new("Bytes of stack that a call takes, from its return address on", &head);
        for (tree, title) in self.titles.iter().enumerate() {
            let (most, name) = self.most(tree);
            let [judge, damaged] = [ON_JUDGE, ON_DAMAGED].map(|k| cell(&self.lines[k].bytes[tree]));
            table.row([title.clone(), most.to_string(), name.to_string(), judge, damaged]);
        }
        table
    }

    pub fn bar(&self) -> Bar {
        let figures = self.titles.iter().enumerate().map(|(tree, title)| {
            let (bytes, name) = self.most(tree);
            (bytes as f64 / 1024.0, format!("{title}: {name}"))
        });
        Bar::new("stack of a call, in KiB", MOST, figures)
    }
}

fn cell(bytes: &Option<usize>) -> String {
    bytes.map_or(String::new(), |bytes| bytes.to_string())
}

/// Every function on the tree of a scenario, and the judge on damages of it.
fn functions(scenario: &Scenario) -> Vec<(String, Option<usize>)> {
    let mut memories = Memories::of(scenario);
    let mut all = vec![
        ("the judge".to_string(), Some(memories.on(&Step::judge(Patch::default())))),
        ("the judge on damaged memory".to_string(), memories.damages()),
    ];
    for (number, name) in (0..).zip(NAMES) {
        let format = Step { call: Call::new(0, &[]), before: Patch::default() };
        let passing = if number == 0 { Some(&format) } else { scenario.passing(number) };
        all.push((name.to_string(), passing.map(|step| memories.on(step))));
        if number > 0 {
            all.push((format!("{name}, refused"), scenario.refused(number).map(|step| memories.on(step))));
        }
    }
    all
}
