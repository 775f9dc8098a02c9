//! Sound memories that guided random calls lead to: those on which the judge is slowest beside the ordinary version.

use super::bar::{ratio, whole};
use crate::kernel::KernelCall;
use crate::measure::{rough, Bench, Row};
use crate::table::Table;
use second::random::Random;

/// Sequences of each size, the calls of each, and how many of them lie between two memories.
const SEQUENCES: u32 = 10;
const CALLS: usize = 1500;
const APART: usize = 40;
/// How many memories of each size are measured well.
const KEPT: usize = 4;

/// Makes so many guided calls from format on in a memory of this size, and shows the memory after each.
pub type Guide<'a> = &'a dyn Fn(usize, &mut Random, usize, &mut dyn FnMut(&[u32]));

struct Memory {
    /// The size as it is told.
    size: String,
    counts: Vec<(&'static str, usize)>,
    judge: Row,
}

pub struct Guided(Vec<Vec<Memory>>);

impl Guided {
    /// A size is told with these words before it.
    pub fn new<C: KernelCall>(prefix: &str, sizes: &[usize], guide: Guide, bench: &mut Bench<C>) -> Guided {
        let mut measured = |size: usize, words: Vec<u32>| {
            let (counts, place) = (C::counts(&words), bench.memory(words));
            Memory { size: format!("{prefix}{size}"), counts, judge: bench.judge(place) }
        };
        let slowest = sizes.iter().map(|&size| {
            let words = slowest::<C>(size, guide).into_iter();
            words.map(|words| measured(size, words)).collect()
        });
        Guided(slowest.collect())
    }

    /// The slowest of each size, with its ratio.
    fn slowest<'a, C: KernelCall>(&'a self, bench: &'a Bench<C>) -> impl Iterator<Item = (f64, &'a Memory)> + 'a {
        let ratio = |memory: &'a Memory| (bench.times(memory.judge).ratio(), memory);
        self.0.iter().filter_map(move |size| size.iter().map(ratio).max_by(|one, other| one.0.total_cmp(&other.0)))
    }

    pub fn figures<'a, C: KernelCall>(&'a self, bench: &'a Bench<C>) -> impl Iterator<Item = (f64, String)> + 'a {
        self.slowest(bench).map(|(figure, memory)| (figure, format!("{} after guided calls: the judge", memory.size)))
    }

    /// The unit of the sizes heads their column.
    pub fn table<C: KernelCall>(&self, unit: &str, bench: &Bench<C>) -> Table {
        let count = SEQUENCES as usize * CALLS.div_ceil(APART);
        let title = format!(
            "The judge after guided calls: of {count} memories of each size the slowest beside the ordinary version"
        );
        let counts = self.0.iter().flatten().take(1).flat_map(|memory| memory.counts.iter().map(|&(name, _)| name));
        let head: Vec<&str> = std::iter::once(unit).chain(counts).chain(["judge", "ordinary", "ratio"]).collect();
        let mut table = Table::new(title, &head);
        for (figure, memory) in self.slowest(bench) {
            let times = bench.times(memory.judge);
            let counts = memory.counts.iter().map(|(_, count)| count.to_string());
            let cells = [whole(times.proved), whole(times.ordinary), ratio(figure)];
            table.rows.push(std::iter::once(memory.size.clone()).chain(counts).chain(cells).collect());
        }
        table
    }
}

/// The memories of a size that seem slowest at a short look.
fn slowest<C: KernelCall>(size: usize, guide: Guide) -> Vec<Vec<u32>> {
    let mut met = Vec::new();
    for seed in 0..SEQUENCES {
        let mut calls = 0;
        guide(size, &mut Random::new(900 + seed), CALLS, &mut |memory| {
            if calls % APART == 0 {
                met.push((rough::<C>(memory).ratio(), memory.to_vec()));
            }
            calls += 1;
        });
    }
    met.sort_by(|one, other| other.0.total_cmp(&one.0));
    met.into_iter().take(KEPT).map(|(_, words)| words).collect()
}
