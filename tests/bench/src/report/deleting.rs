//! The end of a child that has much, beside the judge on the same memory, whose cost is in it.

use super::bar::{ratio, whole};
use crate::kernel::{KernelCall, Step, Tree};
use crate::measure::{Bench, Row};
use crate::table::Table;

/// One time is taken off another: the least has to be found of both.
const FAVOUR: u32 = 4;
const DELETE: u32 = 2;

/// The call that ends the last child of a tree.
pub fn ending<T: Tree>(tree: &T) -> &Step<T::Call> {
    tree.passing(DELETE).expect("a child that is ended")
}

pub struct Deleting {
    title: String,
    /// What the child has, each count with its name.
    counts: Vec<(&'static str, usize)>,
    /// How many parts the cost is divided by.
    parts: usize,
    delete: Row,
    judge: Row,
}

impl Deleting {
    pub fn of<T: Tree>(
        tree: &T,
        counts: Vec<(&'static str, usize)>,
        parts: usize,
        bench: &mut Bench<T::Call>,
    ) -> Deleting {
        let step = ending(tree);
        let place = bench.memory(tree.whole().to_vec());
        let delete = bench.add(step, place);
        assert!(bench.answer(delete).is_ok(), "{}", tree.title());
        let judge = bench.add(&Step::judge(step.before.clone()), place);
        [delete, judge].into_iter().for_each(|row| bench.favour(row, FAVOUR));
        Deleting { title: tree.title(), counts, parts, delete, judge }
    }

    /// The call, and the call less the judge: in all and for each part. A ratio of the latter only where both are above the clock's noise.
    fn cells<C: KernelCall>(&self, bench: &Bench<C>) -> [String; 8] {
        let (call, judge) = (bench.times(self.delete), bench.times(self.judge));
        let [proved, ordinary] = [call.proved - judge.proved, call.ordinary - judge.ordinary];
        let known = proved.min(ordinary) > bench.noise();
        let part = |time: f64| format!("{:.1}", time / self.parts as f64);
        [
            whole(call.proved),
            whole(call.ordinary),
            ratio(call.ratio()),
            whole(proved),
            whole(ordinary),
            part(proved),
            part(ordinary),
            if known { ratio(proved / ordinary) } else { String::new() },
        ]
    }
}

/// A part is named in the head.
pub fn table<C: KernelCall>(title: &str, part: &str, all: &[Deleting], bench: &Bench<C>) -> Table {
    let part = format!("per {part}");
    let counts = all.iter().take(1).flat_map(|deleting| deleting.counts.iter().map(|&(name, _)| name));
    let times = ["proved", "ordinary", "ratio", "less the judge", "ordinary", &part, "ordinary", "ratio"];
    let head: Vec<&str> = std::iter::once("").chain(counts).chain(times).collect();
    let mut table = Table::new(title, &head);
    for deleting in all {
        let title = std::iter::once(deleting.title.clone());
        let counts = deleting.counts.iter().map(|(_, count)| count.to_string());
        table.rows.push(title.chain(counts).chain(deleting.cells(bench)).collect());
    }
    table
}

/// The whole call.
pub fn figures<'a, C: KernelCall>(
    all: &'a [Deleting],
    bench: &'a Bench<C>,
) -> impl Iterator<Item = (f64, String)> + 'a {
    let name = C::NAMES[DELETE as usize];
    all.iter().map(move |deleting| (bench.times(deleting.delete).ratio(), format!("{}: {name}", deleting.title)))
}
