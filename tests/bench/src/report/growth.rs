//! How the judge's cost grows with what is judged.

use super::bar::{ratio, whole, Bar};
use crate::kernel::KernelCall;
use crate::measure::{Bench, Row};
use crate::table::Table;

/// "per page within a factor 2"
const MOST: f64 = 2.0;
/// Times on several memories are compared, not of both versions on one: the least time has to be found on each.
const FAVOUR: u32 = 4;

/// What a memory's size is counted in, and what the judge's cost is divided by.
#[derive(Clone, Copy)]
pub struct Units {
    pub size: &'static str,
    pub part: &'static str,
    pub parts: &'static str,
}

/// The judge on one memory.
pub struct Size {
    name: String,
    size: usize,
    counts: Vec<(&'static str, usize)>,
    parts: usize,
    judge: Row,
}

impl Size {
    pub fn of<C: KernelCall>(name: String, size: usize, parts: usize, words: Vec<u32>, bench: &mut Bench<C>) -> Size {
        let (counts, place) = (C::counts(&words), bench.memory(words));
        let judge = bench.judge(place);
        bench.favour(judge, FAVOUR);
        Size { name, size, counts, parts, judge }
    }

    fn per_part<C: KernelCall>(&self, bench: &Bench<C>) -> f64 {
        bench.times(self.judge).proved / self.parts as f64
    }
}

pub struct Growth {
    pub units: Units,
    /// Of each recipe the same shape at each size: what is judged grows with the memory.
    pub recipes: Vec<Vec<Size>>,
    /// Shapes to which the bar is not applied.
    pub others: Vec<Size>,
}

impl Growth {
    pub fn tables<C: KernelCall>(&self, bench: &Bench<C>) -> [Table; 2] {
        let grows = format!("The judge as {} grow", self.units.parts);
        [
            self.table(&grows, self.recipes.iter().flatten(), bench),
            self.table(
                "The judge on trees of other shapes, to which the bar is not applied",
                self.others.iter(),
                bench,
            ),
        ]
    }

    fn table<'a, C: KernelCall>(&self, title: &str, sizes: impl Iterator<Item = &'a Size>, bench: &Bench<C>) -> Table {
        let (per, sizes): (_, Vec<&Size>) = (format!("per {}", self.units.part), sizes.collect());
        let counts = sizes.iter().take(1).flat_map(|size| size.counts.iter().map(|&(name, _)| name));
        let times = ["judge", &per, "ordinary", "ratio"];
        let head: Vec<&str> = ["tree", self.units.size].into_iter().chain(counts).chain(times).collect();
        let mut table = Table::new(title, &head);
        for size in sizes {
            let times = bench.times(size.judge);
            let counts = size.counts.iter().map(|(_, count)| count.to_string());
            let cells = [
                whole(times.proved),
                format!("{:.1}", size.per_part(bench)),
                format!("{:.1}", times.ordinary / size.parts as f64),
                ratio(times.ratio()),
            ];
            table
                .rows
                .push([size.name.clone(), size.size.to_string()].into_iter().chain(counts).chain(cells).collect());
        }
        table
    }

    /// For each recipe the greatest cost per part over the least.
    pub fn bars<C: KernelCall>(&self, bench: &Bench<C>) -> Vec<Bar> {
        let bar = |sizes: &Vec<Size>| {
            let least = sizes.iter().map(|size| size.per_part(bench)).fold(f64::INFINITY, f64::min);
            let place = |size: &Size| format!("{} {}", size.size, self.units.size);
            let figures = sizes.iter().map(|size| (size.per_part(bench) / least, place(size)));
            Bar::new(format!("per {}, {}", self.units.part, sizes[0].name), MOST, figures)
        };
        self.recipes.iter().map(bar).collect()
    }
}
