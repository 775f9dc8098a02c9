//! The judge on damaged memories, beside the sound memory of the same scenario.

use super::bar::{ratio, Bar};
use crate::damaged::Damaged;
use crate::kernel::{KernelCall, Step, Tree};
use crate::measure::{Bench, Place, Row, Times};
use crate::patch::Patch;
use crate::table::Table;

/// "damaged memory never costs more than twice the sound memory of that size"
const MOST: f64 = 2.0;

pub struct Damages {
    title: String,
    sound: Row,
    damaged: Vec<(&'static str, Row)>,
}

impl Damages {
    /// The judge is measured already on the sound memory, which is at the place. A damaged one has a place of its own where it differs in much.
    pub fn of<T: Tree>(
        tree: &T,
        damaged: Vec<Damaged>,
        sound: Row,
        place: Place,
        bench: &mut Bench<T::Call>,
    ) -> Damages {
        let damaged = damaged.into_iter().map(|Damaged { name, words }| {
            let before = Patch::between(&words, tree.whole());
            let row = if before.count() < words.len() / 8 {
                bench.add(&Step::judge(before), place)
            } else {
                let own = bench.memory(words);
                bench.judge(own)
            };
            assert_eq!(bench.answer(row), Err(1), "{name}");
            (name, row)
        });
        Damages { title: tree.title(), damaged: damaged.collect(), sound }
    }

    fn shares<'a, C: KernelCall>(&'a self, bench: &'a Bench<C>) -> impl Iterator<Item = (&'static str, Times)> + 'a {
        let sound = bench.times(self.sound);
        self.damaged.iter().map(move |&(name, row)| {
            let times = bench.times(row);
            (name, Times { proved: times.proved / sound.proved, ordinary: times.ordinary / sound.ordinary })
        })
    }
}

/// A kind of damage in a line, a scenario in a column.
pub fn table<C: KernelCall>(all: &[Damages], bench: &Bench<C>) -> Table {
    let head: Vec<&str> = std::iter::once("").chain(all.iter().map(|damages| damages.title.as_str())).collect();
    let title = "Damaged memory's cost over the sound one's, and in brackets the ordinary version's";
    let mut table = Table::new(title, &head);
    let names = all.iter().max_by_key(|damages| damages.damaged.len()).map_or(&[][..], |damages| &damages.damaged);
    for &(name, _) in names {
        let cell = |damages: &Damages| {
            let share = damages.shares(bench).find(|share| share.0 == name);
            share.map_or(String::new(), |(_, share)| format!("{} ({})", ratio(share.proved), ratio(share.ordinary)))
        };
        table.rows.push(std::iter::once(name.to_string()).chain(all.iter().map(cell)).collect());
    }
    table
}

/// The judge on each of them, and further figures of calls on damaged memory.
pub fn bar<C: KernelCall>(
    name: String,
    all: &[Damages],
    calls: impl Iterator<Item = (f64, String)>,
    bench: &Bench<C>,
) -> Bar {
    let figures = all.iter().flat_map(|damages| {
        damages.shares(bench).map(|(name, share)| (share.proved, format!("{}: {name}", damages.title)))
    });
    Bar::new(name, MOST, figures.chain(calls))
}
