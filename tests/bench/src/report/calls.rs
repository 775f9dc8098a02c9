//! Format and the other calls of a kernel on the tree of a scenario.

use super::bar::{ratio, whole};
use crate::kernel::{KernelCall, Tree};
use crate::measure::{Bench, Place, Row};
use crate::table::Table;

pub struct Calls {
    title: String,
    counts: Vec<(&'static str, usize)>,
    pub judge: Row,
    /// By number: the call where it passes, and where it is refused after the judgement.
    rows: Vec<(Option<Row>, Option<Row>)>,
}

impl Calls {
    /// The tree's whole memory is at the place.
    pub fn of<T: Tree>(tree: &T, place: Place, bench: &mut Bench<T::Call>) -> Calls {
        let judge = bench.judge(place);
        assert_eq!(bench.answer(judge), T::Call::JUDGED_SOUND, "{}", tree.title());
        let row = |number| {
            let [passing, refused] =
                [tree.passing(number), tree.refused(number)].map(|step| step.map(|step| bench.add(step, place)));
            assert!(refused.is_none_or(|row| bench.answer(row).is_err()), "{}: {number}", tree.title());
            (passing, refused)
        };
        Calls {
            title: tree.title(),
            counts: T::Call::counts(tree.whole()),
            rows: (0..T::Call::NAMES.len() as u32).map(row).collect(),
            judge,
        }
    }

    /// A call where it passes.
    pub fn passing(&self, number: u32) -> Option<Row> {
        self.rows[number as usize].0
    }

    pub fn table<C: KernelCall>(&self, bench: &Bench<C>) -> Table {
        let counts: Vec<String> = self.counts.iter().map(|(name, count)| format!("{count} {name}")).collect();
        let head = ["", "proved", "ordinary", "ratio", "refused with", "proved", "ordinary", "ratio"];
        let mut table = Table::new(format!("{}: {}", self.title, counts.join(", ")), &head);
        let cells = |row: Option<Row>| match row.map(|row| bench.times(row)) {
            Some(times) => [whole(times.proved), whole(times.ordinary), ratio(times.ratio())],
            None => [const { String::new() }; 3],
        };
        let mut line = |name: String, passing, refused: Option<Row>| {
            let number =
                refused.and_then(|row| bench.answer(row).err()).map_or(String::new(), |number| number.to_string());
            let ([a, b, c], [d, e, f]) = (cells(passing), cells(refused));
            table.row([name, a, b, c, number, d, e, f]);
        };
        line("the judge".to_string(), None, Some(self.judge));
        for (number, &(passing, refused)) in self.rows.iter().enumerate() {
            line(format!("{number:>2} {}", C::NAMES[number]), passing, refused);
        }
        table
    }

    /// Each call's ratio, with its name.
    fn ratios<'a, C: KernelCall>(&'a self, bench: &'a Bench<C>) -> impl Iterator<Item = (f64, String)> + 'a {
        self.rows.iter().zip(C::NAMES).flat_map(|(&(passing, refused), name)| {
            let passing = passing.map(|row| (bench.times(row).ratio(), name.to_string()));
            let refused = refused.map(|row| (bench.times(row).ratio(), format!("{name}, refused")));
            passing.into_iter().chain(refused)
        })
    }

    fn slowest<C: KernelCall>(&self, bench: &Bench<C>) -> (f64, String) {
        self.ratios(bench).max_by(|one, other| one.0.total_cmp(&other.0)).expect("a call")
    }
}

/// Each scenario in a line.
pub fn summary<C: KernelCall>(all: &[Calls], bench: &Bench<C>) -> Table {
    let counts = all.iter().take(1).flat_map(|calls| calls.counts.iter().map(|&(name, _)| name));
    let head: Vec<&str> = std::iter::once("")
        .chain(counts)
        .chain(["judge", "ordinary", "ratio", "format", "slowest call", "ratio"])
        .collect();
    let mut table = Table::new("The judge, and the ratios of the calls", &head);
    for calls in all {
        let judge = bench.times(calls.judge);
        let format = calls.rows[0].0.map_or(String::new(), |row| ratio(bench.times(row).ratio()));
        let (most, name) = calls.slowest(bench);
        let title = std::iter::once(calls.title.clone());
        let counts = calls.counts.iter().map(|(_, count)| count.to_string());
        let times = [whole(judge.proved), whole(judge.ordinary), ratio(judge.ratio()), format, name, ratio(most)];
        table.rows.push(title.chain(counts).chain(times).collect());
    }
    table
}

/// The slowest call of each scenario.
pub fn figures<'a, C: KernelCall>(all: &'a [Calls], bench: &'a Bench<C>) -> impl Iterator<Item = (f64, String)> + 'a {
    all.iter().map(|calls| {
        let (most, name) = calls.slowest(bench);
        (most, format!("{}: {name}", calls.title))
    })
}
