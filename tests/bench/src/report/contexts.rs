//! Notify, dispatch and resume in each of their ways, between a caller and its child that both have slot pages; and refused on damaged memory.

use super::bar::{ratio, whole};
use super::Bench;
use crate::builder::WAYS;
use crate::call::{Step, NAMES};
use crate::damaged::last_flag;
use crate::kernel::Tree;
use crate::measure::{Row, Times};
use crate::patch::Patch;
use crate::scenario::{broad_slots, down_to, Scenario, MOST_DEPTH};
use crate::table::Table;
use second::geometry::{Edition, SMALL};

/// The number of notify; dispatch and resume follow.
const NOTIFY: usize = 13;
/// These calls of WAYS are made on damaged memory: one of notify, resume and dispatch.
const ON_DAMAGED: [usize; 3] = [0, 2, 4];

pub struct Contexts {
    title: String,
    judge: Row,
    ways: Vec<Row>,
    /// By a call's name: the memory has a flag that is none.
    damaged: Vec<(&'static str, Row)>,
}

/// The trees: a child of the root, one at the deepest level, and as many children as there is room for. Large pages have no slot pages.
fn scenarios(edition: Edition) -> Vec<(String, Scenario)> {
    if edition != SMALL {
        return Vec::new();
    }
    let chains = [(1, 32), (1, 256), (MOST_DEPTH, 96), (MOST_DEPTH, 256)].map(|(level, pages)| {
        let levels = if level == 1 { "1 level".to_string() } else { format!("{level} levels") };
        (format!("{pages}, {levels}"), down_to(level, edition, pages))
    });
    let broad = broad_slots(edition, 256);
    chains.into_iter().chain([(broad.title(), broad)]).collect()
}

impl Contexts {
    pub fn all(edition: Edition, bench: &mut Bench) -> Vec<Contexts> {
        scenarios(edition).into_iter().map(|(title, scenario)| Contexts::of(title, &scenario, bench)).collect()
    }

    fn of(title: String, scenario: &Scenario, bench: &mut Bench) -> Contexts {
        assert_eq!(scenario.ways.len(), WAYS.len(), "{title}");
        let place = bench.memory(scenario.whole.clone());
        let judge = bench.judge(place);
        let ways = scenario.ways.iter().map(|step| {
            let row = bench.add(step, place);
            assert!(bench.answer(row).is_ok(), "{title}: {:?}", step.call);
            row
        });
        let ways = ways.collect();
        let mut words = scenario.whole.clone();
        last_flag(&mut words);
        let damage = Patch::between(&words, &scenario.whole);
        let damaged = ON_DAMAGED.map(|k| {
            let call = scenario.ways[k].call;
            let row = bench.add(&Step { call, before: damage.clone() }, place);
            assert_eq!(bench.answer(row), Err(1), "{title}: {call:?}");
            (NAMES[call.number as usize], row)
        });
        Contexts { title, judge, ways, damaged: damaged.into() }
    }

    /// What the calls on damaged memory cost over the judge of the sound one, by name.
    fn shares<'a>(&'a self, bench: &'a Bench) -> impl Iterator<Item = (&'static str, Times)> + 'a {
        let sound = bench.times(self.judge);
        self.damaged.iter().map(move |&(name, row)| {
            let times = bench.times(row);
            (name, Times { proved: times.proved / sound.proved, ordinary: times.ordinary / sound.ordinary })
        })
    }
}

/// A way in a line, a tree in a column.
pub fn table(all: &[Contexts], bench: &Bench) -> Table {
    let head: Vec<&str> = std::iter::once("").chain(all.iter().map(|contexts| contexts.title.as_str())).collect();
    let [notify, dispatch, resume] = [0, 1, 2].map(|k| NAMES[NOTIFY + k]);
    let title = format!(
        "{notify}, {dispatch} and {resume}: proved, in brackets ordinary, and the ratio; on damaged memory over the sound judge"
    );
    let mut table = Table::new(title, &head);
    let mut line = |name: String, cell: &dyn Fn(&Contexts) -> String| {
        table.rows.push(std::iter::once(name).chain(all.iter().map(cell)).collect());
    };
    let timed = |row: Row| {
        let times = bench.times(row);
        format!("{} ({}) {}", whole(times.proved), whole(times.ordinary), ratio(times.ratio()))
    };
    line("the judge".to_string(), &|contexts| timed(contexts.judge));
    for (k, way) in WAYS.into_iter().enumerate() {
        line(way.to_string(), &|contexts| timed(contexts.ways[k]));
    }
    for k in 0..ON_DAMAGED.len() {
        let share = |contexts: &Contexts| contexts.shares(bench).nth(k).expect("a call on damaged memory");
        let name = all.first().map_or("", |contexts| share(contexts).0);
        line(format!("{name}, damaged memory"), &|contexts| {
            let (_, share) = share(contexts);
            format!("{} ({})", ratio(share.proved), ratio(share.ordinary))
        });
    }
    table
}

/// Each way over the ordinary version's.
pub fn figures<'a>(all: &'a [Contexts], bench: &'a Bench) -> impl Iterator<Item = (f64, String)> + 'a {
    all.iter().flat_map(|contexts| {
        let figure = |(&row, way)| (bench.times(row).ratio(), format!("{}: {way}", contexts.title));
        contexts.ways.iter().zip(WAYS).map(figure)
    })
}

/// Each call on damaged memory over the sound one.
pub fn damages<'a>(all: &'a [Contexts], bench: &'a Bench) -> impl Iterator<Item = (f64, String)> + 'a {
    all.iter().flat_map(|contexts| {
        contexts.shares(bench).map(|(name, share)| (share.proved, format!("{}: {name}", contexts.title)))
    })
}
