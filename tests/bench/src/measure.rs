//! Timing of calls: the least of many single calls, the versions in turn, so that other work on the machine falls out.

use crate::kernel::{Answer, KernelCall, Step, Version};
use crate::patch::Patch;
use std::hint::black_box;
use std::time::{Duration, Instant};

/// How often a version is called before the other has its turn: the first call warms the caches. A long memory needs some more until it is in them.
const TURN: usize = 4;
const LONG_TURN: usize = 8;
/// The most words of a memory that is not long. Calls on a long one have so many times the time of others, since other work on the machine interrupts them
/// and changes what the caches hold of it.
const SHORT: usize = 1 << 15;
const LONG_SHARE: u32 = 4;

/// Nanoseconds of a call in both versions.
#[derive(Clone, Copy)]
pub struct Times {
    pub proved: f64,
    pub ordinary: f64,
}

impl Times {
    pub fn ratio(self) -> f64 {
        self.proved / self.ordinary
    }
}

/// A call on one memory, which is put back after each time.
struct Timed<C: KernelCall> {
    call: C,
    answer: Answer<C>,
    place: Place,
    /// What the memory of its place has otherwise when the call is made.
    before: Patch,
    /// The words that the call changes, as they were.
    changed: Patch,
    turn: usize,
    least: [Duration; 2],
    /// Its part of the time, and what it has had of it.
    share: u32,
    spent: Duration,
}

impl<C: KernelCall> Timed<C> {
    fn time(&mut self, version: Version<C>, memory: &mut [u32]) -> Duration {
        let start = Instant::now();
        let answer = version(black_box(&self.call), black_box(memory));
        let time = start.elapsed();
        let _ = black_box(answer);
        self.changed.apply(memory);
        time
    }

    fn turns(&mut self, memory: &mut [u32]) {
        let start = Instant::now();
        self.before.exchange(memory);
        let versions: [Version<C>; 2] = [C::proved, C::ordinary];
        for (k, version) in versions.into_iter().enumerate() {
            for _ in 0..self.turn {
                self.least[k] = self.least[k].min(self.time(version, memory));
            }
        }
        self.before.exchange(memory);
        self.spent += start.elapsed();
    }
}

/// A memory that calls are measured on.
#[derive(Clone, Copy)]
pub struct Place(usize);

/// A call that is measured.
#[derive(Clone, Copy)]
pub struct Row(usize);

pub struct Bench<C: KernelCall> {
    memories: Vec<Vec<u32>>,
    rows: Vec<Timed<C>>,
    /// A memory after a call, by either version.
    after: [Vec<u32>; 2],
    /// What reading the clock adds to a time.
    cost: Duration,
}

impl<C: KernelCall> Default for Bench<C> {
    fn default() -> Bench<C> {
        Bench { memories: Vec::new(), rows: Vec::new(), after: Default::default(), cost: Duration::ZERO }
    }
}

impl<C: KernelCall> Bench<C> {
    pub fn memory(&mut self, words: Vec<u32>) -> Place {
        self.memories.push(words);
        Place(self.memories.len() - 1)
    }

    /// A call on the memory at a place, as it was before that step. Both versions have to do the same.
    pub fn add(&mut self, step: &Step<C>, place: Place) -> Row {
        let Step { call, mut before } = step.clone();
        let (memory, [after, other]) = (&mut self.memories[place.0], &mut self.after);
        before.exchange(memory);
        after.clone_from(memory);
        other.clone_from(memory);
        let answer = call.proved(after);
        assert_eq!(answer, call.ordinary(other), "{call:?}");
        assert!(after == other, "{call:?}");
        let changed = Patch::between(memory, after);
        let (turn, share) = if memory.len() > SHORT { (LONG_TURN, LONG_SHARE) } else { (TURN, 1) };
        before.exchange(memory);
        let (least, spent) = ([Duration::MAX; 2], Duration::ZERO);
        self.rows.push(Timed { call, answer, place, before, changed, turn, least, share, spent });
        Row(self.rows.len() - 1)
    }

    /// The judge on the memory at a place.
    pub fn judge(&mut self, place: Place) -> Row {
        self.add(&Step::judge(Patch::default()), place)
    }

    /// Gives a row so many times as much of the time.
    pub fn favour(&mut self, row: Row, times: u32) {
        self.rows[row.0].share *= times;
    }

    /// Goes through all rows, at least once, for so long, each by its share of the time.
    pub fn run(&mut self, time: Duration) {
        let start = Instant::now();
        self.cost = cost();
        let shares: u32 = self.rows.iter().map(|timed| timed.share).sum();
        loop {
            for timed in &mut self.rows {
                if timed.spent * shares <= start.elapsed() * timed.share {
                    timed.turns(&mut self.memories[timed.place.0]);
                }
            }
            if start.elapsed() >= time {
                break;
            }
        }
    }

    pub fn times(&self, row: Row) -> Times {
        let nanoseconds = |least: Duration| least.saturating_sub(self.cost).as_nanos().max(1) as f64;
        let [proved, ordinary] = self.rows[row.0].least.map(nanoseconds);
        Times { proved, ordinary }
    }

    /// Nanoseconds that reading the clock costs: of two times that differ by no more, neither is known to be the greater.
    pub fn noise(&self) -> f64 {
        self.cost.as_nanos() as f64
    }

    pub fn answer(&self, row: Row) -> Answer<C> {
        self.rows[row.0].answer
    }
}

/// What reading the clock adds to a time.
fn cost() -> Duration {
    (0..1000).map(|_| Instant::now().elapsed()).min().unwrap_or_default()
}

/// The judge on one memory, at a short look.
pub fn rough<C: KernelCall>(memory: &[u32]) -> Times {
    let mut bench = Bench::<C>::default();
    let place = bench.memory(memory.to_vec());
    let row = bench.judge(place);
    (0..2).for_each(|_| bench.rows[row.0].turns(&mut bench.memories[place.0]));
    bench.times(row)
}
