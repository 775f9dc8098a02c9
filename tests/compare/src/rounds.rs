//! A comparison: rounds of consecutive seeds by some threads, up to the first difference.

use second::random::Random;
use std::fmt::Display;
use std::sync::atomic::{AtomicBool, AtomicU32, Ordering};
use std::time::Instant;

const USAGE: &str = "[--calls COUNT] [--seed SEED] [--flip]";
const THREADS: usize = 2;

/// What was compared so far.
pub trait Tally: Default + Display + Send {
    fn add(&mut self, other: &Self);

    /// What has to occur and did not.
    fn missing(&self) -> Vec<String>;
}

/// All of a round follows from its seed. With a flip one bit of the proved kernel's memory is changed after the call of that index.
pub struct Rounds<T> {
    /// Guided calls of a round.
    pub calls: usize,
    pub round: fn(u32, Option<usize>, &mut T) -> Result<(), String>,
}

struct Options {
    calls: usize,
    seed: u32,
    flip: bool,
}

fn options(mut words: impl Iterator<Item = String>) -> Option<Options> {
    let mut options = Options { calls: 1_000_000, seed: 1, flip: false };
    while let Some(word) = words.next() {
        match word.as_str() {
            "--calls" => options.calls = words.next()?.parse().ok()?,
            "--seed" => options.seed = words.next()?.parse().ok()?,
            "--flip" => options.flip = true,
            _ => return None,
        }
    }
    Some(options)
}

/// The program: it compares as its arguments ask, reports, and ends with status 1 at a difference and where something is missing.
pub fn main<T: Tally>(rounds: &Rounds<T>) -> ! {
    let mut words = std::env::args();
    let program = words.next().unwrap_or_default();
    let Some(options) = options(words) else {
        let name = program.rsplit('/').next().unwrap_or_default();
        eprintln!("{name} {USAGE}");
        std::process::exit(2);
    };
    let start = Instant::now();
    let result = compare(rounds, &options);
    match &result {
        Ok(tally) => print!("{tally}"),
        Err(difference) => println!("DIFFERENCE: {difference}"),
    }
    println!("{:.0} seconds", start.elapsed().as_secs_f32());
    let missing = result.map(|tally| tally.missing());
    if let Ok(missing) = &missing {
        missing.iter().for_each(|what| println!("NOT COVERED: {what}"));
    }
    std::process::exit(i32::from(missing != Ok(Vec::new())));
}

/// Rounds of consecutive seeds, by so many threads; the first difference ends all.
fn compare<T: Tally>(rounds: &Rounds<T>, options: &Options) -> Result<T, String> {
    let count = options.calls.div_ceil(rounds.calls) as u32;
    let (next, stop) = (AtomicU32::new(0), AtomicBool::new(false));
    let flip = options.flip.then(|| Random::new(options.seed).below(rounds.calls));
    let work = || -> Result<T, String> {
        let mut tally = T::default();
        while !stop.load(Ordering::Relaxed) {
            let place = next.fetch_add(1, Ordering::Relaxed);
            if place >= count {
                break;
            }
            let flip = flip.filter(|_| place == 0);
            let done = (rounds.round)(options.seed.wrapping_add(place), flip, &mut tally);
            done.inspect_err(|_| stop.store(true, Ordering::Relaxed))?;
        }
        Ok(tally)
    };
    std::thread::scope(|scope| {
        let threads: Vec<_> = (0..THREADS).map(|_| scope.spawn(work)).collect();
        let mut all = T::default();
        for thread in threads {
            all.add(&thread.join().map_err(|_| "a thread panicked")??);
        }
        Ok(all)
    })
}
