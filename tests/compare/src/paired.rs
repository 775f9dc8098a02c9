//! What occurred in pairs of memories that show a partition B the same.

use crate::pair_ways::{Call, Two, CALLS, CONTEXT_CALLS, CONTEXT_STARTS, STARTS};
use second::cover::Cover;
use second::geometry::{Edition, MOST_DEPTH, SMALL};
use second::pairs::{Kind, KINDS};

/// The ways of both editions stand first, then those of small pages alone.
const BOTH: usize = STARTS.len() + CALLS.len();
const WAYS: usize = BOTH + CONTEXT_STARTS.len() + CONTEXT_CALLS.len();

/// What occurred in one pair.
pub struct Met {
    kind: Kind,
    depth: usize,
    /// Words that are not shown and differ, at the start and at the end.
    words: [usize; 2],
    ways: [bool; WAYS],
    /// Each call once for both memories.
    cover: Cover,
}

impl Met {
    /// A pair at the start, with so many words that differ.
    pub fn of(kind: Kind, words: usize, two: &Two) -> Met {
        let mut ways = [false; WAYS];
        ways.iter_mut().zip(STARTS).for_each(|(met, (_, holds))| *met = holds(two));
        ways[BOTH..].iter_mut().zip(CONTEXT_STARTS).for_each(|(met, (_, holds))| *met = holds(two));
        Met { kind, depth: two.around[0].own().depth, words: [words, 0], ways, cover: Cover::default() }
    }

    pub fn call(&mut self, call: &Call) {
        self.cover.count(call.line[0] as usize, call.answers[0]);
        for (place, ways) in [(STARTS.len(), &CALLS[..]), (BOTH + CONTEXT_STARTS.len(), &CONTEXT_CALLS[..])] {
            let calls = self.ways[place..].iter_mut().zip(ways);
            calls.for_each(|(met, (_, holds))| *met = *met || holds(call));
        }
    }

    pub fn end(&mut self, words: usize) {
        self.words[1] = words;
    }
}

/// The pairs of one edition.
#[derive(Default)]
pub struct Paired {
    /// Those that differ, by kind and by the depth of B, and their calls.
    differ: [[u64; MOST_DEPTH + 1]; KINDS.len()],
    cover: Cover,
    words: [u64; 2],
    /// Those in which nothing differs: with B the root nothing can. Their calls.
    root: u64,
    equal: u64,
    other_calls: u64,
    /// Pairs by what occurred in them.
    ways: Counts,
}

/// By way.
struct Counts([u64; WAYS]);

impl Default for Counts {
    fn default() -> Counts {
        Counts([0; WAYS])
    }
}

impl Paired {
    pub fn count(&mut self, met: &Met) {
        self.ways.0.iter_mut().zip(met.ways).for_each(|(own, met)| *own += u64::from(met));
        if met.words[0] > 0 {
            self.differ[met.kind as usize][met.depth] += 1;
            self.cover.add(&met.cover);
            self.words.iter_mut().zip(met.words).for_each(|(own, words)| *own += words as u64);
        } else {
            *(if met.depth == 0 { &mut self.root } else { &mut self.equal }) += 1;
            self.other_calls += met.cover.calls();
        }
    }

    pub fn add(&mut self, other: &Paired) {
        let differ = self.differ.iter_mut().flatten().zip(other.differ.iter().flatten());
        let words = self.words.iter_mut().zip(&other.words);
        let ways = self.ways.0.iter_mut().zip(&other.ways.0);
        differ.chain(words).chain(ways).for_each(|(own, other)| *own += other);
        self.cover.add(&other.cover);
        self.root += other.root;
        self.equal += other.equal;
        self.other_calls += other.other_calls;
    }

    /// What has to occur and did not: each kind at each depth, each call with each answer that it can have there, and the ways.
    pub fn missing(&self, edition: Edition) -> Vec<String> {
        let mut missing = self.cover.missing(&[edition]);
        missing.retain(|answer| !["format", "record"].iter().any(|row| answer.starts_with(row)));
        // Both stay sound; and only the root is refused with 14, to which everything is shown.
        missing.retain(|answer| !answer.ends_with(" no 1") && !answer.ends_with(" no 14"));
        for (kind, depths) in KINDS.iter().zip(&self.differ) {
            let none = (1..=MOST_DEPTH).filter(|&depth| depths[depth] == 0);
            missing.extend(none.map(|depth| format!("{kind:?}, B {depth} below the root")));
        }
        missing.extend(self.ways_of(edition).filter(|(_, pairs)| *pairs == 0).map(|(name, _)| name.to_string()));
        missing.into_iter().map(|what| format!("pairs: {what}")).collect()
    }

    fn each(&self) -> impl Iterator<Item = (&'static str, u64)> + '_ {
        let names = STARTS.iter().map(|way| way.0).chain(CALLS.iter().map(|way| way.0));
        let contexts = CONTEXT_STARTS.iter().map(|way| way.0).chain(CONTEXT_CALLS.iter().map(|way| way.0));
        names.chain(contexts).zip(self.ways.0)
    }

    /// The tables; with large pages without the ways that only small ones have.
    pub fn text(&self, edition: Edition) -> String {
        let pairs: u64 = self.differ.iter().flatten().sum();
        let [start, end] = self.words;
        let mut text = format!(
            "{pairs} pairs differ, and {} calls are made in both memories of each:\n\
            all answers are equal, and all words that are shown; {start} words differ before, {end} after\n\
            {} pairs with B the root, {} more without a difference: {} calls\n{:15}",
            self.cover.calls(),
            self.root,
            self.equal,
            self.other_calls,
            "depth of B"
        );
        (1..=MOST_DEPTH).for_each(|depth| text += &format!("{depth:>7}"));
        for (kind, depths) in KINDS.iter().zip(&self.differ) {
            text += &format!("\n{:15}", format!("{kind:?}"));
            depths[1..].iter().for_each(|pairs| text += &format!("{pairs:>7}"));
        }
        text += &format!("\n{}\n", self.cover.table(&[edition]));
        self.ways_of(edition).for_each(|(name, pairs)| text += &format!("{pairs:9}  {name}\n"));
        text
    }

    fn ways_of(&self, edition: Edition) -> impl Iterator<Item = (&'static str, u64)> + '_ {
        self.each().take(if edition == SMALL { WAYS } else { BOTH })
    }
}
