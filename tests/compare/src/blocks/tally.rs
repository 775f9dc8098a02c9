//! What was compared so far.

use crate::any_numbers::AnyNumbers;
use crate::kinds::{Kind, Kinds};
use crate::round::KIB;
use crate::tells::LENGTHS;
use compare::judged::Judged;
use compare::lent::Lent;
use compare::rounds;
use second::blocks::cover::Cover;
use std::collections::BTreeMap;
use std::fmt;

/// The sentences of soundness. Each can be broken alone.
const SENTENCES: std::ops::RangeInclusive<u32> = 1..=9;

#[derive(Default)]
pub struct Tally {
    /// Calls by their answers and by the ways to them.
    pub cover: Cover,
    /// Memories that did not come from calls: by what was done to them, by the sentences that they break alone, and by all that they break.
    kinds: Kinds,
    judged: Judged,
    broken: BTreeMap<u32, u64>,
    /// Verdicts of sound memories, and of others.
    pub verdicts: [u64; 2],
    /// Memories of a length that isn't permitted.
    pub lengths: u64,
    /// Calls that tell a block, by the number of words lent for it.
    pub tells: Lent,
    /// Calls with any numbers as arguments.
    pub any_numbers: AnyNumbers,
    /// Guided calls from format by KiB.
    sequences: BTreeMap<usize, u64>,
}

fn add<K: Ord + Copy>(own: &mut BTreeMap<K, u64>, other: &BTreeMap<K, u64>) {
    other.iter().for_each(|(&key, count)| *own.entry(key).or_default() += count);
}

fn listed<K: fmt::Display>(counts: &BTreeMap<K, u64>) -> String {
    counts.iter().map(|(key, count)| format!("{key}: {count}")).collect::<Vec<_>>().join(", ")
}

impl Tally {
    /// Counts a memory that did not come from calls.
    pub fn judged(&mut self, kind: Kind, broken: &[u32]) {
        self.kinds.count(kind, broken.is_empty());
        self.judged.count(broken);
        broken.iter().for_each(|&sentence| *self.broken.entry(sentence).or_default() += 1);
    }

    /// Counts a guided sequence.
    pub fn sequence(&mut self, kib: usize, calls: usize) {
        *self.sequences.entry(kib).or_default() += calls as u64;
    }
}

impl rounds::Tally for Tally {
    fn add(&mut self, other: &Tally) {
        self.cover.add(&other.cover);
        self.kinds.add(&other.kinds);
        self.judged.add(&other.judged);
        add(&mut self.broken, &other.broken);
        self.verdicts.iter_mut().zip(other.verdicts).for_each(|(own, other)| *own += other);
        self.lengths += other.lengths;
        self.tells.add(&other.tells);
        self.any_numbers.add(&other.any_numbers);
        add(&mut self.sequences, &other.sequences);
    }

    fn missing(&self) -> Vec<String> {
        let others = self.cover.impossible().into_iter();
        let verdicts = (0..self.verdicts.len()).filter(|&verdict| self.verdicts[verdict] == 0);
        let lengths = self.tells.missing(LENGTHS).into_iter();
        let kib = KIB.filter(|kib| !self.sequences.contains_key(kib));
        [
            self.cover.missing(),
            others.map(|answer| format!("answers of the rules alone: {answer} was given")).collect(),
            self.kinds.missing(),
            self.judged.missing(SENTENCES),
            verdicts.map(|verdict| format!("verdict {verdict}")).collect(),
            lengths.map(|length| format!("a block told with {length} words lent")).collect(),
            self.any_numbers.missing(),
            kib.map(|kib| format!("{kib} KiB")).collect(),
        ]
        .concat()
    }
}

impl fmt::Display for Tally {
    fn fmt(&self, f: &mut fmt::Formatter) -> fmt::Result {
        let (calls, passed) = (self.cover.calls(), self.cover.passed());
        let [sound, damaged] = self.verdicts;
        let guided: u64 = self.sequences.values().sum();
        writeln!(f, "{calls} calls, {passed} of them passed: every answer and every word after each agrees")?;
        writeln!(f, "\n{}\n", self.cover)?;
        writeln!(f, "{}\n{}", self.judged, self.kinds)?;
        writeln!(f, "{}\nsentences broken, alone or not: {}", self.judged.alone(), listed(&self.broken))?;
        writeln!(f, "{} verdicts: {sound} sound, {damaged} damaged", sound + damaged)?;
        writeln!(f, "{} memories of a length that is not permitted", self.lengths)?;
        writeln!(f, "{} calls with any numbers as arguments", self.any_numbers.calls())?;
        let told = self.tells.by_length();
        writeln!(f, "{} times a block told, by the number of words lent: {}", self.tells.count(), listed(&told))?;
        writeln!(f, "{guided} guided calls from format, by KiB: {}", listed(&self.sequences))
    }
}
