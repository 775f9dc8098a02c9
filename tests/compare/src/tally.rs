//! What was compared so far.

use crate::context_ways::ContextWays;
use crate::flags::Flags;
use crate::outs::Outs;
use crate::paired::Paired;
use crate::round::{FEW, MANY};
use crate::scripts;
use crate::ways::Ways;
use compare::judged::Judged;
use compare::rounds;
use second::calls::Answer;
use second::cover::Cover;
use second::geometry::{Edition, EDITIONS};
use second::sound::numbers;
use std::collections::BTreeMap;
use std::fmt;

const NONE: usize = EDITIONS.len();

/// What was compared on memories of one edition, or on those whose header names none.
#[derive(Default)]
pub struct Part {
    /// Format stands with the edition that it is to choose.
    pub cover: Cover,
    pub judged: Judged,
    /// Those of them whose header named the other edition before.
    pub from_the_other: u64,
    /// Verdicts of sound memories, and of others.
    pub verdicts: [u64; 2],
    /// Pairs of memories that show a partition the same.
    pub paired: Paired,
}

#[derive(Default)]
pub struct Tally {
    /// By the edition's number, and for none.
    parts: [Part; NONE + 1],
    ways: Ways,
    context_ways: ContextWays,
    /// Memories of other words by their live flags.
    pub flags: Flags,
    /// Resumes by the number of words lent for the context.
    pub outs: Outs,
    /// Sequences of the large edition by page count.
    sequences: BTreeMap<usize, u64>,
    /// Scripts replayed by both, good and bad ones.
    pub good_scripts: u64,
    pub bad_scripts: u64,
}

fn add(own: &mut [u64], other: &[u64]) {
    own.iter_mut().zip(other).for_each(|(own, other)| *own += other);
}

impl Part {
    fn add(&mut self, other: &Part) {
        self.cover.add(&other.cover);
        self.judged.add(&other.judged);
        add(&mut self.verdicts, &other.verdicts);
        self.from_the_other += other.from_the_other;
        self.paired.add(&other.paired);
    }

    /// What has to occur on memories of an edition, and did not.
    fn missing(&self, edition: Edition) -> Vec<String> {
        let mut missing = self.cover.missing(&[edition]);
        missing.extend(self.judged.missing(numbers()));
        let verdicts = [0, 1].into_iter().filter(|&verdict| self.verdicts[verdict] == 0);
        missing.extend(verdicts.map(|verdict| format!("verdict {verdict}")));
        missing.extend((self.from_the_other == 0).then(|| "a memory of the other edition".to_string()));
        missing.extend(self.paired.missing(edition));
        missing
    }

    /// What has to occur where the header names no edition, or format chooses none: everything is refused.
    fn missing_refusals(&self) -> Vec<String> {
        let mut missing = self.cover.missing(&EDITIONS);
        missing.retain(|answer| answer.ends_with(" no 1") || answer == "format no 2");
        missing.extend((self.verdicts[1] == 0).then(|| "verdict 1".to_string()));
        missing
    }
}

impl Tally {
    /// Where to count what is compared on a memory.
    pub fn of(&mut self, mem: &[u32]) -> &mut Part {
        &mut self.parts[Edition::named(mem).map_or(NONE, |edition| edition.number as usize)]
    }

    /// Counts a call with its answer, given the memory before it.
    pub fn called(&mut self, mem: &[u32], line: &[u32], answer: Answer) {
        let part = match *line {
            [0, choice] => &mut self.parts[NONE.min(choice as usize)],
            _ => self.of(mem),
        };
        part.cover.count(line[0] as usize, answer);
        self.ways.count(mem, line, answer);
        self.context_ways.count(mem, line, answer);
    }

    /// Counts a sequence of the large edition.
    pub fn sequence(&mut self, pages: usize) {
        *self.sequences.entry(pages).or_default() += 1;
    }
}

impl rounds::Tally for Tally {
    fn add(&mut self, other: &Tally) {
        self.parts.iter_mut().zip(&other.parts).for_each(|(own, other)| own.add(other));
        self.ways.add(&other.ways);
        self.context_ways.add(&other.context_ways);
        self.flags.add(&other.flags);
        self.outs.add(&other.outs);
        other.sequences.iter().for_each(|(&pages, count)| *self.sequences.entry(pages).or_default() += count);
        self.good_scripts += other.good_scripts;
        self.bad_scripts += other.bad_scripts;
    }

    fn missing(&self) -> Vec<String> {
        let mut missing = self.ways.missing();
        missing.extend(self.context_ways.missing());
        missing.extend(self.flags.missing());
        missing.extend(self.outs.missing());
        for (part, edition) in self.parts.iter().zip(EDITIONS) {
            missing.extend(part.missing(edition).into_iter().map(|what| format!("edition {}: {what}", edition.number)));
        }
        missing.extend(self.parts[NONE].missing_refusals().into_iter().map(|what| format!("no edition: {what}")));
        let counts = FEW.into_iter().chain(MANY).filter(|pages| !self.sequences.contains_key(pages));
        missing.extend(counts.map(|pages| format!("{pages} large pages")));
        missing
    }
}

impl fmt::Display for Part {
    fn fmt(&self, f: &mut fmt::Formatter) -> fmt::Result {
        writeln!(f, "{}; {} were of the other edition", self.judged, self.from_the_other)?;
        writeln!(f, "{}", self.judged.alone())?;
        let [sound, damaged] = self.verdicts;
        writeln!(f, "{} verdicts: {sound} sound, {damaged} damaged", sound + damaged)
    }
}

impl fmt::Display for Tally {
    fn fmt(&self, f: &mut fmt::Formatter) -> fmt::Result {
        let sum = |count: fn(&Cover) -> u64| self.parts.iter().map(|part| count(&part.cover)).sum::<u64>();
        let (calls, passed) = (sum(Cover::calls), sum(Cover::passed));
        writeln!(f, "{calls} calls, {passed} of them passed: every answer and every word after each agrees")?;
        for (part, edition) in self.parts.iter().zip(EDITIONS) {
            let (number, bytes) = (edition.number, edition.page_bytes());
            writeln!(f, "\nEdition {number}, pages of {bytes} bytes: {} calls", part.cover.calls())?;
            write!(f, "{}\n\n{part}", part.cover.table(&[edition]))?;
        }
        let Part { cover, verdicts: [sound, damaged], .. } = &self.parts[NONE];
        let (calls, passed) = (cover.calls(), cover.passed());
        writeln!(
            f,
            "\nNo edition named or chosen: {calls} calls, {passed} passed; verdicts: {sound} sound, {damaged} damaged"
        )?;
        writeln!(f, "\n{}", self.ways)?;
        writeln!(f, "notify, dispatch and resume\n{}", self.context_ways)?;
        self.flags.each().try_for_each(|(name, count)| writeln!(f, "{count:9}  {name}"))?;
        writeln!(f, "{} resumes with fewer or more words for the context than eleven", self.outs.count())?;
        let sequences: Vec<_> = self.sequences.iter().map(|(pages, count)| format!("{pages}: {count}")).collect();
        writeln!(f, "sequences by the number of large pages: {}", sequences.join(", "))?;
        if !scripts::built() {
            writeln!(f, "no scripts: crates/replay/out/replay is not built (rt run in crates/replay)")?;
        }
        writeln!(f, "{} scripts replayed, {} of them bad", self.good_scripts + self.bad_scripts, self.bad_scripts)?;
        self.parts.iter().zip(EDITIONS).try_for_each(|(part, edition)| {
            writeln!(
                f,
                "\nPairs of memories that show a partition B the same, edition {}: {}",
                edition.number,
                part.paired.text(edition)
            )
        })
    }
}
