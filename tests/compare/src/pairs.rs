//! Pairs of memories that show a partition B the same, and the same calls in both (document 02, L11). The answers are equal, and so are the words that
//! are shown, after each call. Each of the two runs is held to the second program as well.

use crate::both::{same, shown};
use crate::pair_ways::{Call, Two};
use crate::paired::Met;
use crate::tally::Tally;
use second::calls::{self, Said};
use second::cover::ROWS;
use second::geometry::{Edition, PPage, MOST_DEPTH, SMALL};
use second::make::Work;
use second::memory::{word, Partition, HEADER, IS_CHILD};
use second::neighbours::{alike, differences, first_difference, Around};
use second::pairs::{calls_within, enter_any, grown, Kind, KINDS};
use second::random::Random;
use second::refusal::DAMAGED;
use second::sound::sound;

/// What performs a call.
pub type Kernel = fn(&mut [u32], &[u32]) -> Said;

/// The kernel that is tried, and the one that it is held to.
pub type Kernels = [Kernel; 2];

/// The second program.
pub fn second_program(words: &mut [u32], line: &[u32]) -> Said {
    calls::perform(words, line[0], &line[1..]).unwrap_or_else(|| unreachable!("no such call: {line:?}"))
}

/// A memory by guided calls, a pair of each kind from it, and the same calls in both of each.
pub fn compare(
    edition: Edition,
    turn: usize,
    kernels: Kernels,
    random: &mut Random,
    tally: &mut Tally,
) -> Result<(), String> {
    let depth = 1 + turn % MOST_DEPTH;
    // Eight pages for each level, some that stay behind, and with small pages more tables.
    let pages = 40 + depth * if edition == SMALL { 18 } else { 13 } + random.below(30);
    let mem = grown(edition, pages, depth, random);
    for kind in KINDS {
        let mut mem = mem.clone();
        if random.once_in(4) {
            enter_any(&mut mem, random);
        }
        let pair = kind.pair(&mem, random);
        let works = works(random);
        let mut after = pair[0].clone();
        let mut lines = calls_within(&mut after, random, &works);
        lines.extend(last(&after, random));
        run(kind, pair, &lines, kernels, tally)
            .map_err(|text| format!("then a pair of {pages} pages that differ by {kind:?}: {text}"))?;
    }
    Ok(())
}

/// Few calls, and at times a longer work before them.
fn works(random: &mut Random) -> Vec<Work> {
    let first = [Work::Fill, Work::Dig, Work::Descend, Work::Descend, Work::Lend, Work::Lend, Work::Calls(60)];
    let first = random.pick(&first).filter(|_| !random.once_in(3));
    let talk = random.pick(&[Work::Talk]).filter(|_| random.once_in(2));
    first.into_iter().chain(talk).chain([Work::Calls(12)]).collect()
}

/// What leads to B's parent or to the root, from B or from a child of it. B's leave is the last; the root's is refused.
fn last(mem: &[u32], random: &mut Random) -> Vec<Vec<u32>> {
    let own = Partition::current(mem);
    let children = own.mappings(mem).map(|(v, _)| v).filter(|&v| own.shadow1(mem, v) == IS_CHILD);
    let children: Vec<_> = children.map(|v| v.address(Edition::of(mem))).collect();
    let first = match (random.below(8), random.pick(&children)) {
        (0, _) => vec![vec![14, 0]],
        (1, _) => vec![[13, 0].into_iter().chain(21..=30).collect()],
        (2 | 3, _) => vec![vec![15, 0, 2]],
        (4, Some(child)) => vec![vec![9, child], vec![15, 0, 2], vec![10]],
        _ => Vec::new(),
    };
    first.into_iter().chain([vec![10]]).collect()
}

/// Runs the calls in both memories, up to the one by which B is left.
fn run(kind: Kind, pair: [Vec<u32>; 2], lines: &[Vec<u32>], kernels: Kernels, tally: &mut Tally) -> Result<(), String> {
    let mut run = Run::of(kind, pair, kernels)?;
    for (index, line) in lines.iter().enumerate() {
        let left = run.perform(line, tally).map_err(|text| {
            let name = ROWS[line[0] as usize].0;
            format!("call {index} of B or below: {name} {:?}\n{text}", &line[1..])
        })?;
        if left {
            break;
        }
    }
    for mem in &run.tried {
        sound(mem).map_err(|sentence| format!("the end breaks sentence {sentence}"))?;
    }
    let mut met = run.met;
    met.end(differences(&run.tried[0], &run.tried[1], &run.shown, false).count());
    tally.of(&run.tried[0]).paired.count(&met);
    Ok(())
}

struct Run {
    kernels: Kernels,
    /// B's descriptor.
    own: PPage,
    /// The pages that are shown to B: no call of a run changes which these are.
    shown: Vec<bool>,
    /// The two memories, by the kernel that is tried and by the other.
    tried: [Vec<u32>; 2],
    held_to: [Vec<u32>; 2],
    around: [Around; 2],
    met: Met,
}

impl Run {
    /// The premises hold of the pair.
    fn of(kind: Kind, pair: [Vec<u32>; 2], kernels: Kernels) -> Result<Run, String> {
        let [one, other] = &pair;
        let around = alike(one, other).map_err(|premise| format!("the pair fails this: {premise}"))?;
        let (own, shown) = (around.own().partition.descriptor, around.shown.clone());
        let around = [around, Around::of(other, own).ok_or("B is not there")?];
        let words = differences(one, other, &shown, false).count();
        let met = Met::of(kind, words, &Two { mem: [one, other], around: [&around[0], &around[1]] });
        Ok(Run { kernels, own, shown, tried: pair.clone(), held_to: pair, around, met })
    }

    /// Performs a call in both memories; whether B is left by it in one of them, which ends what is claimed.
    fn perform(&mut self, line: &[u32], tally: &mut Tally) -> Result<bool, String> {
        let [tried, held_to] = self.kernels;
        let said = [0, 1].map(|k| tried(&mut self.tried[k], line));
        let leaves = [0, 1].map(|k| !self.around[k].is_current(&self.tried[k]));
        let [before, after] = [&self.held_to, &self.tried].map(|mem| [&mem[0][..], &mem[1][..]]);
        let around = [&self.around[0], &self.around[1]];
        let answers = said.map(|said| said.answer);
        let call = Call { line, answers, before: Two { mem: before, around }, after, leaves };
        // The one call of B that depends on what B is not shown; by every other B is left in both or in neither.
        if !call.own_resume() || leaves == [false; 2] {
            self.equal(said)?;
        }
        self.met.call(&call);
        for k in [0, 1] {
            tally.called(&self.held_to[k], line, said[k].answer);
            let expected = held_to(&mut self.held_to[k], line);
            let which = ["first", "second"][k];
            same(&self.tried[k], &self.held_to[k], said[k], expected)
                .map_err(|text| format!("  {which} memory\n{text}"))?;
            if expected.answer == Err(DAMAGED) {
                return Err(format!("  the call before left the {which} memory damaged"));
            }
            self.around[k] = Around::of(&self.tried[k], self.own).ok_or("  B is gone")?;
            if self.around[k].shown != self.shown {
                return Err(format!("  other pages are shown in the {which} memory"));
            }
            let leads_up = line == [10] || matches!(line, [13..=15, 0, ..]);
            if leaves[k] && !(leads_up && said[k].answer.is_ok()) {
                return Err(format!("  B is left by a call that does not say so in the {which} memory"));
            }
        }
        Ok(leaves.contains(&true))
    }

    /// The two runs of the kernel that is tried: the answers are equal, every word of the header, and every word that is shown.
    fn equal(&self, said: [Said; 2]) -> Result<(), String> {
        let [one, other] = &self.tried;
        if said[0] != said[1] {
            return Err(format!("  THE RUNS DIFFER in the answer: {} and {}", shown(said[0]), shown(said[1])));
        }
        let words = Edition::of(one).page_words();
        let header = (0..words).find(|&index| word(one, HEADER, index) != word(other, HEADER, index));
        match header.or_else(|| first_difference(one, other, &self.shown, true)) {
            None => Ok(()),
            Some(i) => Err(format!(
                "  THE RUNS DIFFER in word {i} (page {}, word {}): {:#x} and {:#x}",
                i / words,
                i % words,
                one[i],
                other[i]
            )),
        }
    }
}
