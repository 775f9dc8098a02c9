//! Calls with any numbers as arguments: one beside those of a guided call, or in place of all.

use crate::both::Both;
use second::blocks::calls::CALLS;
use second::random::Random;
use std::collections::BTreeMap;

/// What is asked about at each place of each call. The last stands for all that is larger, too.
const EDGES: [u32; 5] = [0, 7, 8, 136, LARGE];
const LARGE: u32 = 1 << 31;

/// Any number, often one of the edges.
fn any(random: &mut Random) -> u32 {
    let (number, shift) = (random.draw() as u32, random.below(32));
    match random.below(5) {
        0 => number,
        1 => number >> shift,
        2 => random.pick(&[u32::MAX, LARGE, LARGE - 1, 1 << 16]).unwrap_or(0),
        _ => random.pick(&EDGES).unwrap_or(0),
    }
}

/// A call with any numbers.
pub fn call(number: usize, random: &mut Random) -> Vec<u32> {
    std::iter::once(number as u32).chain((0..CALLS[number].1).map(|_| any(random))).collect()
}

/// The call with another number at one place, and one with any numbers at all, on copies of the memory.
pub fn compare(both: &mut Both, mem: &[u32], line: &[u32], random: &mut Random) -> Result<(), String> {
    let mut changed = line.to_vec();
    if line.len() > 1 {
        changed[1 + random.below(line.len() - 1)] = any(random);
    }
    for line in [changed, call(1 + random.below(CALLS.len() - 1), random)] {
        both.tally.any_numbers.count(&line);
        both.perform(&mut mem.to_vec(), &mut mem.to_vec(), &line).map_err(|text| format!("or any numbers: {text}"))?;
    }
    Ok(())
}

/// How often each edge stood at each place of each call: by call, place and edge.
#[derive(Default)]
pub struct AnyNumbers {
    calls: u64,
    edges: BTreeMap<(usize, usize, u32), u64>,
}

impl AnyNumbers {
    fn count(&mut self, line: &[u32]) {
        self.calls += 1;
        let edges = line.iter().map(|&number| number.min(LARGE)).enumerate().skip(1);
        for (place, edge) in edges.filter(|(_, edge)| EDGES.contains(edge)) {
            *self.edges.entry((line[0] as usize, place, edge)).or_default() += 1;
        }
    }

    pub fn add(&mut self, other: &AnyNumbers) {
        self.calls += other.calls;
        other.edges.iter().for_each(|(&key, count)| *self.edges.entry(key).or_default() += count);
    }

    pub fn calls(&self) -> u64 {
        self.calls
    }

    pub fn missing(&self) -> Vec<String> {
        let places =
            CALLS.iter().enumerate().flat_map(|(call, (_, count))| (1..=*count).map(move |place| (call, place)));
        let all = places.flat_map(|(call, place)| EDGES.map(|edge| (call, place, edge)));
        let missing = all.filter(|key| !self.edges.contains_key(key));
        missing.map(|(call, place, edge)| format!("{} with {edge} as argument {place}", CALLS[call].0)).collect()
    }
}
