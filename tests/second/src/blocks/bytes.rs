//! What every sequence of calls owes (docs/BLOCKS.md, "What every answer owes", 3), asked the plain way: byte by byte, and by search.

use super::calls::Answer;
use super::geometry::*;
use super::memory::*;
use super::refusal::{DAMAGED, LENGTH};
use super::sound::broken;

/// How many blocks hold a byte: in hand, and with use 3 or 4.
#[derive(Clone, Copy, Default)]
struct Holders {
    hand: u16,
    kernel: u16,
}

/// In hand, and kernel: they add to F.
#[derive(Clone, Copy, PartialEq, Eq, Debug)]
pub struct Counts {
    pub hand: u64,
    pub kernel: u64,
}

/// What the facts are asked of: the partitions of a memory of permitted length that is sound.
struct Asked {
    geometry: Geometry,
    partitions: Vec<Partition>,
}

/// What has to hold after a call, given the memory before it; else the fact that doesn't.
pub fn check(before: &[u32], number: u32, answer: Answer, after: &[u32]) -> Result<(), String> {
    let unchanged = before == after;
    require(answer.is_ok() || unchanged, "a refusal changes nothing")?;
    if Geometry::of_length(before.len()).is_some() {
        return facts(after).map(|_| ());
    }
    let refusal = if number == 0 { LENGTH } else { DAMAGED };
    require(answer == Err(refusal) && unchanged, "a length that isn't permitted is refused")
}

/// Soundness and all facts of one memory.
pub fn facts(mem: &[u32]) -> Result<Counts, String> {
    let sentences = broken(mem);
    require(sentences.is_empty(), &format!("memory is sound; broken: {sentences:?}"))?;
    let geometry = Geometry::of_length(mem.len()).ok_or("the length is permitted")?;
    let asked = Asked { geometry, partitions: partitions(mem) };
    let holders = asked.holders();
    let (own, start) = holders.split_at(geometry.first_byte as usize);
    require(start.iter().all(|byte| byte.hand + byte.kernel == 1), "each byte of the starting block is in one block")?;
    require(own.iter().all(|byte| byte.hand == 0), "no byte of the kernel's own part is in hand")?;
    require(start.iter().all(|byte| byte.hand == 0 || byte.kernel == 0), "no kernel byte is in hand")?;
    require(asked.lie_in_lent(), "each block lies in a lent one and has no right more")?;
    require(asked.siblings_apart(), "two children share no byte")?;
    require(asked.enabled_in_hand(), "what is enabled is in hand, eight blocks at most")?;
    let counts = counts(mem, |block| block.bytes());
    let sum = counts.hand + counts.kernel;
    require(sum == u64::from(geometry.free()), &format!("in hand + kernel = F; {counts:?}"))?;
    Ok(counts)
}

fn require(holds: bool, fact: &str) -> Result<(), String> {
    holds.then_some(()).ok_or_else(|| fact.to_string())
}

/// The two counts, with so many bytes for the block of a structure.
pub fn counts(mem: &[u32], structure_bytes: impl Fn(&Slot) -> u32) -> Counts {
    let partitions = partitions(mem);
    let all = || partitions.iter().flat_map(Partition::blocks);
    let hand = all().filter(|block| block.in_hand()).map(|block| u64::from(block.bytes())).sum();
    // The block that something stands in is searched for. The root and its first structure stand in none.
    let standing = |usage: u32, at: usize| all().find(|block| block.usage == usage && block.place() == at);
    let descriptors = partitions.iter().filter_map(|one| standing(HAS_DESCRIPTOR, one.at)).map(Slot::bytes);
    let structures = partitions.iter().flat_map(|one| &one.structures);
    let structures = structures.filter_map(|one| standing(HAS_STRUCTURE, one.at)).map(structure_bytes);
    Counts { hand, kernel: descriptors.chain(structures).map(u64::from).sum() }
}

impl Asked {
    fn children(&self) -> impl Iterator<Item = (&Partition, &Partition)> {
        self.partitions.iter().filter_map(|one| Some((one, self.partitions.iter().find(|p| p.at == one.parent)?)))
    }

    /// For every byte of the memory.
    fn holders(&self) -> Vec<Holders> {
        let mut holders = vec![Holders::default(); self.geometry.end() as usize];
        for block in self.partitions.iter().flat_map(Partition::blocks).filter(|block| block.usage != LENT) {
            for byte in &mut holders[block.start as usize..block.end as usize] {
                *(if block.in_hand() { &mut byte.hand } else { &mut byte.kernel }) += 1;
            }
        }
        holders
    }

    fn lie_in_lent(&self) -> bool {
        let lies_in = |block: &Slot, lent: &Slot| {
            lent.start <= block.start && block.end <= lent.end && block.rights & !lent.rights == 0
        };
        let all_backed = self.children().all(|(child, parent)| {
            let lent: Vec<_> = parent.blocks().filter(|block| block.lent_to(child.number)).collect();
            child.blocks().all(|block| lent.iter().any(|lent| lies_in(block, lent)))
        });
        all_backed && self.children().count() + 1 == self.partitions.len()
    }

    fn siblings_apart(&self) -> bool {
        self.partitions.iter().all(|parent| {
            let mut child_of_byte = vec![0; self.geometry.end() as usize];
            let children = self.children().filter(|(_, above)| above.at == parent.at);
            children.into_iter().all(|(child, _)| {
                child.blocks().all(|block| {
                    let bytes = &mut child_of_byte[block.start as usize..block.end as usize];
                    let apart = bytes.iter().all(|&other| other == 0 || other == child.at);
                    bytes.fill(child.at);
                    apart
                })
            })
        })
    }

    fn enabled_in_hand(&self) -> bool {
        self.partitions.iter().all(|one| {
            let enabled: Vec<_> = one.entries.iter().filter(|&&entry| entry != 0).collect();
            enabled.iter().all(|&&number| one.hand(number).is_some()) && enabled.len() <= ENTRIES
        })
    }
}
