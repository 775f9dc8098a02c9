//! The wrong programs that docs/BLOCKS.md names, but for the one that counts wrongly. Each does and answers what the second program does, and is wrong in one
//! thing.

use super::calls::{end_partitions, join, perform, withdraw, Said};
use super::geometry::ENTRIES;
use super::memory::*;
use super::refusal::*;

/// The second program itself: a call by its number and its arguments.
pub fn call(mem: &mut [u32], line: &[u32]) -> Said {
    perform(mem, line[0], &line[1..]).unwrap_or_else(|| unreachable!("no such call: {line:?}"))
}

/// Merges whatever adjoins.
pub fn merges_what_adjoins(mem: &mut [u32], line: &[u32]) -> Said {
    let (here, said) = (Partition::current(mem), call(mem, line));
    let (&[8, one, other], Err(APART)) = (line, said.answer) else { return said };
    let (one, other) = (here.slot(one), here.slot(other));
    let two = [(one, other), (other, one)].into_iter().find(|(lower, higher)| lower.end == higher.start);
    let Some((lower, higher)) = two else { return said };
    join(mem, &here, &lower, &higher);
    Said { answer: Ok(lower.number), ..said }
}

/// Lets a remove pass where the first piece is in hand and a later one is lent on.
pub fn removes_what_is_lent_on(mem: &mut [u32], line: &[u32]) -> Said {
    let (here, said) = (Partition::current(mem), call(mem, line));
    let (&[6, number, block], Err(UNMERGED)) = (line, said.answer) else { return said };
    let (child, block) = (Partition::read(mem, here.slot(number).place()), here.slot(block));
    let first = child.slot(block.link);
    let lent_on = child.blocks().any(|piece| piece.source == block.number && piece.usage == LENT);
    if !first.in_hand() || !lent_on {
        return said;
    }
    withdraw(mem, &child, &first, &block);
    Said { answer: Ok(0), ..said }
}

/// Leaves the descendants of a deleted child in the table.
pub fn leaves_descendants(mem: &mut [u32], line: &[u32]) -> Said {
    let (here, before, said) = (Partition::current(mem), mem.to_vec(), call(mem, line));
    if let (&[2, number], Ok(_)) = (line, said.answer) {
        mem.copy_from_slice(&before);
        let child = Partition::read(&before, here.slot(number).place());
        end_partitions(mem, &here, number, &[child]);
    }
    said
}

/// Keeps a lent block enabled in the lender.
pub fn keeps_lent_enabled(mem: &mut [u32], line: &[u32]) -> Said {
    let (here, before, said) = (Partition::current(mem), mem.to_vec(), call(mem, line));
    if let ([5, ..], Ok(_)) = (line, said.answer) {
        let entries = here.at + BEFORE_ENTRIES + 1..here.at + BEFORE_ENTRIES + 1 + ENTRIES;
        mem[entries.clone()].copy_from_slice(&before[entries]);
    }
    said
}
