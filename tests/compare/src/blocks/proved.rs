//! The proved kernel, by its C interface.

use crate::kernel::Kernel;
use compare::answers::unpacked;
use second::blocks::calls::{Answer, Said};
use std::ptr;
use tumashqin::block::{self, Block, Memory, Refusal};

pub const KERNEL: Kernel = Kernel { call: &call, tell: &tell, verdict: &verdict };

extern "C" {
    fn tumashqin_block_read_enabled(
        words: *const u32,
        length: usize,
        partition: u32,
        entry: u32,
        out: *mut u32,
        out_length: usize,
    ) -> u64;
    fn tumashqin_block_find(
        words: *const u32,
        length: usize,
        partition: u32,
        address: u32,
        out: *mut u32,
        out_length: usize,
    ) -> u64;
}

fn call(words: &mut [u32], line: &[u32]) -> Said {
    match *line {
        [10, partition, entry] => told(Memory::over(words).read_enabled(partition, entry)),
        [11, partition, address] => told(Memory::over(words).find(partition, address)),
        _ => Said { answer: untold(words, line).map_err(Refusal::number), told: None },
    }
}

/// Where there is no block the binding has no words; that the library writes zeros is compared with lent words.
fn told(found: Result<Option<Block>, Refusal>) -> Said {
    let words = found.ok().flatten().map_or([0; 6], |block| {
        let Block { number, start, end, rights, usage, child } = block;
        [number, start, end, rights, usage, child]
    });
    Said { answer: found.map(|block| u32::from(block.is_some())).map_err(Refusal::number), told: Some(words) }
}

/// The calls that tell no block.
fn untold(words: &mut [u32], line: &[u32]) -> Result<u32, Refusal> {
    if let [0] = *line {
        return Memory::format(words).map(|_| 0);
    }
    let mut memory = Memory::over(words);
    match *line {
        [1, block] => memory.create(block),
        [2, child] => memory.delete(child),
        [3, partition, block] => memory.prepare(partition, block),
        [4, partition] => memory.collect(partition),
        [5, child, block, rights] => memory.add(child, block, rights),
        [6, child, block] => memory.remove(child, block),
        [7, block, address] => memory.cut(block, address),
        [8, first, second] => memory.merge(first, second),
        [9, partition, block, on] => memory.enable(partition, block, on),
        [12, child] => memory.enter(child),
        [13] => memory.leave(),
        _ => unreachable!("no such call: {line:?}"),
    }
}

/// Where no words are lent the pointer is null.
fn tell(words: &[u32], line: &[u32], out: &mut [u32], length: usize) -> Answer {
    assert!(length <= out.len());
    let lent = if length == 0 { ptr::null_mut() } else { out.as_mut_ptr() };
    let (start, all) = (words.as_ptr(), words.len());
    // The words' own pointer and length, and no more of the buffer than it has.
    unpacked(match *line {
        [10, partition, entry] => unsafe { tumashqin_block_read_enabled(start, all, partition, entry, lent, length) },
        [11, partition, address] => unsafe { tumashqin_block_find(start, all, partition, address, lent, length) },
        _ => unreachable!("no call that tells a block: {line:?}"),
    })
}

fn verdict(words: &[u32]) -> Answer {
    block::verdict(words).map(|()| 0).map_err(Refusal::number)
}
