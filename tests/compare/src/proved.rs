//! The proved kernel, by its C interface.

use compare::answers::unpacked;
use second::calls::{Answer, Said};
use second::contexts::CONTEXT_WORDS;
use tumashqin::{Edition, Memory, Refusal};

extern "C" {
    fn tumashqin_format(words: *mut u32, length: usize, edition: u32) -> u32;
    fn tumashqin_notify(
        words: *mut u32,
        length: usize,
        target: u32,
        eip: u32,
        eflags: u32,
        r0: u32,
        r1: u32,
        r2: u32,
        r3: u32,
        r4: u32,
        r5: u32,
        r6: u32,
        r7: u32,
    ) -> u64;
    fn tumashqin_dispatch(words: *mut u32, length: usize, target: u32) -> u64;
    fn tumashqin_resume(
        words: *mut u32,
        length: usize,
        target: u32,
        slot: u32,
        out: *mut u32,
        out_length: usize,
    ) -> u64;
}

fn format(words: &mut [u32], edition: u32) -> Answer {
    let edition = match edition {
        0 => Edition::Pages256,
        1 => Edition::Pages4096,
        _ => {
            // The binding has no such edition. The words' own pointer and length: the library asks no more.
            let refusal = unsafe { tumashqin_format(words.as_mut_ptr(), words.len(), edition) };
            return if refusal == 0 { Ok(0) } else { Err(refusal) };
        }
    };
    Memory::format(words, edition).map(|_| 0).map_err(Refusal::number)
}

fn notify(words: &mut [u32], target: u32, eip: u32, eflags: u32, r: &[u32; 8]) -> Answer {
    let (start, length) = (words.as_mut_ptr(), words.len());
    // The words' own pointer and length, as for the other two.
    unpacked(unsafe {
        tumashqin_notify(start, length, target, eip, eflags, r[0], r[1], r[2], r[3], r[4], r[5], r[6], r[7])
    })
}

fn dispatch(words: &mut [u32], target: u32) -> Answer {
    unpacked(unsafe { tumashqin_dispatch(words.as_mut_ptr(), words.len(), target) })
}

/// Of the buffer the first so many words are lent for the context.
pub fn resume(words: &mut [u32], target: u32, slot: u32, out: &mut [u32], length: usize) -> Answer {
    assert!(length <= out.len());
    unpacked(unsafe { tumashqin_resume(words.as_mut_ptr(), words.len(), target, slot, out.as_mut_ptr(), length) })
}

/// Performs a call by its number, 0 for format.
pub fn call(words: &mut [u32], line: &[u32]) -> Said {
    if let [15, target, slot] = *line {
        let mut out = [0xA5A5_A5A5; CONTEXT_WORDS];
        let answer = resume(words, target, slot, &mut out, CONTEXT_WORDS);
        return Said { answer, context: Some(out) };
    }
    call_but_resume(words, line).into()
}

fn call_but_resume(words: &mut [u32], line: &[u32]) -> Answer {
    match *line {
        [0, edition] => return format(words, edition),
        [13, target, eip, eflags, ref registers @ ..] => {
            let registers = registers.try_into().unwrap_or_else(|_| unreachable!("eight registers: {line:?}"));
            return notify(words, target, eip, eflags, registers);
        }
        [14, target] => return dispatch(words, target),
        _ => (),
    }
    let mut memory = Memory::over(words);
    let answer = match *line {
        [1, a, b, c, d, e] => memory.create_partition([a, b, c, d, e]),
        [2, child] => memory.delete_partition(child),
        [3, page, child, target, rights] => memory.add_vaddr(page, child, target, rights),
        [4, child, target] => memory.remove_vaddr(child, target),
        [5, child, target] => memory.page_count(child, target),
        [6, child, target, first] => memory.prepare(child, target, first),
        [7, child, target] => memory.collect(child, target),
        [8, page] => memory.mapped_in_child(page),
        [9, child] => memory.enter(child),
        [10] => memory.leave(),
        [11, address] => memory.load(address),
        [12, address, word] => memory.store(address, word),
        _ => unreachable!("no such call: {line:?}"),
    };
    answer.map_err(Refusal::number)
}

pub fn verdict(words: &[u32]) -> Answer {
    tumashqin::verdict(words).map(|()| 0).map_err(Refusal::number)
}

pub fn write_record(words: &mut [u32], revision: &[u8], out: &mut [u8]) -> Answer {
    Memory::over(words).write_record(revision, out).map(|()| 0).map_err(Refusal::number)
}
