//! A function of the library called on a stack of its own, which is painted before and looked at after.

use std::arch::asm;

/// A function of the library, by its address.
pub type Function = unsafe extern "C" fn();

/// How many numbers are passed to it: six in registers, and the others on the stack. Those that it does not take are 0.
pub const ARGUMENTS: usize = 13;
const IN_REGISTERS: usize = 6;

/// How far down the stack is painted, in pairs of words; no call may come near its end.
const PAIRS: usize = 4096;
const PAINT: u64 = 0x5AA5_C33C_96E1_871E;

/// At a call the stack is at a multiple of 16 bytes.
#[derive(Clone, Copy)]
#[repr(align(16))]
struct Pair([u64; 2]);

pub struct Called {
    pub answer: u64,
    /// Bytes of stack that were written, from the return address on. What is kept free and never written at the far end is not seen.
    pub stack: usize,
}

/// Calls the function, for x86-64.
///
/// # Safety
///
/// These are arguments that the function may be called with.
pub unsafe fn call(function: Function, arguments: [usize; ARGUMENTS]) -> Called {
    let mut stack = vec![Pair([PAINT; 2]); PAIRS];
    let pair = |pair: &[usize]| Pair([pair[0] as u64, pair.get(1).map_or(0, |&second| second as u64)]);
    stack.extend(arguments[IN_REGISTERS..].chunks(2).map(pair));
    let [a, b, c, d, e, f, ..] = arguments;
    let answer;
    asm!(
        "xchg rsp, r12",
        "call r13",
        "mov rsp, r12",
        inout("r12") &raw mut stack[PAIRS] => _,
        in("r13") function,
        in("rdi") a,
        in("rsi") b,
        in("rdx") c,
        in("rcx") d,
        in("r8") e,
        in("r9") f,
        out("rax") answer,
        clobber_abi("C"),
    );
    let painted = stack[..PAIRS].iter().flat_map(|pair| pair.0).take_while(|&word| word == PAINT).count();
    assert!(painted > PAIRS, "a call needs more stack than is painted");
    Called { answer, stack: 8 * (2 * PAIRS - painted) }
}
