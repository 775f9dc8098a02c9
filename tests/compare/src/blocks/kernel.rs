//! What is held to the second program: the proved kernel, or in tests a program that is wrong in one thing.

use second::blocks::calls::{Answer, Said};

/// Performs a call: its number and its arguments.
pub type Call<'a> = &'a dyn Fn(&mut [u32], &[u32]) -> Said;
/// Performs read enabled or find, with the first so many words of a buffer lent for the six.
pub type Tell<'a> = &'a dyn Fn(&[u32], &[u32], &mut [u32], usize) -> Answer;
pub type Verdict<'a> = &'a dyn Fn(&[u32]) -> Answer;

#[derive(Clone, Copy)]
pub struct Kernel<'a> {
    pub call: Call<'a>,
    pub tell: Tell<'a>,
    pub verdict: Verdict<'a>,
}
