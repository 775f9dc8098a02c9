//! A second, independent kernel of blocks for comparison: the rules of docs/BLOCKS.md, written from that paper alone and not proved.

pub mod bytes;
pub mod calls;
pub mod cover;
pub mod damage;
pub mod geometry;
pub mod make;
pub mod memory;
pub mod refusal;
pub mod runs;
pub mod sound;
pub mod wrong;
