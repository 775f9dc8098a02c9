//! A second, independent kernel for comparison. It is written from the paper's rules and not proved.

pub mod blocks;
pub mod calls;
pub mod contexts;
pub mod cover;
pub mod damage;
pub mod geometry;
pub mod make;
pub mod memory;
pub mod neighbours;
pub mod pairs;
pub mod places;
pub mod random;
pub mod record;
pub mod refusal;
pub mod replay;
pub mod sound;
pub mod tree;
pub mod words;
