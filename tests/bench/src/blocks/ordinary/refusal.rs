//! The numbers the block kernel refuses with.

pub use crate::ordinary::{require, Answer};

pub const DAMAGED: u32 = 1;
pub const CHILD: u32 = 2;
pub const BLOCK: u32 = 3;
pub const RIGHTS: u32 = 4;
pub const PIECE: u32 = 5;
pub const APART: u32 = 6;
pub const UNMERGED: u32 = 7;
pub const SLOT: u32 = 8;
pub const STRUCTURE: u32 = 9;
pub const ENABLED: u32 = 10;
pub const EMPTY: u32 = 11;
pub const ROOT: u32 = 12;
pub const LENGTH: u32 = 13;
