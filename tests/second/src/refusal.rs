//! The numbers the kernel refuses with.

pub const DAMAGED: u32 = 1;
pub const SIZE: u32 = 2;
pub const ADDRESS: u32 = 3;
pub const TWICE: u32 = 4;
pub const CHILD: u32 = 5;
pub const RIGHTS: u32 = 6;
pub const HAND: u32 = 7;
pub const TABLE: u32 = 8;
pub const TAKEN: u32 = 9;
pub const LIST: u32 = 10;
pub const CHAIN: u32 = 11;
pub const FULL_TABLE: u32 = 12;
pub const DEPTH: u32 = 13;
pub const ROOT: u32 = 14;
pub const UNMAPPED: u32 = 15;
pub const KERNEL: u32 = 16;
pub const SHORT: u32 = 17;
pub const MAGIC: u32 = 18;
pub const SLOT_PAGE: u32 = 20;
pub const SLOT: u32 = 21;
pub const EMPTY_SLOT: u32 = 22;
pub const EDITION: u32 = 24;
