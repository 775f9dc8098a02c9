//! The proved kernels measured beside ordinary Rust versions of the same rules: the page kernel, and in blocks the block kernel.

pub mod blocks;
pub mod builder;
pub mod call;
pub mod damaged;
pub mod kernel;
pub mod library;
pub mod measure;
pub mod ordinary;
pub mod painted;
pub mod patch;
pub mod program;
pub mod report;
pub mod scenario;
pub mod table;
