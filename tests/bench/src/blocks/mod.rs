//! The block kernel, measured as the page kernel is.

pub mod builder;
pub mod call;
pub mod damaged;
pub mod library;
pub mod ordinary;
pub mod report;
pub mod scenario;
