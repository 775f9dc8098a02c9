//! The rules of documents 01 and 02 in ordinary Rust, written for speed and clarity and not proved: what the proved kernel is measured beside.

mod access;
mod address;
mod contexts;
mod format;
mod judge;
mod lending;
mod making;
mod memory;
mod moves;
mod partition;
mod refusal;
mod threes;

pub use access::{enter, leave, load, store};
pub use contexts::{dispatch, notify, resume, Context, CONTEXT_WORDS};
pub use format::format;
pub use lending::{add_vaddr, mapped_in_child, remove_vaddr};
pub use making::{create_partition, delete_partition};
pub use memory::{Memory, Pages};
pub use refusal::{require, Answer};
pub use threes::{collect, page_count, prepare};
