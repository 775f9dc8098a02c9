//! A safe interface to Tumashqin, a memory-partition kernel over lent memory of 32-bit words.
//!
//! Memory is parted into a tree of partitions, each lending pages to its children. The caller of every call is the current partition;
//! after [`Memory::format`] that is the root. Every call is a proved function of the library: on any words and any arguments it ends,
//! and has exactly its written effect and answer, or exactly the first [`Refusal`] in its order and no effect.
//!
//! ```
//! # fn main() -> Result<(), tumashqin::Refusal> {
//! use tumashqin::{Edition, Memory, Refusal, READ, WRITE};
//! let mut words = [0; 20 * tumashqin::PAGE_WORDS];
//! let mut memory = Memory::format(&mut words, Edition::Pages256)?;
//! memory.create_partition([256, 512, 768, 1024, 1280])?; // a child, named by its descriptor's address, 256
//! memory.store(1536, 1792)?; // three pages, chained, for its tables
//! memory.store(1792, 2048)?;
//! memory.prepare(256, 4096, 1536)?;
//! memory.add_vaddr(2304, 256, 4096, READ | WRITE)?; // page 2304 lent to it, at 4096 there
//! assert_eq!(memory.mapped_in_child(2304), Ok(256));
//! assert_eq!(memory.store(256, 1), Err(Refusal::Kernel)); // the child's descriptor is out of reach
//! # Ok(())
//! # }
//! ```
//!
//! [`block`] is the sister kernel for small controllers, over blocks of bytes.
#![deny(missing_docs)]

mod answer;
pub mod block;
mod context;
mod edition;
mod memory;
mod raw;
mod record;
mod refusal;

pub use context::{Context, CONTEXT_WORDS, INT_CTX, ISR_CTX, NOTIF_CHILD_CTX, NOTIF_PARENT_CTX, SLOTS_AT, SLOT_WORDS};
pub use edition::{Edition, PAGE_WORDS};
pub use memory::{verdict, Memory, EXECUTE, READ, WRITE};
pub use record::{read_record, record_begin, record_end, revision, Record, RECORD_BYTES, REVISION_BYTES};
pub use refusal::Refusal;
