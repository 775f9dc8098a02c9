//! The block kernel, for small controllers: memory of 16 to 64 KiB, parted into blocks, which are runs of bytes.
//!
//! A partition has blocks in its pool, cuts and merges them, lends them to its children, and gives some to the kernel for descriptors and structures. A block
//! has a number in its pool, 8 to 135, and a child is named by the number of the block that its descriptor stands in. The caller of every call is the current
//! partition; after [`Memory::format`] that is the root. Every call is a proved function of the library: on any words and any arguments it ends, and has
//! exactly its written effect and answer, or exactly the first [`Refusal`] in its order and no effect. The rules are docs/BLOCKS.md.
//!
//! ```
//! # fn main() -> Result<(), tumashqin::block::Refusal> {
//! use tumashqin::block::{Block, Memory, Refusal, IN_HAND, KIB_WORDS};
//! use tumashqin::{READ, WRITE};
//! let mut words = [0; 16 * KIB_WORDS];
//! let mut memory = Memory::format(&mut words)?; // the root has block 8
//! let second = memory.cut(8, 1096)?;
//! memory.create(8)?; // a child, named by the block that it stands in, 8
//! let third = memory.cut(second, 1392)?;
//! memory.prepare(8, second)?; // room for eight blocks of the child
//! memory.add(8, third, READ | WRITE)?; // the third block lent to it: block 8 there
//! assert_eq!(memory.create(third), Err(Refusal::Block)); // it is out of the root's hand
//! memory.enter(8)?;
//! let lent = Block { number: 8, start: 1392, end: 16384, rights: READ | WRITE, usage: IN_HAND, child: 0 };
//! assert_eq!(memory.find(0, 2000), Ok(Some(lent)));
//! # Ok(())
//! # }
//! ```
mod memory;
mod raw;
mod refusal;
mod told;

pub use memory::{verdict, Memory, KIB_WORDS};
pub use refusal::Refusal;
pub use told::{Block, HAS_DESCRIPTOR, HAS_STRUCTURE, IN_HAND, LENT, TOLD_WORDS};
