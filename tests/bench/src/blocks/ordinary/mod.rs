//! The rules of docs/BLOCKS.md in ordinary Rust, written for speed and clarity and not proved: what the proved block kernel is measured beside.

mod cutting;
mod enabling;
mod format;
mod judge;
mod lending;
mod making;
mod memory;
mod moves;
mod partition;
mod refusal;
mod sizes;
mod slot;
mod structures;

pub use cutting::{cut, merge};
pub use enabling::{enable, find, read_enabled, Told};
pub use format::format;
pub use judge::is_sound;
pub use lending::{add, remove};
pub use making::{create, delete};
pub use memory::Memory;
pub use moves::{enter, leave};
pub use refusal::Answer;
pub use structures::{collect, prepare};
