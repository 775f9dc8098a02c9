//! Why a call was refused.
use crate::answer::refusals;

/// Why a call was refused, by the names of docs/BLOCKS.md. A call gives the first that applies, in its order.
#[derive(Clone, Copy, Debug, PartialEq, Eq, Hash)]
#[repr(u32)]
pub enum Refusal {
    /// Memory not sound.
    Damaged = 1,
    /// A child argument isn't the number of a block of the caller that a child's descriptor stands in; a partition argument neither that nor 0.
    Child,
    /// The number names no block of the pool, or one that isn't in hand. Remove, first place: no block of the caller, or one not lent to that child; second
    /// place: its first piece isn't in the child's hand.
    Block,
    /// Rights has a bit that the block's rights have not, as every number above 7 has.
    Rights,
    /// The address is outside the block or leaves less than 32 bytes below or above it.
    Piece,
    /// Neither block is the other's next piece.
    Apart,
    /// The child has cut the block and not merged it: the first piece doesn't end where the block ends.
    Unmerged,
    /// No free slot in the child (add), in the caller (cut).
    Slot,
    /// No room in the block for 32 words (create), 74 words (prepare), or the partition has 16 structures.
    Structure,
    /// No entry is the block and none is free.
    Enabled,
    /// No structure of the partition has eight free slots.
    Empty,
    /// Root leaves.
    Root,
    /// Format: the length isn't that of a whole number of KiB from 16 to 64.
    Length,
}

use Refusal::*;

impl Refusal {
    /// Every refusal, in the order of their numbers.
    pub const ALL: [Refusal; 13] =
        [Damaged, Child, Block, Rights, Piece, Apart, Unmerged, Slot, Structure, Enabled, Empty, Root, Length];

    /// A short message.
    pub fn message(self) -> &'static str {
        match self {
            Damaged => "memory not sound",
            Child => "no such child",
            Block => "no such block, or not in hand",
            Rights => "a right that the block has not",
            Piece => "no place to cut the block",
            Apart => "not two pieces side by side",
            Unmerged => "the child has cut the block and not merged it",
            Slot => "no free slot",
            Structure => "no room for the record, or sixteen structures",
            Enabled => "eight blocks are enabled already",
            Empty => "no empty structure",
            Root => "the root has no parent",
            Length => "length is not that of 16 to 64 KiB",
        }
    }
}

refusals!(Refusal);
