//! Why a call was refused.
use crate::answer::refusals;

/// Why a call was refused, by the names of documents 01 and 02. A call gives the first that applies, in its order. None has number 19 or 23.
#[derive(Clone, Copy, Debug, PartialEq, Eq, Hash)]
#[repr(u32)]
pub enum Refusal {
    /// Memory not sound.
    Damaged = 1,
    /// Format: length isn't 64N with N 16 to 256.
    Size,
    /// An address argument ≥ 2^20, on page 0, or not a multiple of 256 (load, store: of 4). A target 0 is the parent.
    Address,
    /// Two of the five equal.
    Twice,
    /// The caller's shadow 1 word there isn't 1: no child's descriptor.
    Child,
    /// Write and execute together or a number above 7 (add_vaddr), or right not held.
    Rights,
    /// Page not in the caller's hand (remove_vaddr: not in the child's).
    Hand,
    /// The child has no three for target.
    Table,
    /// Target mapped, or its three exists (prepare).
    Taken,
    /// Three absent and 10 threes exist.
    List,
    /// A link is an address that `Address` would refuse (0 too) or repeats a page, or the chain is too long.
    Chain,
    /// Page table has a mapping.
    FullTable,
    /// Caller is 8 below the root.
    Depth,
    /// Root leaves, or names its parent as a target.
    Root,
    /// No mapping there.
    Unmapped,
    /// Mapped, not accessible (mapped_in_child: and not lent).
    Kernel,
    /// Record or revision buffer too short.
    Short,
    /// Record's magic wrong, or begin above end.
    Magic,
    /// The slot page isn't in its partition's hand with read and write.
    SlotPage = 20,
    /// A slot number above 3, or a slot of the parent's that a child may not resume.
    Slot,
    /// The child's slot isn't valid.
    EmptySlot,
    /// The call isn't there with pages of 4,096 bytes.
    Edition = 24,
}

use Refusal::*;

impl Refusal {
    /// Every refusal, in the order of their numbers.
    pub const ALL: [Refusal; 22] = [
        Damaged, Size, Address, Twice, Child, Rights, Hand, Table, Taken, List, Chain, FullTable, Depth, Root,
        Unmapped, Kernel, Short, Magic, SlotPage, Slot, EmptySlot, Edition,
    ];

    /// A short message.
    pub fn message(self) -> &'static str {
        match self {
            Damaged => "memory not sound",
            Size => "length is not that of 16 to 256 pages",
            Address => "bad address",
            Twice => "two of the five addresses are equal",
            Child => "no child there",
            Rights => "a right that is not held, no such right, or write and execute together",
            Hand => "page not in hand",
            Table => "no tables for the target",
            Taken => "target taken",
            List => "ten threes of tables exist already",
            Chain => "bad chain of pages",
            FullTable => "page table has a mapping",
            Depth => "too deep below the root",
            Root => "the root has no parent",
            Unmapped => "no mapping there",
            Kernel => "page not accessible",
            Short => "buffer too short",
            Magic => "not a record",
            SlotPage => "slot page not in hand, or not to be read and written",
            Slot => "no such slot, or not one that the caller may resume",
            EmptySlot => "no context in the slot",
            Edition => "not with pages of 4,096 bytes",
        }
    }
}

refusals!(Refusal);
