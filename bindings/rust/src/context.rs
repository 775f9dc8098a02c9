//! Saved contexts: what a slot holds, and the three calls that save and take it.
use crate::answer::answered;
use crate::memory::Memory;
use crate::raw;
use crate::refusal::Refusal;

/// Words of a context.
pub const CONTEXT_WORDS: usize = 11;
/// Words of a slot: a context's, then valid (1 where there is a context; any other word means none), then four that stay.
pub const SLOT_WORDS: usize = 16;
/// Where a partition has its slot page. The root's is its last page: at the start-up record's end less 256.
pub const SLOTS_AT: u32 = 0xFFF00;

/// The slot of a partition that was interrupted.
pub const INT_CTX: u32 = 0;
/// The slot of a partition that had a fault.
pub const ISR_CTX: u32 = 1;
/// The slot of a partition that notified a child.
pub const NOTIF_CHILD_CTX: u32 = 2;
/// The slot of a partition that notified its parent.
pub const NOTIF_PARENT_CTX: u32 = 3;

/// A context, in the order of a slot's words.
#[derive(Clone, Copy, Debug, Default, PartialEq, Eq)]
pub struct Context {
    /// Instruction pointer.
    pub eip: u32,
    /// The flags of the partition: bit 0 is its live flag (vcli).
    pub pipflags: u32,
    /// The processor's flags.
    pub eflags: u32,
    /// The general registers.
    pub registers: [u32; 8],
}

impl From<[u32; CONTEXT_WORDS]> for Context {
    fn from(words: [u32; CONTEXT_WORDS]) -> Context {
        let [eip, pipflags, eflags, registers @ ..] = words;
        Context { eip, pipflags, eflags, registers }
    }
}

impl From<Context> for [u32; CONTEXT_WORDS] {
    fn from(context: Context) -> [u32; CONTEXT_WORDS] {
        let [a, b, c, d, e, f, g, h] = context.registers;
        [context.eip, context.pipflags, context.eflags, a, b, c, d, e, f, g, h]
    }
}

/// Contexts are saved in the slot page of a partition: the page at [`SLOTS_AT`] in it, and for the root its last. That is an ordinary page, which an ancestor
/// can write: no saved context is promised to last. Each partition has a live flag, 0 or 1, word 12 of its descriptor; it is 0 when the partition is made.
///
/// The target of a call is a child, or the parent under address 0; it becomes current. With pages of 4,096 bytes the three calls answer Edition.
impl Memory<'_> {
    /// Saves the context in the caller's slot, [`NOTIF_CHILD_CTX`] for a child and [`NOTIF_PARENT_CTX`] for the parent, with the caller's own flag as pipflags:
    /// those given are not read. A context that stood there is lost.
    ///
    /// The target's flag becomes 1; the caller's becomes 0 for a child, and stays for the parent.
    ///
    /// Refusals: Damaged, Edition, Address, Child (Root for the parent), SlotPage (the caller's).
    pub fn notify(&mut self, target: u32, context: &Context) -> Result<u32, Refusal> {
        let Context { eip, eflags, registers: [a, b, c, d, e, f, g, h], .. } = *context;
        let (words, length) = self.parts();
        answered(unsafe { raw::tumashqin_notify(words, length, target, eip, eflags, a, b, c, d, e, f, g, h) })
    }

    /// Saves nothing. The flags are those of [`Memory::notify`].
    ///
    /// Refusals: Damaged, Edition, Address, Child (Root for the parent).
    pub fn dispatch(&mut self, target: u32) -> Result<u32, Refusal> {
        let (words, length) = self.parts();
        answered(unsafe { raw::tumashqin_dispatch(words, length, target) })
    }

    /// Takes the context from a slot of the target: any of a child, [`NOTIF_CHILD_CTX`] alone of the parent. The slot has none then. The target's flag becomes
    /// bit 0 of the context's pipflags, and the caller's 0.
    ///
    /// Where the parent's slot has no context the root becomes current instead, with flag 1; no slot changes, and the answer has zeros alone.
    ///
    /// Refusals: Damaged, Edition, Address, Child (Root for the parent), Slot, SlotPage (the target's), EmptySlot (a child's).
    pub fn resume(&mut self, target: u32, slot: u32) -> Result<Context, Refusal> {
        let mut out = [0; CONTEXT_WORDS];
        let (words, length) = self.parts();
        answered(unsafe { raw::tumashqin_resume(words, length, target, slot, out.as_mut_ptr(), out.len()) })
            .map(|_| Context::from(out))
    }
}
