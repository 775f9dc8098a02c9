//! Pages taken and returned.

use super::address::*;
use super::memory::*;
use super::partition::Partition;

/// Wipes the page and clears its accessible bit in the caller and each ancestor.
pub fn take<const W: usize>(m: &mut Memory<W>, caller: &Partition<W>, v: VPage<W>) {
    let word = caller.mapping(m, v);
    wipe(m, word);
    mark(m, caller, v, 0);
}

/// Returns a page: sets its accessible bit in the caller and each ancestor, and wipes it if it was a kernel page or the caller holds write.
pub fn give_back<const W: usize>(m: &mut Memory<W>, caller: &Partition<W>, v: VPage<W>) {
    let word = caller.mapping(m, v);
    give_back_mapped(m, caller, v, word);
}

/// The same of a page whose word in the caller's page table is known. In sound memory a page that comes back was a kernel page exactly if it is
/// inaccessible, and one that is accessible is so in each ancestor.
pub fn give_back_mapped<const W: usize>(m: &mut Memory<W>, caller: &Partition<W>, v: VPage<W>, word: u32) {
    let was_kernel = word & ACCESSIBLE == 0;
    if was_kernel || word & WRITE != 0 {
        wipe(m, word);
    }
    if was_kernel {
        mark(m, caller, v, ACCESSIBLE);
    }
}

/// Wipes the page of a page table word.
fn wipe<const W: usize>(m: &mut Memory<W>, word: u32) {
    m.page_mut(PPage::of(word)).fill(0);
}

/// Sets a page's accessible bit to this one, in the caller and each ancestor.
fn mark<const W: usize>(m: &mut Memory<W>, caller: &Partition<W>, v: VPage<W>, bit: u32) {
    let (mut own, mut v) = (*caller, v);
    loop {
        let word = own.mapping(m, v);
        m.set_table_word(own.directory, v, word & !ACCESSIBLE | bit);
        if own.is_root() {
            break;
        }
        v = VPage::of(own.shadow2(m, v));
        own = Partition::at(m, own.parent);
    }
}
