//! Threes of tables prepared and collected.

use super::address::*;
use super::memory::*;
use super::moves::{give_back, take};
use super::partition::{pages_at, Partition};
use super::refusal::*;

pub fn page_count<const W: usize>(m: &Memory<W>, child: u32, target: u32) -> Answer {
    let [at, target] = pages_at([child, target])?;
    let child = m.caller().child(m, at)?;
    if child.has_three(m, target) {
        return Ok(0);
    }
    require(child.threes(m) < MOST_THREES, LIST)?;
    Ok(3)
}

pub fn prepare<const W: usize>(m: &mut Memory<W>, child: u32, target: u32, first: u32) -> Answer {
    let [at, target, first] = pages_at([child, target, first])?;
    let caller = m.caller();
    let child = caller.child(m, at)?;
    require(!child.has_three(m, target), TAKEN)?;
    require(child.threes(m) < MOST_THREES, LIST)?;
    let chain = follow_chain(m, &caller, first)?;
    let used = m.page(child.list)[0] as usize;
    let roots = [child.directory, child.shadow1, child.shadow2];
    for (k, (root, (v, page))) in roots.into_iter().zip(chain).enumerate() {
        take(m, &caller, v);
        m.page_mut(root)[target.directory_index()] = page.address() + PRESENT;
        m.page_mut(child.list)[used + 2 * k] = v.address();
        m.page_mut(child.list)[used + 2 * k + 1] = page.address();
    }
    m.page_mut(child.list)[0] += 6;
    Ok(0)
}

type Chain<const W: usize> = [(VPage<W>, PPage<W>); 3];

/// The three chained pages. A page's own link is read only after the page has passed.
fn follow_chain<const W: usize>(m: &Memory<W>, caller: &Partition<W>, first: VPage<W>) -> Result<Chain<W>, u32> {
    let mut chain = [(VPage(0), PPage(0)); 3];
    let mut link = first.address();
    for k in 0..3 {
        let v = VPage::of(link);
        let good = good_address::<W>(link, page_bytes::<W>());
        require(good && chain[..k].iter().all(|earlier| earlier.0 != v), CHAIN)?;
        let word = caller.in_hand(m, v)?;
        require(!word & (READ | WRITE) == 0, RIGHTS)?;
        chain[k] = (v, PPage::of(word));
        link = m.page(chain[k].1)[0];
    }
    require(link == 0, CHAIN)?;
    Ok(chain)
}

pub fn collect<const W: usize>(m: &mut Memory<W>, child: u32, target: u32) -> Answer {
    let [at, target] = pages_at([child, target])?;
    let caller = m.caller();
    let child = caller.child(m, at)?;
    let index = target.directory_index();
    let link = m.page(child.directory)[index];
    require(link != 0, TABLE)?;
    require(*m.page(PPage::of(link)) == [0; W], FULL_TABLE)?;
    for root in [child.directory, child.shadow1, child.shadow2] {
        m.page_mut(root)[index] = 0;
    }
    let three = drop_three(m.page_mut(child.list), link & frame::<W>());
    for [v, _] in three {
        give_back(m, &caller, VPage::of(v));
    }
    m.page_mut(PPage::of(three[0][1]))[0] = three[1][0];
    m.page_mut(PPage::of(three[1][1]))[0] = three[2][0];
    Ok(three[0][0])
}

/// Drops from a list the three with this page table, and answers its pairs; later pairs move down.
fn drop_three(list: &mut [u32], table: u32) -> [[u32; 2]; 3] {
    let used = list[0] as usize;
    let mut at = 1;
    while list[at + 1] != table {
        at += 6;
    }
    let three = [0, 2, 4].map(|k| [list[at + k], list[at + k + 1]]);
    list.copy_within(at + 6..used, at);
    list[used - 6..used].fill(0);
    list[0] -= 6;
    three
}
