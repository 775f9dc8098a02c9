//! Partitions made and deleted.

use super::address::*;
use super::memory::*;
use super::moves::{give_back, give_back_mapped, take};
use super::partition::{pages_at, Partition};
use super::refusal::*;

pub fn create_partition<const W: usize>(m: &mut Memory<W>, five: [u32; 5]) -> Answer {
    let group = pages_at(five)?;
    require((1..5).all(|i| !group[..i].contains(&group[i])), TWICE)?;
    let caller = m.caller();
    let mut held = [0; 5];
    for (word, &v) in held.iter_mut().zip(&group) {
        *word = caller.in_hand(m, v)?;
    }
    require(held.iter().all(|word| word & WRITE != 0), RIGHTS)?;
    require(depth(m, &caller) < MOST_DEPTH, DEPTH)?;
    for &v in &group {
        take(m, &caller, v);
    }
    let descriptor = m.page_mut(PPage::of(held[0]));
    for (k, (v, word)) in group.iter().zip(held).enumerate() {
        descriptor[2 * k] = v.address();
        descriptor[2 * k + 1] = word & frame::<W>();
    }
    descriptor[PARENT] = caller.descriptor.address();
    m.page_mut(PPage::of(held[4]))[0] = 1;
    m.set_table_word(caller.shadow1, group[0], IS_CHILD);
    Ok(0)
}

/// How far below the root.
fn depth<const W: usize>(m: &Memory<W>, partition: &Partition<W>) -> u32 {
    let (mut own, mut depth) = (*partition, 0);
    while !own.is_root() {
        own = Partition::at(m, own.parent);
        depth += 1;
    }
    depth
}

pub fn delete_partition<const W: usize>(m: &mut Memory<W>, child: u32) -> Answer {
    let [at] = pages_at([child])?;
    let caller = m.caller();
    let child = caller.child(m, at)?;
    // What is read of the child is read before its pages are wiped.
    let (descriptor, list) = (*m.page(child.descriptor), *m.page(child.list));
    m.set_table_word(caller.shadow1, at, 0);
    call_in_lent(m, &caller, at);
    let listed = list[1..list[0] as usize].iter().step_by(2);
    for &address in descriptor[..10].iter().step_by(2).chain(listed) {
        give_back(m, &caller, VPage::of(address));
    }
    Ok(0)
}

/// Ends the lending of all pages lent to the child at an address, and returns them.
fn call_in_lent<const W: usize>(m: &mut Memory<W>, caller: &Partition<W>, child: VPage<W>) {
    for i in 0..W {
        let (link, shadow1) = (m.page(caller.directory)[i], m.page(caller.shadow1)[i]);
        if link == 0 {
            continue;
        }
        for j in 0..W {
            let lent_to = &mut m.page_mut(PPage::of(shadow1))[j];
            if *lent_to == child.address() {
                *lent_to = 0;
                let word = m.page(PPage::of(link))[j];
                give_back_mapped(m, caller, VPage((i * W + j) as u32), word);
            }
        }
    }
}
