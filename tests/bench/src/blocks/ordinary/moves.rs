//! Enter and leave.

use super::memory::{Memory, CURRENT};
use super::refusal::*;

pub fn enter(m: &mut Memory, child: u32) -> Answer {
    let to = m.child(m.caller(), child)?;
    m.set(CURRENT, to);
    Ok(0)
}

pub fn leave(m: &mut Memory) -> Answer {
    let parent = m.parent(m.caller());
    require(parent != 0, ROOT)?;
    m.set(CURRENT, parent);
    Ok(0)
}
