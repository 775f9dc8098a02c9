//! The three words that a partition's tables have for each virtual page.

use super::super::address::*;
use super::super::memory::*;
use super::view::View;
use super::walk::{Counts, Walk};
use super::{sound, Judged};

/// What is counted along the rows of tables of a partition.
pub struct Row<'a, 'b, const W: usize> {
    pub own: &'b View<'a, W>,
    pub parent: Option<&'b View<'a, W>>,
    pub depth: u32,
    pub mapped: u32,
    pub lent: u32,
    pub shut: u32,
    pub children: Counts,
}

impl<'a, const W: usize> Row<'a, '_, W> {
    /// The tables at one directory index.
    pub fn judge(&mut self, walk: &mut Walk<'a, W>, index: usize, links: [u32; 3]) -> Judged {
        let [table, shadow1, shadow2] = links.map(|link| walk.pages.get((link / page_bytes::<W>()) as usize));
        let (table, shadow1, shadow2) = (table?, shadow1?, shadow2?);
        for j in 0..W {
            let (word, lent_to, above) = (table[j], shadow1[j], shadow2[j]);
            if word == 0 {
                sound(lent_to | above == 0)?;
                continue;
            }
            let v = VPage((index * W + j) as u32);
            sound(v != VPage(0) && word & !(frame::<W>() | RIGHTS_BITS | ACCESSIBLE) == PRESENT)?;
            self.origin(walk, v, word, above)?;
            self.use_of(walk, v, word, lent_to)?;
            self.mapped += 1;
        }
        Some(())
    }

    /// The root maps the flat pages; each mapping of a child comes from its parent, with no right added, and is not both writable and executable.
    fn origin(&self, walk: &Walk<W>, v: VPage<W>, word: u32, above: u32) -> Judged {
        let Some(parent) = self.parent else {
            let page = walk.sizes.first_flat().0 + v.0 - 1;
            let flat = v.0 <= walk.sizes.flat && word / page_bytes::<W>() == page && word & RIGHTS_BITS == RIGHTS_BITS;
            return sound(flat && above == 0);
        };
        let (lender, lent_to) = parent.lookup(above)?;
        sound(word & WRITE_EXECUTE != WRITE_EXECUTE)?;
        sound((word ^ lender) & !RIGHTS_BITS == 0 && word & !lender == 0 && lent_to == self.own.place)
    }

    /// In hand, a child's kernel page, a child's descriptor, or lent to a child.
    fn use_of(&mut self, walk: &mut Walk<'a, W>, v: VPage<W>, word: u32, lent_to: u32) -> Judged {
        match lent_to {
            0 if word & ACCESSIBLE != 0 => walk.mark(word)?,
            0 => self.shut += 1,
            IS_CHILD => {
                self.shut += 1;
                self.child(walk, v, word)?;
            }
            _ => {
                self.lent += 1;
                sound(self.own.lookup(lent_to)?.1 == IS_CHILD)?;
            }
        }
        Some(())
    }

    fn child(&mut self, walk: &mut Walk<'a, W>, v: VPage<W>, word: u32) -> Judged {
        let child = View::at(walk.pages, word & frame::<W>(), v.address())?;
        sound(child.descriptor[..2] == [child.place, child.address] && child.descriptor[PARENT] == self.own.address)?;
        let counts = walk.partition(&child, Some(self.own), self.depth + 1)?;
        self.children.mapped += counts.mapped;
        self.children.kernel += counts.kernel;
        Some(())
    }
}
