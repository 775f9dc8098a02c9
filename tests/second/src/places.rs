//! The same tree with other pages and other addresses for what B is not shown.

use crate::geometry::*;
use crate::memory::*;
use crate::neighbours::Around;
use crate::random::Random;
use crate::sound::is_lent;
use std::collections::BTreeMap;

/// Where pages and addresses go; those that are not named stay.
struct Moves {
    pages: BTreeMap<PPage, PPage>,
    /// By the partition's place in the tree.
    addresses: Vec<BTreeMap<VPage, VPage>>,
}

impl Moves {
    fn page(&self, page: PPage) -> PPage {
        self.pages.get(&page).copied().unwrap_or(page)
    }

    fn address(&self, place: usize, v: VPage) -> VPage {
        self.addresses[place].get(&v).copied().unwrap_or(v)
    }

    /// The pages that are shown stay, and the parent's descriptor and the parent's addresses of them: words that are shown name these.
    fn random(mem: &[u32], around: &Around, random: &mut Random) -> Option<Moves> {
        let sizes = Sizes::of(mem)?;
        let parent = around.own().parent.map(|parent| parent.0);
        let stays = |page: PPage| {
            around.shown[page.0 as usize] || parent.is_some_and(|at| around.nodes[at].partition.descriptor == page)
        };
        let from: Vec<_> = (sizes.first_flat().0..sizes.pages).map(PPage).filter(|&page| !stays(page)).collect();
        let mut to = from.clone();
        random.shuffle(&mut to);
        let pages: BTreeMap<_, _> = from.into_iter().zip(to).collect();
        // The root maps the flat pages in order, wherever they go.
        let flat = |page: PPage| VPage(page.0 + 1 - sizes.first_flat().0);
        let mut addresses = vec![pages.iter().map(|(&from, &to)| (flat(from), flat(to))).collect()];
        for (place, node) in around.nodes.iter().enumerate().skip(1) {
            let named = |v: VPage| {
                let mapping = node.partition.mapping(mem, v);
                parent == Some(place) && mapping.is_some_and(|m| around.shown[m.page.0 as usize])
            };
            let mut from = Vec::new();
            if !around.within[place] {
                let tabled = node.partition.tabled(mem).map(|(v, _)| v);
                from.extend(tabled.filter(|&v| v != VPage(0) && !named(v)));
            }
            let mut to = from.clone();
            random.shuffle(&mut to);
            addresses.push(from.into_iter().zip(to).collect());
        }
        Some(Moves { pages, addresses })
    }
}

/// Every page that may goes elsewhere, and so does every address of the partitions above B and beside it, in the tables that they have.
pub fn elsewhere(mem: &[u32], around: &Around, random: &mut Random) -> Vec<u32> {
    let (mut new, edition) = (mem.to_vec(), Edition::of(mem));
    let Some(moves) = Moves::random(mem, around, random) else { return new };
    for (&from, &to) in &moves.pages {
        words_of_mut(&mut new, to).copy_from_slice(words_of(mem, from));
    }
    for (place, node) in around.nodes.iter().enumerate() {
        let own = node.partition;
        let above = |v| node.parent.map_or(v, |(parent, _)| moves.address(parent, v));
        let pairs = (0..5).map(|pair| (own.descriptor, 2 * pair));
        for (page, index) in pairs.chain((0..3 * own.three_count(mem)).map(|pair| (own.list, 1 + 2 * pair))) {
            let (v, named) = (VPage::of(edition, word(mem, page, index)), named_page(mem, page, index + 1));
            set_word(&mut new, moves.page(page), index, above(v).address(edition));
            set_word(&mut new, moves.page(page), index + 1, moves.page(named).address(edition));
        }
        let parent = moves.page(named_page(mem, own.descriptor, PARENT));
        set_word(&mut new, moves.page(own.descriptor), PARENT, parent.address(edition));
        let roots = own.roots().map(|root| moves.page(root));
        for (index, entries) in own.root_words(mem).enumerate().filter(|(_, entries)| *entries != [0; 3]) {
            for (root, entry) in roots.into_iter().zip(entries) {
                set_word(&mut new, root, index, moves.page(PPage::of(edition, entry)).address(edition) + PRESENT);
            }
        }
        for (v, [entry, shadow1, shadow2]) in own.tabled(mem) {
            let mapping = Mapping::decode(edition, entry);
            let entry = mapping.map_or(0, |m| Mapping { page: moves.page(m.page), ..m }.encode(edition));
            let child = moves.address(place, VPage::of(edition, shadow1)).address(edition);
            let shadow1 = if is_lent(shadow1) { child } else { shadow1 };
            let shadow2 = above(VPage::of(edition, shadow2)).address(edition);
            for (root, value) in roots.into_iter().zip([entry, shadow1, shadow2]) {
                set_table_word(&mut new, root, moves.address(place, v), value);
            }
        }
    }
    new
}
