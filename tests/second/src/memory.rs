//! Reading and writing the words of pages, partitions and tables, as of the edition that the memory's header names.
//! Every access is bounded: a word outside the memory reads as 0 and is never written.

use crate::geometry::*;

/// Header word that holds the current partition's descriptor address.
pub const CURRENT: usize = 4;
/// Descriptor word that holds the parent's descriptor address.
pub const PARENT: usize = 11;
/// Descriptor word that holds the live flag, 0 or 1; 0 with large pages.
pub const FLAG: usize = 12;
pub const ROOT_PAGE: PPage = PPage(1);
pub const HEADER: PPage = PPage(0);
/// Shadow 1 word of a page that is itself a child's descriptor.
pub const IS_CHILD: u32 = 1;
/// Bits of directory and page table words.
pub const PRESENT: u32 = 1;
pub const ACCESSIBLE: u32 = 2;

/// The index of the page's first word.
pub fn start(mem: &[u32], page: PPage) -> usize {
    page.0 as usize * Edition::of(mem).page_words()
}

pub fn word(mem: &[u32], page: PPage, index: usize) -> u32 {
    mem.get(start(mem, page) + index).copied().unwrap_or(0)
}

pub fn set_word(mem: &mut [u32], page: PPage, index: usize, value: u32) {
    let start = start(mem, page);
    if let Some(word) = mem.get_mut(start + index) {
        *word = value;
    }
}

/// The page as its own part of the memory; empty where it is outside.
pub fn words_of(mem: &[u32], page: PPage) -> &[u32] {
    mem.get(start(mem, page)..start(mem, PPage(page.0 + 1))).unwrap_or(&[])
}

pub fn words_of_mut(mem: &mut [u32], page: PPage) -> &mut [u32] {
    let words = start(mem, page)..start(mem, PPage(page.0 + 1));
    mem.get_mut(words).unwrap_or(&mut [])
}

/// The five pages of one partition.
#[derive(Clone, Copy, PartialEq, Eq, Debug)]
pub struct Partition {
    pub descriptor: PPage,
    pub directory: PPage,
    pub shadow1: PPage,
    pub shadow2: PPage,
    pub list: PPage,
}

impl Partition {
    /// The root's pages are 1 to 5; a child's are those its descriptor names.
    pub fn at(mem: &[u32], descriptor: PPage) -> Partition {
        let named = |pair: usize| match descriptor {
            ROOT_PAGE => PPage(1 + pair as u32),
            _ => named_page(mem, descriptor, 2 * pair + 1),
        };
        Partition { descriptor, directory: named(1), shadow1: named(2), shadow2: named(3), list: named(4) }
    }

    pub fn current(mem: &[u32]) -> Partition {
        Partition::at(mem, named_page(mem, HEADER, CURRENT))
    }

    /// The directory and the two shadow roots.
    pub fn roots(&self) -> [PPage; 3] {
        [self.directory, self.shadow1, self.shadow2]
    }

    pub fn has_three(&self, mem: &[u32], index: usize) -> bool {
        word(mem, self.directory, index) != 0
    }

    pub fn mapping(&self, mem: &[u32], v: VPage) -> Option<Mapping> {
        Mapping::decode(Edition::of(mem), table_word(mem, self.directory, v))
    }

    pub fn shadow1(&self, mem: &[u32], v: VPage) -> u32 {
        table_word(mem, self.shadow1, v)
    }

    pub fn shadow2(&self, mem: &[u32], v: VPage) -> u32 {
        table_word(mem, self.shadow2, v)
    }

    /// The words of directory, shadow 1 and shadow 2 at each index.
    pub fn root_words<'a>(&self, mem: &'a [u32]) -> impl Iterator<Item = [u32; 3]> + 'a {
        columns(mem, self.roots().map(Some))
    }

    /// The indices that have tables, in order.
    fn indices<'a>(&self, mem: &'a [u32]) -> impl Iterator<Item = usize> + 'a {
        words_of(mem, self.directory).iter().enumerate().filter(|(_, &entry)| entry != 0).map(|(index, _)| index)
    }

    /// Every virtual page that has tables, in order, with its words there: page table, shadow 1 and shadow 2.
    pub fn tabled<'a>(&self, mem: &'a [u32]) -> impl Iterator<Item = (VPage, [u32; 3])> + 'a {
        let (own, edition) = (*self, Edition::of(mem));
        self.indices(mem).flat_map(move |i| {
            let tables = own.roots().map(|root| table(mem, root, VPage::at(edition, i, 0)));
            columns(mem, tables).enumerate().map(move |(j, words)| (VPage::at(edition, i, j), words))
        })
    }

    /// Every present mapping, in order.
    pub fn mappings<'a>(&self, mem: &'a [u32]) -> impl Iterator<Item = (VPage, Mapping)> + 'a {
        let (own, edition) = (*self, Edition::of(mem));
        self.indices(mem).flat_map(move |i| {
            let table = words_of(mem, named_page(mem, own.directory, i)).iter().enumerate();
            table.filter_map(move |(j, &word)| Some((VPage::at(edition, i, j), Mapping::decode(edition, word)?)))
        })
    }

    /// Present, accessible, and neither lent nor a child's descriptor.
    pub fn in_hand(&self, mem: &[u32], v: VPage) -> bool {
        self.mapping(mem, v).is_some_and(|m| m.accessible) && self.shadow1(mem, v) == 0
    }

    pub fn three_count(&self, mem: &[u32]) -> usize {
        (word(mem, self.list, 0) as usize / 6).min(MOST_THREES)
    }

    /// The pairs (virtual in the parent, physical) of the list.
    pub fn list_pairs(&self, mem: &[u32]) -> Vec<(VPage, PPage)> {
        (0..3 * self.three_count(mem)).map(|k| pair(mem, self.list, 1 + 2 * k)).collect()
    }

    /// All kernel pages: the descriptor's five pairs, then the list's.
    pub fn kernel_pairs(&self, mem: &[u32]) -> Vec<(VPage, PPage)> {
        let mut pairs: Vec<_> = (0..5).map(|k| pair(mem, self.descriptor, 2 * k)).collect();
        pairs.extend(self.list_pairs(mem));
        pairs
    }
}

/// A page of any edition that is all 0.
static ZEROS: [u32; LARGE.page_words()] = [0; LARGE.page_words()];

/// The words of three pages at each index; a page that is absent or outside the memory counts as 0.
fn columns(mem: &[u32], pages: [Option<PPage>; 3]) -> impl Iterator<Item = [u32; 3]> + '_ {
    let zeros = &ZEROS[..Edition::of(mem).page_words()];
    let words = pages.map(|page| page.map(|page| words_of(mem, page)).filter(|words| !words.is_empty()));
    let [a, b, c] = words.map(|words| words.unwrap_or(zeros));
    a.iter().zip(b).zip(c).map(|((&a, &b), &c)| [a, b, c])
}

fn pair(mem: &[u32], page: PPage, index: usize) -> (VPage, PPage) {
    (VPage::of(Edition::of(mem), word(mem, page, index)), named_page(mem, page, index + 1))
}

/// The page that a word names by its physical address.
pub fn named_page(mem: &[u32], page: PPage, index: usize) -> PPage {
    PPage::of(Edition::of(mem), word(mem, page, index))
}

/// A present page table word.
#[derive(Clone, Copy, PartialEq, Eq, Debug)]
pub struct Mapping {
    pub page: PPage,
    pub accessible: bool,
    pub rights: u32,
}

impl Mapping {
    pub fn decode(edition: Edition, word: u32) -> Option<Mapping> {
        let (page, accessible) = (PPage::of(edition, word), word & ACCESSIBLE != 0);
        (word & PRESENT != 0).then_some(Mapping { page, accessible, rights: word >> 2 & ALL_RIGHTS })
    }

    pub fn encode(self, edition: Edition) -> u32 {
        self.page.address(edition) + PRESENT + ACCESSIBLE * u32::from(self.accessible) + 4 * self.rights
    }
}

/// The table that a directory or shadow root has for a virtual page.
fn table(mem: &[u32], root: PPage, v: VPage) -> Option<PPage> {
    let edition = Edition::of(mem);
    let entry = word(mem, root, v.directory_index(edition));
    (entry != 0).then_some(PPage::of(edition, entry))
}

/// A word in an absent table counts as 0.
pub fn table_word(mem: &[u32], root: PPage, v: VPage) -> u32 {
    table(mem, root, v).map_or(0, |t| word(mem, t, v.table_index(Edition::of(mem))))
}

pub fn set_table_word(mem: &mut [u32], root: PPage, v: VPage, value: u32) {
    if let Some(t) = table(mem, root, v) {
        set_word(mem, t, v.table_index(Edition::of(mem)), value);
    }
}
