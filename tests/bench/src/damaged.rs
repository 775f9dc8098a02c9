//! Damaged memories: sound ones with a word changed late, and ones made to cost a judge as much as they can.

use crate::call::Call;
use crate::kernel::KernelCall;
use crate::measure::rough;
use second::geometry::{Edition, PPage, VPage};
use second::memory::{
    named_page, set_table_word, set_word, start, word, Partition, CURRENT, FLAG, PARENT, PRESENT, ROOT_PAGE,
};
use second::random::Random;
use second::tree::{tree, Node};

pub struct Damaged {
    pub name: &'static str,
    pub words: Vec<u32>,
}

const ALL_RIGHTS: u32 = 28;

/// How many random damages the costliest is chosen from: so many, but in a large memory fewer, so that about as many words are judged.
const TRIES: usize = 600;
const LEAST_TRIES: usize = 20;
const MOST_WORDS: usize = TRIES << 14;

/// All of them, the ones of small change from a sound memory whose tree is the given one.
pub fn damaged(sound: &[u32]) -> Vec<Damaged> {
    let edition = Edition::of(sound);
    let pages = sound.len() / edition.page_words();
    let mut random = Random::new(7);
    let mut noise = |from: usize| {
        let mut words = sound.to_vec();
        words[from..].fill_with(|| random.draw() as u32);
        words
    };
    let last_page = PPage(pages as u32 - 1).address(edition);
    let below_root = edition.page_words() * (6 + 3 * sound[1] as usize);
    let mut all = vec![
        Damaged { name: "current outside the tree", words: with(sound, |m| m[CURRENT] = last_page) },
        Damaged { name: "last table word", words: with(sound, last_table_word) },
        Damaged { name: "last partition's flag is 2", words: with(sound, last_flag) },
        Damaged { name: "a child is its own ancestor", words: with(sound, cycle) },
        Damaged { name: "last partition lends one page often", words: with(sound, often) },
        Damaged { name: "every page a child", words: all_children(edition, pages) },
        Damaged { name: "random below the root", words: noise(below_root) },
        Damaged { name: "random", words: noise(0) },
        Damaged { name: "costliest of random changes", words: costliest::<Call>(sound) },
        Damaged { name: "all zeros", words: vec![0; sound.len()] },
        Damaged { name: "all ones", words: vec![u32::MAX; sound.len()] },
    ];
    all.retain(|damaged| damaged.words != sound);
    all
}

/// Of many random changes of a few words, the one that the proved judge takes longest over.
pub fn costliest<C: KernelCall>(sound: &[u32]) -> Vec<u32> {
    let mut random = Random::new(11);
    let tries = (MOST_WORDS / sound.len()).clamp(LEAST_TRIES, TRIES);
    let changed = |_| with(sound, |m| C::damage(sound, &mut random).into_iter().for_each(|(i, word)| m[i] = word));
    let damaged = (0..tries)
        .map(changed)
        .filter_map(|mut words| (C::JUDGE.ordinary(&mut words) != C::JUDGED_SOUND).then_some(words));
    let timed = damaged.map(|words| (rough::<C>(&words).proved, words));
    timed.max_by(|one, other| one.0.total_cmp(&other.0)).map_or_else(|| sound.to_vec(), |(_, words)| words)
}

pub fn with(sound: &[u32], change: impl FnOnce(&mut [u32])) -> Vec<u32> {
    let mut words = sound.to_vec();
    change(&mut words);
    words
}

fn last_node(m: &[u32], keep: impl Fn(&Partition) -> bool) -> Option<Node> {
    tree(m).into_iter().rev().find(|node| keep(&node.partition))
}

/// The three tables that a partition has at an index.
fn tables(m: &[u32], partition: &Partition, index: usize) -> [PPage; 3] {
    partition.roots().map(|root| named_page(m, root, index))
}

fn last_index(m: &[u32], partition: &Partition) -> usize {
    (0..Edition::of(m).page_words()).rev().find(|&i| partition.has_three(m, i)).unwrap_or(0)
}

/// The last word of the last table of the last partition that has tables: shadow 2 of an absent mapping, or of a mapping.
fn last_table_word(m: &mut [u32]) {
    if let Some(node) = last_node(m, |p| p.three_count(m) > 0) {
        let edition = Edition::of(m);
        let [_, _, shadow2] = tables(m, &node.partition, last_index(m, &node.partition));
        m[start(m, shadow2) + edition.page_words() - 1] ^= edition.page_bytes();
    }
}

/// The flag of the last partition, which may be the root.
pub fn last_flag(m: &mut [u32]) {
    if let Some(node) = last_node(m, |_| true) {
        set_word(m, node.partition.descriptor, FLAG, 2);
    }
}

/// In the last partition with tables a mapping leads to the partition itself.
fn cycle(m: &mut [u32]) {
    if let Some(node) = last_node(m, |p| p.three_count(m) > 0) {
        let edition = Edition::of(m);
        let index = last_index(m, &node.partition);
        let [table, shadow1, _] = tables(m, &node.partition, index);
        let place = (1..edition.page_words()).find(|&j| word(m, table, j) != 0).unwrap_or(1);
        set_word(m, table, place, node.partition.descriptor.address(edition) + PRESENT + ALL_RIGHTS);
        set_word(m, shadow1, place, 1);
    }
}

/// The last partition below the root that lends a page on maps it at all its addresses; none where there is no such partition.
fn often(m: &mut [u32]) {
    let lends = |p: &Partition| p.mappings(m).map(|(v, _)| v).find(|&v| p.shadow1(m, v) > 1);
    let Some(node) = last_node(m, |p| p.descriptor != ROOT_PAGE && lends(p).is_some()) else { return };
    let Some(v) = lends(&node.partition) else { return };
    let edition = Edition::of(m);
    let (index, place) = (v.directory_index(edition), v.table_index(edition));
    let words = tables(m, &node.partition, index).map(|table| word(m, table, place));
    for i in 0..edition.page_words() {
        if !node.partition.has_three(m, i) {
            continue;
        }
        let three = tables(m, &node.partition, i);
        for j in usize::from(i == 0)..edition.page_words() {
            if word(m, three[0], j) == 0 {
                for (table, word) in three.into_iter().zip(words) {
                    set_word(m, table, j, word);
                }
            }
        }
    }
}

/// Each page handed to the root is the descriptor of a child, but for the pages that all the children share.
fn all_children(edition: Edition, pages: usize) -> Vec<u32> {
    let mut m = vec![0; edition.page_words() * pages];
    let _ = second::calls::format(&mut m, edition.number);
    let root = Partition::at(&m, ROOT_PAGE);
    let flat: Vec<_> = root.mappings(&m).map(|(v, mapping)| (v, mapping.page)).collect();
    let threes = (flat.len().saturating_sub(6) / 3).min(10);
    let (shared, descriptors) = flat.split_at(4 + 3 * threes);
    for &(v, page) in &flat {
        set_table_word(&mut m, root.directory, v, page.address(edition) + PRESENT + ALL_RIGHTS);
    }
    let pair = |(v, page): (VPage, PPage)| [v.address(edition), page.address(edition)];
    for &own in descriptors {
        set_table_word(&mut m, root.shadow1, own.0, 1);
        let words: Vec<u32> = std::iter::once(own).chain(shared[..4].iter().copied()).flat_map(pair).collect();
        let start = start(&m, own.1);
        m[start..start + 10].copy_from_slice(&words);
        m[start + PARENT] = ROOT_PAGE.address(edition);
    }
    let list = start(&m, shared[3].1);
    m[list] = 1 + 6 * threes as u32;
    for (k, &table) in shared[4..].iter().enumerate() {
        m[list + 1 + 2 * k..][..2].copy_from_slice(&pair(table));
        set_word(&mut m, shared[k % 3].1, 1 + k / 3, table.1.address(edition) + PRESENT);
    }
    m
}
