//! The partitions reached from the root by shadow 1 words 1 on present mappings.

use crate::geometry::{Edition, PPage, VPage};
use crate::memory::*;

pub struct Node {
    pub partition: Partition,
    /// Its present mappings, in order.
    pub mappings: Vec<(VPage, Mapping)>,
    /// The parent's place in the tree, and the child's descriptor address there; none for the root.
    pub parent: Option<(usize, VPage)>,
    pub depth: usize,
}

/// Breadth first. Each descriptor page is marked when met, so the walk ends on any memory.
pub fn tree(mem: &[u32]) -> Vec<Node> {
    let mut met = vec![false; mem.len() / Edition::of(mem).page_words()];
    let mut nodes = Vec::new();
    let mut add = |nodes: &mut Vec<Node>, page: PPage, parent, depth| {
        if let Some(mark @ false) = met.get_mut(page.0 as usize) {
            *mark = true;
            let partition = Partition::at(mem, page);
            nodes.push(Node { partition, mappings: partition.mappings(mem).collect(), parent, depth });
        }
    };
    add(&mut nodes, ROOT_PAGE, None, 0);
    let mut place = 0;
    while place < nodes.len() {
        let Node { partition, ref mappings, depth, .. } = nodes[place];
        let is_child = |&&(v, _): &&(VPage, Mapping)| partition.shadow1(mem, v) == IS_CHILD;
        let children: Vec<_> = mappings.iter().filter(is_child).copied().collect();
        for (v, m) in children {
            add(&mut nodes, m.page, Some((place, v)), depth + 1);
        }
        place += 1;
    }
    nodes
}
