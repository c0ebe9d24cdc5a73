//! NetBack: nonoverlapping matching on a nettree, by the leftmost child with backtracking (Wu et al., 2021).
//!
//! It knows of no sentence ends: in a text that has some its rows may go past them.

use crate::by_hand_all::takes;
use crate::clock::cpu_ms;
use compare::layout::{Pattern, Slot};

/// How many steps of the search pass between two looks at the clock.
const STEPS: usize = 1 << 14;

/// A node: a place of the text at one level, the links to its children, and how far roots and leaves are from it.
struct Node {
    place: usize,
    first_link: usize,
    end_link: usize,
    min_root: usize,
    max_root: usize,
    min_leaf: usize,
    max_leaf: usize,
}

/// A level: its nodes from left to right, and one link for each child of each node, to that child's index a level below.
#[derive(Default)]
struct Level {
    nodes: Vec<Node>,
    links: Vec<u32>,
}

/// The nettree of a pattern in a text, and what is left of it.
struct NetTree {
    levels: Vec<Level>,
    least: usize,
    most: usize,
    /// At each level, the last place that is used or left of one that is used.
    removed: Vec<usize>,
    visits: Visits,
}

/// How often the search may come to a node.
#[derive(Clone, Copy, PartialEq)]
pub enum Visits {
    /// As often as Algorithm 2 leads there.
    Any,
    /// Once, as Theorem 4 claims.
    Once,
}

/// A node that is linked to none yet.
fn node(place: usize) -> Node {
    let (min_root, min_leaf) = (usize::MAX, usize::MAX);
    Node { place, first_link: 0, end_link: 0, min_root, max_root: 0, min_leaf, max_leaf: 0 }
}

/// The roots: every place whose word the first slot takes.
fn roots(slot: &Slot, text: &[u16]) -> Level {
    let mut level = Level::default();
    for (i, _) in text.iter().enumerate().filter(|(_, &word)| takes(slot, word)) {
        let place = i + 1;
        level.nodes.push(Node { min_root: place, max_root: place, ..node(place) });
    }
    level
}

/// The next level: every place whose word the slot takes and that has a parent within the gap.
fn below(slot: &Slot, text: &[u16], parents: &[Node]) -> Level {
    let (low, high) = (slot.low as usize, slot.high as usize);
    let mut level = Level::default();
    let mut oldest = 0;
    for (i, _) in text.iter().enumerate().filter(|(_, &word)| takes(slot, word)) {
        let place = i + 1;
        while oldest < parents.len() && parents[oldest].place + high + 1 < place {
            oldest += 1;
        }
        if oldest < parents.len() && parents[oldest].place + low < place {
            level.nodes.push(node(place));
        }
    }
    level
}

/// Links every parent to its children, and tells the children their least and greatest root.
fn link(slot: &Slot, parents: &mut Level, children: &mut Level) {
    let (low, high) = (slot.low as usize, slot.high as usize);
    let mut first = 0;
    for parent in &mut parents.nodes {
        while first < children.nodes.len() && children.nodes[first].place <= parent.place + low {
            first += 1;
        }
        parent.first_link = parents.links.len();
        for (i, child) in children.nodes.iter_mut().enumerate().skip(first) {
            if parent.place + high + 1 < child.place {
                break;
            }
            child.min_root = child.min_root.min(parent.min_root);
            child.max_root = child.max_root.max(parent.max_root);
            parents.links.push(i as u32);
        }
        parent.end_link = parents.links.len();
    }
}

/// Tells the parents the least and greatest leaf that their children reach; those that reach none keep `usize::MAX` and 0.
fn spread_leaves(parents: &mut Level, children: &Level) {
    for parent in &mut parents.nodes {
        for &i in &parents.links[parent.first_link..parent.end_link] {
            let child = &children.nodes[i as usize];
            parent.min_leaf = parent.min_leaf.min(child.min_leaf);
            parent.max_leaf = parent.max_leaf.max(child.max_leaf);
        }
    }
}

impl NetTree {
    /// Builds the nettree (Algorithm 1), its nodes marked that no row within the span limits can have.
    fn new(pattern: &Pattern, text: &[u16], visits: Visits) -> NetTree {
        let slots = &pattern.slots[..pattern.count];
        let mut levels = vec![roots(&slots[0], text)];
        for (j, slot) in slots.iter().enumerate().skip(1) {
            let mut level = below(slot, text, &levels[j - 1].nodes);
            link(slot, &mut levels[j - 1], &mut level);
            levels.push(level);
        }
        for leaf in &mut levels[slots.len() - 1].nodes {
            (leaf.min_leaf, leaf.max_leaf) = (leaf.place, leaf.place);
        }
        for j in (1..slots.len()).rev() {
            let (above, here) = levels.split_at_mut(j);
            spread_leaves(&mut above[j - 1], &here[0]);
        }
        let (least, most) = (pattern.least as usize, pattern.most as usize);
        let mut tree = NetTree { levels, least, most, removed: vec![0; slots.len()], visits };
        tree.mark_useless();
        tree
    }

    /// Takes the leaves from the nodes that meet the span limits with none of their roots and leaves.
    fn mark_useless(&mut self) {
        let (least, most) = (self.least, self.most);
        for node in self.levels.iter_mut().flat_map(|level| &mut level.nodes) {
            if node.max_leaf == 0 {
                continue;
            }
            let shortest = (node.min_leaf + 1).saturating_sub(node.max_root);
            let longest = node.max_leaf + 1 - node.min_root;
            if most < shortest || longest < least {
                node.max_leaf = 0;
            }
        }
    }

    /// Whether a row from the root may go on at the node of this level: it is left, and reaches a leaf within the span limits.
    fn usable(&self, level: usize, node: &Node, root: usize) -> bool {
        self.removed[level] < node.place
            && root < node.max_leaf + 1
            && self.least <= node.max_leaf + 1 - root
            && (node.min_leaf + 1).saturating_sub(root) <= self.most
    }

    /// Seeks the leftmost path from the path's root (Algorithm 2): whether there is one, or nothing past the time limit.
    fn backtrack(&mut self, path: &mut [usize], links: &mut [usize], end_ms: f64) -> Option<bool> {
        let Node { place: root, first_link, .. } = self.levels[0].nodes[path[0]];
        links[0] = first_link;
        let mut level = 0;
        let mut steps = 0;
        while level + 1 < path.len() {
            let here = &self.levels[level];
            let below = &self.levels[level + 1].nodes;
            let left = &here.links[links[level]..here.nodes[path[level]].end_link];
            let found = left.iter().position(|&i| self.usable(level + 1, &below[i as usize], root));
            if let Some(skipped) = found {
                let child = left[skipped] as usize;
                links[level] += skipped + 1;
                level += 1;
                path[level] = child;
                links[level] = below[child].first_link;
                if self.visits == Visits::Once {
                    self.levels[level].nodes[child].max_leaf = 0;
                }
            } else if level == 0 {
                return Some(false);
            } else {
                level -= 1;
            }
            steps += 1;
            if steps % STEPS == 0 && end_ms < cpu_ms() {
                return None;
            }
        }
        Some(true)
    }

    /// The rows found from each root in turn (Algorithm 3), one after the other, or nothing past the time limit.
    fn rows(&mut self, end_ms: f64) -> Option<Vec<u16>> {
        let count = self.levels.len();
        let (mut path, mut links) = (vec![0; count], vec![0; count]);
        let mut rows = Vec::new();
        for root in 0..self.levels[0].nodes.len() {
            let node = &self.levels[0].nodes[root];
            path[0] = root;
            if !self.usable(0, node, node.place) || !self.backtrack(&mut path, &mut links, end_ms)? {
                continue;
            }
            for (level, &i) in path.iter().enumerate() {
                let place = self.levels[level].nodes[i].place;
                self.removed[level] = place;
                rows.push(place as u16);
            }
        }
        Some(rows)
    }
}

/// The rows that NetBack finds, one after the other, or nothing if it takes longer than the limit.
pub fn netback(pattern: &Pattern, text: &[u16], visits: Visits, limit_ms: f64) -> Option<Vec<u16>> {
    let end_ms = cpu_ms() + limit_ms;
    NetTree::new(pattern, text, visits).rows(end_ms)
}
