//! The job of `pathmap --tree avl` on the same tree, by direct loops: the relaxed balanced tree, whose puts and
//! removes leave keys in debt, and which is repaired after each, one walk to a key at a time, until nothing is
//! owed. It keeps the history of the calls, and prints it at the end.
//!
//!     relaxed_avl [--shape] [--repairs]     the shape of the tree as well; how many repairs it took, on
//!                                           standard error
mod nodes;
#[allow(dead_code)]
mod ordered_map;
mod script;

use nodes::{Node, Nodes, Place, SENTINEL, Side};
use ordered_map::{Entry, OrderedMap, reply_of, room_for, with_calls};
use script::Call;
use std::io::{self, Write};
use std::process::ExitCode;

/// The most keys that are owed one by one.
const MOST_KEYS: usize = 64;

/// What is owed: keys, the first one last, and every key from a number on.
struct Owed {
    keys: Vec<u64>,
    from: Option<u64>,
}

/// What a repair finds at its node, and what it does then.
enum Verdict {
    /// The node is in balance.
    Balanced,
    /// This node below is to be repaired first.
    Below(u64),
    /// The node gets this height.
    Height(u64),
    /// The child on this side takes the node's place.
    Rotate(Side),
    /// The inner child of that child takes the node's place.
    RotateTwice(Side),
}

struct RelaxedTree {
    nodes: Nodes,
    owed: Owed,
    /// How many repairs there were, each a walk, and how many of them changed the tree.
    repairs: u64,
    changes: u64,
}

fn other(side: Side) -> Side {
    match side {
        Side::Left => Side::Right,
        Side::Right => Side::Left,
    }
}

impl Owed {
    fn charge(&mut self, key: u64) {
        if self.keys.contains(&key) {
            return;
        }
        if self.keys.len() < MOST_KEYS {
            self.keys.push(key);
        } else {
            self.lower(key);
        }
    }

    fn put_first(&mut self, key: u64) {
        if self.keys.contains(&key) {
            self.release(key);
        } else if self.keys.len() == MOST_KEYS {
            let last = self.keys.remove(0);
            self.lower(last);
        }
        self.keys.push(key);
    }

    fn release(&mut self, key: u64) {
        if let Some(place) = self.keys.iter().rposition(|owed| *owed == key) {
            self.keys.remove(place);
        }
    }

    fn lower(&mut self, key: u64) {
        self.from = Some(self.from.map_or(key, |from| from.min(key)));
    }
}

impl RelaxedTree {
    fn charge(&mut self, node: u64) {
        if node != SENTINEL {
            self.owed.charge(self.nodes.at(node).key);
        }
    }

    /// The stored heights of a node's children; node 0 has the height 0.
    fn heights(&self, node: &Node) -> (u64, u64) {
        (self.nodes.at(node.left).height, self.nodes.at(node.right).height)
    }

    fn height_over(&self, node: u64) -> u64 {
        let (left, right) = self.heights(self.nodes.at(node));
        left.max(right) + 1
    }

    fn is_in_debt(&self, node: u64) -> bool {
        let here = self.nodes.at(node);
        let (left, right) = self.heights(here);
        here.height != left.max(right) + 1 || left.abs_diff(right) > 1
    }

    fn settle(&mut self) {
        loop {
            if let Some(key) = self.owed.keys.last() {
                self.repair_key(*key);
            } else if let Some(from) = self.owed.from {
                self.repair_from(from);
            } else {
                return;
            }
            self.repairs += 1;
        }
    }

    fn repair_key(&mut self, key: u64) {
        let Place { node, .. } = self.nodes.find(key);
        if node == 0 {
            return self.owed.release(key);
        }
        match self.verdict(node) {
            Verdict::Balanced => self.owed.release(key),
            Verdict::Below(below) => self.owed.put_first(self.nodes.at(below).key),
            verdict => {
                self.owed.release(key);
                self.make(node, verdict);
            }
        }
    }

    fn repair_from(&mut self, from: u64) {
        let node = self.nodes.ceil(from);
        if node == 0 {
            self.owed.from = None;
            return;
        }
        match self.verdict(node) {
            Verdict::Balanced => self.owed.from = Some(self.nodes.at(node).key + 1),
            Verdict::Below(below) => self.owed.put_first(self.nodes.at(below).key),
            verdict => self.make(node, verdict),
        }
    }

    fn verdict(&self, node: u64) -> Verdict {
        let here = self.nodes.at(node);
        let (left, right) = self.heights(here);
        if left.abs_diff(right) <= 1 {
            let height = left.max(right) + 1;
            return if here.height == height { Verdict::Balanced } else { Verdict::Height(height) };
        }
        let side = if left > right { Side::Left } else { Side::Right };
        let child = here.link(side);
        if self.is_in_debt(child) {
            return Verdict::Below(child);
        }
        let child = self.nodes.at(child);
        let inner = child.link(other(side));
        if self.nodes.at(child.link(side)).height >= self.nodes.at(inner).height {
            Verdict::Rotate(side)
        } else if self.is_in_debt(inner) {
            Verdict::Below(inner)
        } else {
            Verdict::RotateTwice(side)
        }
    }

    fn make(&mut self, node: u64, verdict: Verdict) {
        self.changes += 1;
        let parent = self.nodes.at(node).parent;
        match verdict {
            Verdict::Balanced | Verdict::Below(_) => {}
            Verdict::Height(height) => {
                let here = self.nodes.at_mut(node);
                here.version += 2;
                here.height = height;
            }
            Verdict::Rotate(side) => self.rotate(node, parent, side),
            Verdict::RotateTwice(side) => self.rotate_twice(node, parent, side),
        }
        self.charge(parent);
    }

    fn rotate(&mut self, node: u64, parent: u64, side: Side) {
        let child = self.nodes.at(node).link(side);
        let inner = self.nodes.at(child).link(other(side));
        self.replace(parent, node, child);
        self.turn(child, other(side), node, parent);
        self.turn(node, side, inner, child);
        self.rehang(inner, node);
        self.restore_height(node);
        self.restore_height(child);
        self.charge(node);
        self.charge(child);
    }

    fn rotate_twice(&mut self, node: u64, parent: u64, side: Side) {
        let child = self.nodes.at(node).link(side);
        let inner = self.nodes.at(child).link(other(side));
        let near = self.nodes.at(inner).link(side);
        let far = self.nodes.at(inner).link(other(side));
        self.replace(parent, node, inner);
        self.turn(inner, side, child, parent);
        self.nodes.at_mut(inner).set_link(other(side), node);
        self.turn(child, other(side), near, inner);
        self.turn(node, side, far, inner);
        self.rehang(near, child);
        self.rehang(far, node);
        self.restore_height(child);
        self.restore_height(node);
        self.restore_height(inner);
        self.charge(node);
        self.charge(child);
        self.charge(inner);
    }

    /// The link to a node goes to another one.
    fn replace(&mut self, above: u64, old: u64, new: u64) {
        let side = if self.nodes.at(above).left == old { Side::Left } else { Side::Right };
        self.nodes.change_link(above, side, new);
    }

    fn turn(&mut self, node: u64, side: Side, link: u64, parent: u64) {
        self.nodes.change_link(node, side, link);
        self.nodes.at_mut(node).parent = parent;
    }

    /// A node, if it is one, comes to hang below another.
    fn rehang(&mut self, node: u64, above: u64) {
        if node != 0 {
            let node = self.nodes.at_mut(node);
            node.version += 2;
            node.parent = above;
        }
    }

    fn restore_height(&mut self, node: u64) {
        self.nodes.at_mut(node).height = self.height_over(node);
    }

    /// Unlinks a node with at most one child.
    fn unlink(&mut self, above: u64, side: Side, node: u64) {
        let Node { left, right, .. } = *self.nodes.at(node);
        let heir = if left == 0 { right } else { left };
        self.nodes.change_link(above, side, heir);
        self.rehang(heir, above);
        self.nodes.give(node);
    }

    /// Lifts the key and the value of a node's successor to the node, and unlinks the successor.
    fn lift_successor(&mut self, node: u64) {
        let (mut above, mut side, mut next) = (node, Side::Right, self.nodes.at(node).right);
        while self.nodes.at(next).left != 0 {
            (above, side, next) = (next, Side::Left, self.nodes.at(next).left);
        }
        let Node { key, value, .. } = *self.nodes.at(next);
        let target = self.nodes.at_mut(node);
        (target.key, target.value) = (key, value);
        self.charge(node);
        if above != node {
            self.nodes.at_mut(node).version += 2;
            self.charge(above);
        }
        self.unlink(above, side, next);
    }

    fn print_shape(&self, out: &mut impl Write, node: u64, depth: usize) -> io::Result<()> {
        if node == 0 {
            return Ok(());
        }
        let here = self.nodes.at(node);
        let (left, right) = self.heights(here);
        writeln!(out, "{depth} {} {} {}", here.key, here.height, left as i64 - right as i64)?;
        self.print_shape(out, here.left, depth + 1)?;
        self.print_shape(out, here.right, depth + 1)
    }
}

impl OrderedMap for RelaxedTree {
    fn with_room(pairs: usize) -> RelaxedTree {
        let owed = Owed { keys: Vec::with_capacity(MOST_KEYS), from: None };
        RelaxedTree { nodes: Nodes::with_room(pairs), owed, repairs: 0, changes: 0 }
    }

    fn put(&mut self, key: u64, value: u64) -> Option<u64> {
        let Place { above, side, node } = self.nodes.find(key);
        if node != 0 {
            let node = self.nodes.at_mut(node);
            node.version += 2;
            return Some(std::mem::replace(&mut node.value, value));
        }
        let leaf = self.nodes.take(key, value);
        (self.nodes.at_mut(leaf).parent, self.nodes.at_mut(leaf).height) = (above, 1);
        self.nodes.change_link(above, side, leaf);
        self.charge(above);
        self.settle();
        None
    }

    fn get(&self, key: u64) -> Option<u64> {
        self.nodes.pair(self.nodes.find(key).node).map(|pair| pair.1)
    }

    fn remove(&mut self, key: u64) -> Option<u64> {
        let Place { above, side, node } = self.nodes.find(key);
        let (_, value) = self.nodes.pair(node)?;
        if self.nodes.at(node).left == 0 || self.nodes.at(node).right == 0 {
            self.unlink(above, side, node);
            self.charge(above);
        } else {
            self.lift_successor(node);
        }
        self.settle();
        Some(value)
    }

    fn ceil(&self, key: u64) -> Option<(u64, u64)> {
        self.nodes.pair(self.nodes.ceil(key))
    }

    fn floor(&self, key: u64) -> Option<(u64, u64)> {
        self.nodes.pair(self.nodes.floor(key))
    }

    fn len(&self) -> usize {
        self.nodes.len()
    }

    fn pairs(&self) -> impl Iterator<Item = (u64, u64)> {
        self.nodes.pairs()
    }
}

/// Runs the calls of client 1, and keeps an entry of each.
fn history_of(map: &mut RelaxedTree, calls: &[Call]) -> Vec<Entry> {
    let mut entries = Vec::with_capacity(calls.len());
    for call in calls {
        let reply = reply_of(map, *call);
        let number = entries.len() as u32 + 1;
        entries.push(Entry { client: 1, number, call: *call, reply, stamp: u64::from(number) });
    }
    entries
}

fn run(out: &mut impl Write, calls: &[Call], shape: bool, repairs: bool) -> io::Result<()> {
    let mut map = RelaxedTree::with_room(room_for(calls));
    ordered_map::print_history(out, &history_of(&mut map, calls))?;
    ordered_map::print_pairs(out, &map)?;
    if shape {
        let root = map.nodes.at(SENTINEL).left;
        writeln!(out, "shape {}", map.nodes.at(root).height)?;
        map.print_shape(out, root, 1)?;
    }
    if repairs {
        eprintln!("{} {}", map.repairs, map.changes);
    }
    writeln!(out, "end")
}

fn main() -> io::Result<ExitCode> {
    let words: Vec<String> = std::env::args().collect();
    let has = |word: &str| words.iter().any(|given| given == word);
    with_calls(|out, calls| run(out, calls, has("--shape"), has("--repairs")))
}
