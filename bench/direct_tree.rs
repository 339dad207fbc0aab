//! The job of pathmap on the same tree, by direct loops: the unbalanced internal search tree.
#[allow(dead_code)]
mod nodes;
#[allow(dead_code)]
mod ordered_map;
mod script;

use nodes::{Node, Nodes, Place, Side};
use ordered_map::OrderedMap;
use std::io;
use std::process::ExitCode;

struct DirectTree(Nodes);

impl DirectTree {
    /// Lifts the key and the value of a node's successor to the node, and unlinks the successor.
    fn lift_successor(&mut self, node: u64) {
        let (mut above, mut side, mut next) = (node, Side::Right, self.0.at(node).right);
        while self.0.at(next).left != 0 {
            (above, side, next) = (next, Side::Left, self.0.at(next).left);
        }
        let Node { key, value, right, .. } = *self.0.at(next);
        let target = self.0.at_mut(node);
        (target.key, target.value) = (key, value);
        if above != node {
            target.version += 2;
        }
        self.0.change_link(above, side, right);
        self.0.give(next);
    }
}

impl OrderedMap for DirectTree {
    fn with_room(pairs: usize) -> DirectTree {
        DirectTree(Nodes::with_room(pairs))
    }

    fn put(&mut self, key: u64, value: u64) -> Option<u64> {
        let place = self.0.find(key);
        if place.node == 0 {
            let slot = self.0.take(key, value);
            self.0.change_link(place.above, place.side, slot);
            return None;
        }
        let node = self.0.at_mut(place.node);
        node.version += 2;
        Some(std::mem::replace(&mut node.value, value))
    }

    fn get(&self, key: u64) -> Option<u64> {
        self.0.pair(self.0.find(key).node).map(|pair| pair.1)
    }

    fn remove(&mut self, key: u64) -> Option<u64> {
        let Place { above, side, node } = self.0.find(key);
        let (_, value) = self.0.pair(node)?;
        match (self.0.at(node).left, self.0.at(node).right) {
            (0, child) | (child, 0) => {
                self.0.change_link(above, side, child);
                self.0.give(node);
            }
            _ => self.lift_successor(node),
        }
        Some(value)
    }

    fn ceil(&self, key: u64) -> Option<(u64, u64)> {
        self.0.pair(self.0.ceil(key))
    }

    fn floor(&self, key: u64) -> Option<(u64, u64)> {
        self.0.pair(self.0.floor(key))
    }

    fn len(&self) -> usize {
        self.0.len()
    }

    fn pairs(&self) -> impl Iterator<Item = (u64, u64)> {
        self.0.pairs()
    }
}

fn main() -> io::Result<ExitCode> {
    ordered_map::serve::<DirectTree>()
}
