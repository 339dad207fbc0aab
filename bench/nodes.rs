//! The nodes of a search tree in one array, as the plain programs have them: eight words a node, whose
//! versions go up by two at each change and by one where a node is taken out. A node lies in one cache line.
use std::cmp::Ordering;
use std::iter;

/// The sentinel. The root is its left child, and a link of 0 names no node.
pub const SENTINEL: u64 = 1;

#[derive(Clone, Copy, Default)]
#[repr(C, align(64))]
pub struct Node {
    pub version: u64,
    pub key: u64,
    pub value: u64,
    pub left: u64,
    pub right: u64,
    pub parent: u64,
    pub height: u64,
    pub spare: u64,
}

#[derive(Clone, Copy, PartialEq)]
pub enum Side {
    Left,
    Right,
}

/// Where a walk to a key ended: at the node with the key, or at 0, and the link that leads there.
pub struct Place {
    pub above: u64,
    pub side: Side,
    pub node: u64,
}

pub struct Nodes {
    nodes: Vec<Node>,
    free: Vec<u64>,
}

impl Node {
    pub fn link(&self, side: Side) -> u64 {
        match side {
            Side::Left => self.left,
            Side::Right => self.right,
        }
    }

    pub fn set_link(&mut self, side: Side, link: u64) {
        match side {
            Side::Left => self.left = link,
            Side::Right => self.right = link,
        }
    }
}

impl Nodes {
    pub fn with_room(pairs: usize) -> Nodes {
        let mut nodes = vec![Node { version: 1, ..Node::default() }; pairs + 3];
        nodes[SENTINEL as usize] = Node { key: (1 << 62) - 1, ..Node::default() };
        let free = (2..pairs as u64 + 3).rev().collect();
        Nodes { nodes, free }
    }

    pub fn at(&self, node: u64) -> &Node {
        &self.nodes[node as usize]
    }

    pub fn at_mut(&mut self, node: u64) -> &mut Node {
        &mut self.nodes[node as usize]
    }

    pub fn find(&self, key: u64) -> Place {
        let (mut above, mut side, mut node) = (SENTINEL, Side::Left, self.at(SENTINEL).left);
        while node != 0 {
            let here = self.at(node);
            match key.cmp(&here.key) {
                Ordering::Equal => break,
                Ordering::Less => (above, side, node) = (node, Side::Left, here.left),
                Ordering::Greater => (above, side, node) = (node, Side::Right, here.right),
            }
        }
        Place { above, side, node }
    }

    /// Changes a link of a node, and with it the node's version.
    pub fn change_link(&mut self, above: u64, side: Side, link: u64) {
        let above = self.at_mut(above);
        above.version += 2;
        above.set_link(side, link);
    }

    pub fn take(&mut self, key: u64, value: u64) -> u64 {
        let slot = self.free.pop().expect("a slot for each put");
        let version = self.at(slot).version + 1;
        *self.at_mut(slot) = Node { version, key, value, ..Node::default() };
        slot
    }

    pub fn give(&mut self, node: u64) {
        self.at_mut(node).version += 1;
        self.free.push(node);
    }

    /// The node with the least key from this one up, or 0.
    pub fn ceil(&self, key: u64) -> u64 {
        let (mut nearest, mut node) = (0, self.at(SENTINEL).left);
        while node != 0 {
            let here = self.at(node);
            match key.cmp(&here.key) {
                Ordering::Equal => return node,
                Ordering::Less => (nearest, node) = (node, here.left),
                Ordering::Greater => node = here.right,
            }
        }
        nearest
    }

    /// The node with the greatest key from this one down, or 0.
    pub fn floor(&self, key: u64) -> u64 {
        let (mut nearest, mut node) = (0, self.at(SENTINEL).left);
        while node != 0 {
            let here = self.at(node);
            match key.cmp(&here.key) {
                Ordering::Equal => return node,
                Ordering::Less => node = here.left,
                Ordering::Greater => (nearest, node) = (node, here.right),
            }
        }
        nearest
    }

    pub fn pair(&self, node: u64) -> Option<(u64, u64)> {
        (node != 0).then(|| (self.at(node).key, self.at(node).value))
    }

    pub fn len(&self) -> usize {
        self.nodes.len() - 2 - self.free.len()
    }

    pub fn pairs(&self) -> impl Iterator<Item = (u64, u64)> + '_ {
        let mut waiting = Vec::new();
        let mut node = self.at(SENTINEL).left;
        iter::from_fn(move || {
            while node != 0 {
                waiting.push(node);
                node = self.at(node).left;
            }
            let next = waiting.pop()?;
            node = self.at(next).right;
            self.pair(next)
        })
    }
}
