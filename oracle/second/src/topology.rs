//! Nodes by number, each with its parent; CPUs on their leaves.

use crate::CPUS;

const NODES: usize = 128;

pub struct Topology {
    /// The parent of each node; the root's own entry is never looked at.
    parent: Vec<u8>,
    /// The node each CPU was placed on.
    place: [Option<u8>; CPUS],
}

impl Topology {
    pub fn new() -> Self {
        Topology {
            parent: vec![0],
            place: [None; CPUS],
        }
    }

    pub fn nodes(&self) -> usize {
        self.parent.len()
    }

    fn exists(&self, node: u8) -> bool {
        (node as usize) < self.parent.len()
    }

    fn children(&self, node: u8) -> impl Iterator<Item = u8> + '_ {
        (1..self.parent.len()).filter(move |c| self.parent[*c] == node).map(|c| c as u8)
    }

    pub fn placed(&self, cpu: u8) -> bool {
        self.place[cpu as usize].is_some()
    }

    /// "node existing, parent without CPUs of its own and fewer than 128 nodes"
    pub fn may_have_child(&self, node: u8) -> bool {
        self.exists(node) && !self.place.contains(&Some(node)) && self.parent.len() < NODES
    }

    /// "node existing ... node without children"
    pub fn is_leaf(&self, node: u8) -> bool {
        self.exists(node) && self.children(node).next().is_none()
    }

    pub fn add(&mut self, parent: u8) {
        self.parent.push(parent);
    }

    pub fn place(&mut self, node: u8, cpu: u8) {
        self.place[cpu as usize] = Some(node);
    }

    /// The nodes from the CPU's own up to the root.
    fn path(&self, cpu: u8) -> Vec<u8> {
        let mut path = vec![self.place[cpu as usize].unwrap()];
        while *path.last().unwrap() != 0 {
            path.push(self.parent[*path.last().unwrap() as usize]);
        }
        path
    }

    /// All CPUs, ascending.
    pub fn all(&self) -> Vec<u8> {
        (0..CPUS as u8).filter(|cpu| self.placed(*cpu)).collect()
    }

    /// All CPUs as the search visits them: children in node order, within a leaf ascending.
    pub fn search_order(&self) -> Vec<u8> {
        self.below(0)
    }

    fn below(&self, node: u8) -> Vec<u8> {
        if self.is_leaf(node) {
            return (0..CPUS as u8).filter(|cpu| self.place[*cpu as usize] == Some(node)).collect();
        }
        self.children(node).flat_map(|child| self.below(child)).collect()
    }

    /// The other CPUs as stealing visits them: those of the own leaf, then those that each node further up adds,
    /// ascending.
    pub fn steal_order(&self, us: u8) -> Vec<u8> {
        let mut order: Vec<u8> = Vec::new();
        for node in self.path(us) {
            for cpu in self.all() {
                if cpu != us && self.path(cpu).contains(&node) && !order.contains(&cpu) {
                    order.push(cpu);
                }
            }
        }
        order
    }
}
