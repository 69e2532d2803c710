// SPDX-License-Identifier: Apache-2.0
//! What a get and a scan see.

use super::Entry;
use crate::layout::FIRST_OF_NODES;
use crate::node;
use crate::path::Path;
use crate::plans::LEAVES_OF_A_SCAN;
use pinpool::{Ahead, Fix, Pages, Work};

/// A get.
pub(super) struct Look<'a> {
    pub(super) path: Path<'a>,
    pub(super) first_leaf: u32,
    pub(super) value: Option<Vec<u8>>,
}

impl Work for Look<'_> {
    fn page(&mut self, fix: Fix) -> Option<u32> {
        self.path.page(fix.region)
    }

    fn branch(&mut self, _branches: u32) -> Option<u32> {
        self.path.branch()
    }

    fn ahead(&mut self) -> Ahead {
        self.path.ahead()
    }

    fn see(&mut self, slot: u32, pages: &Pages) {
        let body = &pages[slot];
        if slot < self.first_leaf {
            self.path.see(slot, body);
        } else if let Ok(index) = node::find(body, self.path.key()) {
            self.value = Some(node::value(body, index).to_vec());
        }
    }
}

/// A part of a scan: leaves of one parent.
pub(super) struct Scan<'a> {
    pub(super) path: Path<'a>,
    pub(super) first_leaf: u32,
    pub(super) to: Option<&'a [u8]>,
    pub(super) most: usize,
    /// The leaves to see, the next one last; none where their parent wasn't seen yet.
    pub(super) leaves: Option<Vec<u32>>,
    /// What all keys are below of the leaves that are seen; none where they have the tree's greatest
    /// ones.
    pub(super) upper: Option<Vec<u8>>,
    pub(super) entries: Vec<Entry>,
}

impl Scan<'_> {
    /// Sees an inner node. Of the parent of leaves it notes which ones are to be seen, and from
    /// which key on the scan goes on behind them.
    fn see_inner(&mut self, slot: u32, body: &[u8]) {
        let first = self.path.see(slot, body);
        let is_parent = node::height(body) == 1;
        let children = if is_parent { LEAVES_OF_A_SCAN } else { 1 };
        let end = node::count(body).min(first + children);
        if is_parent {
            let leaves = (first..end).rev().map(|index| node::child(body, index));
            self.leaves = Some(leaves.collect());
        }
        if end < node::count(body) {
            self.upper = Some(node::key(body, end).to_vec());
        }
    }

    /// Takes down what a leaf has.
    fn see_leaf(&mut self, body: &[u8]) {
        let first = node::find(body, self.path.key()).unwrap_or_else(|index| index);
        for index in first..node::count(body) {
            let key = node::key(body, index);
            if self.entries.len() >= self.most || self.to.is_some_and(|to| key >= to) {
                self.leaves = Some(Vec::new());
                return;
            }
            self.entries
                .push((key.to_vec(), node::value(body, index).to_vec()));
        }
    }
}

impl Work for Scan<'_> {
    fn page(&mut self, fix: Fix) -> Option<u32> {
        self.path.page(fix.region)
    }

    /// Down to the parent, and then by the region of the next leaf; 2 where none comes. Where the root
    /// is the parent, the branch for all its leaves comes before.
    fn branch(&mut self, _branches: u32) -> Option<u32> {
        match &mut self.leaves {
            None => self.path.branch(),
            Some(_) if self.path.is_at_root() => Some(self.first_leaf - FIRST_OF_NODES),
            Some(leaves) => match leaves.pop() {
                Some(leaf) => {
                    self.path.next = leaf;
                    self.path.branch()
                }
                None => Some(2),
            },
        }
    }

    fn ahead(&mut self) -> Ahead {
        Ahead {
            branch: self.branch(3),
            page: Some(self.path.next),
        }
    }

    fn see(&mut self, slot: u32, pages: &Pages) {
        match slot < self.first_leaf {
            true => self.see_inner(slot, &pages[slot]),
            false => self.see_leaf(&pages[slot]),
        }
    }
}
