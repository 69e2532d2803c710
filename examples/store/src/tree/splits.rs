// SPDX-License-Identifier: Apache-2.0
//! Splits, and leaves that are given back.

use super::common::Common;
use super::{HasPath, Op};
use crate::node;
use crate::path::Path;
use crate::plans::Job;
use pinpool::{Fix, Pages, Work};

/// A change of a leaf and of nodes above it: of its parent alone (`Pair`), or of all (`Path`).
pub(super) struct Restructure<'a> {
    pub(super) path: Path<'a>,
    pub(super) op: Op<'a>,
    pub(super) job: Job,
    /// The slot and the page of the way's node of each level that is latched X.
    pub(super) nodes: Vec<(u32, u32)>,
    /// The leaf that isn't one any more.
    pub(super) freed: Option<u32>,
    pub(super) common: Common<'a>,
}

impl<'a> HasPath<'a> for Restructure<'a> {
    fn path(&self) -> &Path<'a> {
        &self.path
    }
}

/// The other slot of a level. (An even node's slot is an odd number, since the root's is 0.)
pub(super) fn beside(slot: u32) -> u32 {
    ((slot - 1) ^ 1) + 1
}

impl Restructure<'_> {
    fn put(&mut self, pages: &mut Pages, value: &[u8]) {
        let (leaf, key) = (self.nodes[0].0, self.path.key());
        let body = &mut pages[leaf];
        let (index, was_there, has_room) = match node::find(body, key) {
            Ok(index) => (index, true, node::replace(body, index, value)),
            Err(index) => (index, false, node::insert(body, index, key, value)),
        };
        if has_room || self.split(pages, index, key, value) {
            self.common.done(pages, was_there);
        } else {
            self.common.needs_more(pages);
        }
    }

    /// Splits the leaf for a new entry before this one, and above it each node that has no room for
    /// the new child. Answers whether a node had.
    fn split(&mut self, pages: &mut Pages, index: usize, key: &[u8], value: &[u8]) -> bool {
        let (mut index, mut key, mut value) = (index, key.to_vec(), value.to_vec());
        let levels = if self.job == Job::Pair {
            1
        } else {
            self.path.height
        };
        for level in 0..levels {
            let (slot, above) = (self.nodes[level].0, self.nodes[level + 1].0);
            let page = pages.page(beside(slot)).unwrap_or(0);
            let Some((left, right)) = pages.two_mut(slot, beside(slot)) else {
                return false;
            };
            key = node::split(left, right, index, &key, &value);
            value = page.to_le_bytes().to_vec();
            self.common.take(beside(slot));
            index = node::find(&pages[above], &key).unwrap_or_else(|index| index);
            if node::insert(&mut pages[above], index, &key, &value) {
                return true;
            }
        }
        false
    }

    /// Takes the key out. A leaf that has no entry then is taken out of its parent, unless it is the
    /// only child, and stays as it was otherwise.
    fn delete(&mut self, pages: &mut Pages) {
        let ((leaf, page), parent) = (self.nodes[0], self.nodes[1].0);
        let found = node::find(&pages[leaf], self.path.key());
        if let Ok(index) = found {
            if node::count(&pages[leaf]) == 1 && node::count(&pages[parent]) > 1 {
                let number = node::find_child(&pages[parent], self.path.key());
                node::remove(&mut pages[parent], number);
                node::clear_first_key(&mut pages[parent]);
                self.freed = Some(page);
            } else {
                node::remove(&mut pages[leaf], index);
            }
        }
        self.common.done(pages, found.is_ok());
    }
}

impl Work for Restructure<'_> {
    fn page(&mut self, fix: Fix) -> Option<u32> {
        self.path
            .page(fix.region)
            .or_else(|| self.common.spare(&fix))
    }

    fn branch(&mut self, _branches: u32) -> Option<u32> {
        self.path.branch()
    }

    fn see(&mut self, slot: u32, pages: &Pages) {
        self.path.see(slot, &pages[slot]);
        if self.path.is_lost {
            pages.give_up();
        }
    }

    fn change(&mut self, slot: u32, pages: &mut Pages) {
        let page = pages.page(slot).unwrap_or(0);
        if page == self.path.next {
            let level = node::height(&pages[slot]).min(self.nodes.len() - 1);
            self.nodes[level] = (slot, page);
            self.common.hold(slot, pages);
            if level > 0 {
                self.path.see(slot, &pages[slot]);
            }
        }
        if self.path.is_lost {
            pages.give_up();
        } else if slot == self.common.trees.layout.even_of(0) + 1 {
            match self.op {
                Op::Put(value) => self.put(pages, value),
                Op::Delete => self.delete(pages),
            }
        }
    }
}
