// SPDX-License-Identifier: Apache-2.0
//! A root that grows, and a new tree.

use super::common::Common;
use super::splits::beside;
use super::HasPath;
use crate::layout::ROOT;
use crate::node;
use crate::path::Path;
use pinpool::{Fix, Pages, Work};

/// The growth of a root.
pub(super) struct Grow<'a> {
    pub(super) path: Path<'a>,
    pub(super) last_slot: u32,
    pub(super) common: Common<'a>,
}

impl<'a> HasPath<'a> for Grow<'a> {
    fn path(&self) -> &Path<'a> {
        &self.path
    }
}

impl Grow<'_> {
    fn grow(&mut self, pages: &mut Pages) {
        let (even, odd) = (beside(self.last_slot), self.last_slot);
        let children = [even, odd].map(|slot| pages.page(slot).unwrap_or(0).to_le_bytes());
        let (old, height) = (pages[ROOT].to_vec(), self.path.height);
        let (root, count) = (node::root(&old), node::count(&old));
        let between = node::key(&old, count / 2);
        for (slot, numbers) in [(even, 0..count / 2), (odd, count / 2..count)] {
            node::make(&mut pages[slot], height, root);
            node::copy(&old, numbers, &mut pages[slot]);
            self.common.take(slot);
        }
        node::make(&mut pages[ROOT], height + 1, root);
        node::insert(&mut pages[ROOT], 0, &[], &children[0]);
        node::insert(&mut pages[ROOT], 1, between, &children[1]);
        self.common.done(pages, false);
    }
}

impl Work for Grow<'_> {
    fn page(&mut self, fix: Fix) -> Option<u32> {
        match fix.region {
            ROOT => self.path.page(ROOT),
            _ => self.common.spare(&fix),
        }
    }

    fn branch(&mut self, _branches: u32) -> Option<u32> {
        self.path.branch()
    }

    fn change(&mut self, slot: u32, pages: &mut Pages) {
        if slot == ROOT {
            self.common.hold(ROOT, pages);
            self.path.see(ROOT, &pages[ROOT]);
            // (with fewer children it has room again)
            if self.path.is_lost || node::count(&pages[ROOT]) < 4 {
                pages.give_up();
            }
        } else if slot == self.last_slot {
            self.grow(pages);
        }
    }
}

/// A new tree.
pub(super) struct Found<'a> {
    pub(super) path: Path<'a>,
    pub(super) common: Common<'a>,
}

/// The slots of its plan behind that of the root.
const LEAF: u32 = 1;
const NAMES: u32 = 2;

impl Work for Found<'_> {
    fn page(&mut self, fix: Fix) -> Option<u32> {
        match fix.slot {
            ROOT => self.path.page(ROOT),
            LEAF => self.common.spare(&fix),
            _ => Some(fix.pages.start),
        }
    }

    fn change(&mut self, slot: u32, pages: &mut Pages) {
        if slot == LEAF {
            return;
        }
        self.common.hold(slot, pages);
        if slot != NAMES {
            return;
        }
        let root = pages.page(ROOT).unwrap_or(0);
        let leaf = pages.page(LEAF).unwrap_or(0);
        let names = &mut pages[NAMES];
        if !node::is_node(names) {
            node::make(names, 0, 0);
        }
        let index = node::find(names, self.path.key()).unwrap_or_else(|index| index);
        if !node::insert(names, index, self.path.key(), &root.to_le_bytes()) {
            return self.common.needs_more(pages);
        }
        node::make(&mut pages[ROOT], 1, root);
        node::insert(&mut pages[ROOT], 0, &[], &leaf.to_le_bytes());
        node::make(&mut pages[LEAF], 0, root);
        self.common.take(LEAF);
        self.common.done(pages, false);
    }
}
