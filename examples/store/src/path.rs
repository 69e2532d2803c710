// SPDX-License-Identifier: Apache-2.0
//! The way of a plan down a tree: which page it fixes next, and which branch it takes.

use crate::layout::{Layout, FIRST_OF_NODES, ROOT};
use crate::node;
use pinpool::Ahead;

/// What the next choice of a plan is by.
#[derive(Clone, Copy, PartialEq)]
enum By {
    /// The height of the root, which isn't latched yet.
    Height,
    /// The region of the root's child.
    Child,
    /// Which of the two regions of a level the next node is of.
    Side,
}

/// The way to the leaf of a key.
pub struct Path<'a> {
    layout: &'a Layout,
    key: &'a [u8],
    root: u32,
    /// How high the root stands: at first what was known of it, behind its latch what it says.
    pub height: usize,
    /// Whether the root has another height than the plan was begun with: the plan is to be given
    /// up, and begun anew.
    pub is_lost: bool,
    /// The page of the node that comes next.
    pub next: u32,
    choice: By,
}

impl<'a> Path<'a> {
    /// The way of a plan that begins with a choice by the root's height, which is believed to be this.
    pub fn new(layout: &'a Layout, root: u32, height: usize, key: &'a [u8]) -> Path<'a> {
        Path {
            layout,
            key,
            root,
            height,
            is_lost: false,
            next: root,
            choice: By::Height,
        }
    }

    /// The way of a plan that begins with the root.
    pub fn from_root(layout: &'a Layout, root: u32, key: &'a [u8]) -> Path<'a> {
        Path {
            choice: By::Child,
            ..Path::new(layout, root, 0, key)
        }
    }

    /// The key.
    pub fn key(&self) -> &'a [u8] {
        self.key
    }

    /// The page to fix in this region, where the node that comes next is of it.
    pub fn page(&self, region: u32) -> Option<u32> {
        match region {
            ROOT => Some(self.root),
            _ => (self.layout.region_of(self.next) == Some(region)).then_some(self.next),
        }
    }

    /// The branch to take: first the one for the root's height, or for its child, and then by the
    /// region of the node that comes next. None where that node is the root.
    pub fn branch(&mut self) -> Option<u32> {
        if self.choice == By::Height {
            self.choice = By::Side;
            return Some(self.height as u32 - 1);
        }
        let region = self.layout.region_of(self.next)?;
        let place = region.checked_sub(FIRST_OF_NODES)?;
        Some(if self.is_at_root() { place } else { place % 2 })
    }

    /// Whether the choice that comes now is the one by the root's child. The next one isn't.
    pub fn is_at_root(&mut self) -> bool {
        std::mem::replace(&mut self.choice, By::Side) == By::Child
    }

    /// The branch and the page that come next, as far as they are known: so the pool needn't ask.
    pub fn ahead(&mut self) -> Ahead {
        Ahead {
            branch: self.branch(),
            page: Some(self.next),
        }
    }

    /// Sees which child of an inner node comes next, and answers its number.
    pub fn see(&mut self, slot: u32, body: &[u8]) -> usize {
        let height_is_known = self.choice != By::Child;
        if slot == ROOT && height_is_known && node::height(body) != self.height {
            self.height = node::height(body);
            self.is_lost = true;
            return 0;
        }
        let index = node::find_child(body, self.key);
        self.next = node::child(body, index);
        index
    }
}
