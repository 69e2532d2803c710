// SPDX-License-Identifier: Apache-2.0
//! What all plans have that change several pages.

use super::{Changed, Held, Outcome, Trees};
use crate::change::Tag;
use pinpool::{Fix, Pages};

/// A page that was free, and is fixed by a plan.
pub(super) struct Spare {
    pub(super) slot: u32,
    pub(super) page: u32,
    pub(super) is_used: bool,
}

/// What all plans have that change several pages.
pub(super) struct Common<'a> {
    pub(super) trees: &'a Trees,
    pub(super) tag: Option<Tag>,
    pub(super) is_of_a_batch: bool,
    pub(super) held: Vec<Held>,
    pub(super) spares: Vec<Spare>,
    pub(super) outcome: Outcome,
}

impl<'a> Common<'a> {
    pub(super) fn new(trees: &'a Trees, tag: Option<Tag>) -> Common<'a> {
        Common {
            trees,
            tag,
            is_of_a_batch: tag.is_some(),
            held: Vec::new(),
            spares: Vec::new(),
            outcome: Outcome::Unknown,
        }
    }

    /// A page of the region that is free.
    pub(super) fn spare(&mut self, fix: &Fix) -> Option<u32> {
        let Some(page) = self.trees.space.take(fix.region, self.is_of_a_batch) else {
            self.outcome = Outcome::Full;
            return None;
        };
        self.spares.push(Spare {
            slot: fix.slot,
            page,
            is_used: false,
        });
        Some(page)
    }

    /// The page in the slot is in use, and may be changed.
    pub(super) fn hold(&mut self, slot: u32, pages: &Pages) {
        let before = Some(pages[slot].to_vec());
        self.held.push(Held { slot, before });
    }

    /// The page in the slot was free, and is a node from now on.
    pub(super) fn take(&mut self, slot: u32) {
        self.held.push(Held { slot, before: None });
        let spare = self.spares.iter_mut().find(|it| it.slot == slot);
        spare.expect("it was fixed for that").is_used = true;
    }

    /// All is changed.
    pub(super) fn done(&mut self, pages: &mut Pages, was_there: bool) {
        let end = self.trees.commit(pages, &self.held, self.tag);
        self.outcome = Outcome::Done(Changed { end, was_there });
    }

    /// More pages are needed: all that are held stay as they were.
    pub(super) fn needs_more(&mut self, pages: &Pages) {
        self.outcome = Outcome::NeedsMore;
        pages.give_up();
    }

    /// The plan has ended: what it didn't use is free again.
    pub(super) fn give_back(&mut self) {
        let is_done = matches!(self.outcome, Outcome::Done(_));
        for spare in self.spares.iter().filter(|it| !(it.is_used && is_done)) {
            self.trees.space.give(spare.page);
        }
    }
}
