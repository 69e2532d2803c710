// SPDX-License-Identifier: Apache-2.0
//! A change of a leaf alone.

use super::{Changed, Held, Op, Outcome, Trees};
use crate::change::Tag;
use crate::node;
use crate::path::Path;
use pinpool::{Ahead, Fix, Pages, Work};

/// A change of a leaf alone.
pub(super) struct Write<'a> {
    pub(super) trees: &'a Trees,
    pub(super) path: Path<'a>,
    pub(super) op: Op<'a>,
    pub(super) tag: Option<Tag>,
    pub(super) may_be_empty: bool,
    pub(super) outcome: Outcome,
}

impl Work for Write<'_> {
    fn page(&mut self, fix: Fix) -> Option<u32> {
        self.path.page(fix.region)
    }

    fn branch(&mut self, _branches: u32) -> Option<u32> {
        self.path.branch()
    }

    fn ahead(&mut self) -> Ahead {
        self.path.ahead()
    }

    fn see(&mut self, slot: u32, pages: &Pages) {
        self.path.see(slot, &pages[slot]);
    }

    fn change(&mut self, slot: u32, pages: &mut Pages) {
        let before = Some(pages[slot].to_vec());
        let is_last = node::count(&pages[slot]) == 1 && !self.may_be_empty;
        let body = &mut pages[slot];
        let (has_room, was_there) = match (node::find(body, self.path.key()), self.op) {
            (Ok(index), Op::Put(value)) => (node::replace(body, index, value), true),
            (Err(index), Op::Put(value)) => {
                (node::insert(body, index, self.path.key(), value), false)
            }
            (Ok(_), Op::Delete) if is_last => (false, true),
            (Ok(index), Op::Delete) => {
                node::remove(body, index);
                (true, true)
            }
            (Err(_), Op::Delete) => (true, false),
        };
        if !has_room {
            self.outcome = Outcome::NeedsMore;
            pages.give_up();
            return;
        }
        let end = self.trees.commit(pages, &[Held { slot, before }], self.tag);
        self.outcome = Outcome::Done(Changed { end, was_there });
    }
}
