// SPDX-License-Identifier: Apache-2.0
//! What a thread does with the pages of its plan.

use crate::pages::Pages;
use std::ops::Range;

/// How a page comes into a slot.
#[derive(Clone, Copy, Debug, PartialEq, Eq)]
pub enum Kind {
    /// The slot holds this page alone, and it may be latched.
    Fix,
    /// The page is one of the slot's bundle.
    Gather,
}

/// A page is to be fixed or gathered.
#[derive(Clone, Debug, PartialEq, Eq)]
pub struct Fix {
    /// The slot that it comes into. Slots are numbered by their names in byte order.
    pub slot: u32,
    /// The region that it is of.
    pub region: u32,
    /// The pages of the region.
    pub pages: Range<u32>,
    /// How it comes there.
    pub kind: Kind,
}

/// What a work answers next, as far as it knows that before it is asked.
#[derive(Clone, Copy, Debug, Default, PartialEq, Eq)]
pub struct Ahead {
    /// The branch to take where a choice comes next, as by [`Work::branch`].
    pub branch: Option<u32>,
    /// The page where a fix comes next, be it behind that choice, as by [`Work::page`].
    pub page: Option<u32>,
}

/// What a thread does with the pages of its plan, and which way it takes where the plan leaves that
/// open.
///
/// The calls come one after another, by the thread that executes the plan, in the order of the
/// plan's statements. The pool's lock isn't held meanwhile, but the plan's latches are: so a work
/// should not wait, and it must not execute another plan of the same pool.
///
/// A plan can't be left in the midst. Where a work gives up (`None`, [`Pages::give_up`], or a
/// panic), what is left of its plan is run without it: nothing is changed by that, and pages that
/// are still latched stay as they were when they were latched.
pub trait Work {
    /// The page to fix or to gather, one of `fix.pages`. `None` gives the plan up.
    fn page(&mut self, fix: Fix) -> Option<u32>;

    /// The branch to take, below `branches`. `None` gives the plan up.
    fn branch(&mut self, _branches: u32) -> Option<u32> {
        None
    }

    /// What the work answers to the next choice and to the next fix, if it knows that by now. It is
    /// asked before the plan begins, and behind each call in which it has seen or changed a page. A
    /// work isn't asked again what it has said ahead; what no statement wants before the next page is
    /// latched is forgotten.
    ///
    /// A plan runs as well without it, but it takes the pool's lock more often: once more for each
    /// choice, and for each fix behind one.
    fn ahead(&mut self) -> Ahead {
        Ahead::default()
    }

    /// The page in the slot was latched S. It is read where the pool keeps it.
    fn see(&mut self, _slot: u32, _pages: &Pages) {}

    /// The page in the slot was latched X. What stands in its body when the latch is taken off, is
    /// the page from then on. Until then it can still be changed, in the call for another slot. It
    /// is copied at its first change, and read where the pool keeps it before.
    fn change(&mut self, _slot: u32, _pages: &mut Pages) {}
}
