// SPDX-License-Identifier: Apache-2.0
//! The pages that a plan has latched.

use std::cell::Cell;
use std::ops::{Index, IndexMut};
use std::ptr::slice_from_raw_parts_mut;

/// How many bytes of an image the head takes.
pub(crate) const HEAD: usize = 12;

/// A page that is latched.
struct Latched {
    slot: u32,
    page: u32,
    is_mine: bool,
    /// Where the pool keeps its body. Until the latch is taken off nobody writes there but who has
    /// it latched X, and the pool moves no page.
    body: *mut [u8],
    /// Once the work has changed it: what is to stand there.
    changed: Option<Box<[u8]>>,
}

impl Latched {
    /// The body as the work sees it.
    fn seen(&self) -> &[u8] {
        match &self.changed {
            Some(changed) => changed,
            // SAFETY: it is latched as long as it is in the table.
            None => unsafe { &*self.body },
        }
    }
}

/// The pages that a plan has latched just now.
///
/// **A page that is latched S is read where the pool keeps it**, without the lock: nothing is copied.
/// One that is latched X is read there too, but what is changed is a copy, which is made at the first
/// change and put in right before the latch is taken off. For a work may give up, or a device fail,
/// when the page was changed already: then it stays as it was, and engines build on that (a leaf of
/// examples/store is found to have no room when half of a split is done). Neither copy is made under
/// the lock.
pub(crate) struct Table {
    latched: Vec<Latched>,
    /// Copies that are used no more.
    spare: Vec<Box<[u8]>>,
    is_given_up: Cell<bool>,
}

// SAFETY: one thread at a time has a table, and any thread may use what its plan has latched.
unsafe impl Send for Table {}

impl Table {
    pub(crate) fn new() -> Table {
        Table {
            latched: Vec::new(),
            spare: Vec::new(),
            is_given_up: Cell::new(false),
        }
    }

    /// The page in the slot was latched.
    ///
    /// # Safety
    ///
    /// Until [`Table::let_go`] or [`Table::clear`] so many bytes can be read there, and where it is
    /// latched X nobody else does, and they can be written.
    pub(crate) unsafe fn hold(
        &mut self,
        slot: u32,
        page: u32,
        is_mine: bool,
        (bytes, length): (*mut u8, usize),
    ) {
        self.latched.push(Latched {
            slot,
            page,
            is_mine,
            body: slice_from_raw_parts_mut(bytes, length),
            changed: None,
        });
    }

    /// Whether the work has changed the page in the slot.
    pub(crate) fn is_changed(&self, slot: u32) -> bool {
        self.of(slot).map_or(false, |it| it.changed.is_some())
    }

    /// What the work has made of the page in the slot becomes the page.
    pub(crate) fn put_in(&mut self, slot: u32) {
        for latched in self.latched.iter_mut().filter(|it| it.slot == slot) {
            if let Some(changed) = latched.changed.take() {
                // SAFETY: only a page that is latched X is changed, and nobody else reads or writes
                // it.
                unsafe { &mut *latched.body }.copy_from_slice(&changed);
                self.spare.push(changed);
            }
        }
    }

    /// The slot is about to be unlatched. Answers whether the work might change its page.
    pub(crate) fn let_go(&mut self, slot: u32) -> bool {
        let found = self.latched.iter().position(|it| it.slot == slot);
        found.map_or(false, |at| {
            let latched = self.latched.swap_remove(at);
            self.spare.extend(latched.changed);
            latched.is_mine
        })
    }

    /// Nothing is latched.
    pub(crate) fn clear(&mut self) {
        self.spare
            .extend(self.latched.drain(..).filter_map(|it| it.changed));
    }

    /// Whether the plan was given up in the call that ended now.
    pub(crate) fn take_given_up(&self) -> bool {
        self.is_given_up.take()
    }

    fn of(&self, slot: u32) -> Option<&Latched> {
        self.latched.iter().find(|it| it.slot == slot)
    }

    /// Copies the body in the slot if it is latched X and wasn't copied yet. Answers where it is.
    fn copied(&mut self, slot: u32) -> Option<usize> {
        let is_it = |it: &Latched| it.slot == slot && it.is_mine;
        let at = self.latched.iter().position(is_it)?;
        if self.latched[at].changed.is_none() {
            let body = self.latched[at].seen();
            let copy = match self.spare.pop() {
                Some(mut copy) if copy.len() == body.len() => {
                    copy.copy_from_slice(body);
                    copy
                }
                _ => body.into(),
            };
            self.latched[at].changed = Some(copy);
        }
        Some(at)
    }

    fn changed(&mut self, at: usize) -> Option<&mut [u8]> {
        self.latched[at].changed.as_deref_mut()
    }
}

/// The pages that a plan has latched just now, by their slots. A body has the bytes of a page
/// behind its head of 12 bytes.
///
/// `pages[slot]` is the body of a page that is latched, and can be changed where it is latched X;
/// it panics where it isn't. It is read where the pool keeps it; where it is changed, the change is
/// made in a copy.
pub struct Pages<'r> {
    // (By its lifetime no work can keep it, nor swap it for that of another plan.)
    table: &'r mut Table,
}

impl<'r> Pages<'r> {
    pub(crate) fn new(table: &'r mut Table) -> Pages<'r> {
        Pages { table }
    }

    /// The page in the slot, if it is latched.
    pub fn page(&self, slot: u32) -> Option<u32> {
        self.table.of(slot).map(|it| it.page)
    }

    /// The body of the page in the slot, if it is latched.
    pub fn body(&self, slot: u32) -> Option<&[u8]> {
        self.table.of(slot).map(Latched::seen)
    }

    /// The body of the page in the slot, if it is latched X. The first time it is copied for that.
    pub fn body_mut(&mut self, slot: u32) -> Option<&mut [u8]> {
        let at = self.table.copied(slot)?;
        self.table.changed(at)
    }

    /// The bodies in two different slots that are both latched X.
    pub fn two_mut(&mut self, one: u32, other: u32) -> Option<(&mut [u8], &mut [u8])> {
        let (first, second) = (self.table.copied(one)?, self.table.copied(other)?);
        if first == second {
            return None;
        }
        let (low, high) = self.table.latched.split_at_mut(first.max(second));
        let low = low[first.min(second)].changed.as_deref_mut()?;
        let high = high[0].changed.as_deref_mut()?;
        Some(if first < second {
            (low, high)
        } else {
            (high, low)
        })
    }

    /// Gives the plan up: the work isn't called any more, and pages that are latched stay as they
    /// were when they were latched.
    pub fn give_up(&self) {
        self.table.is_given_up.set(true);
    }
}

impl Index<u32> for Pages<'_> {
    type Output = [u8];
    fn index(&self, slot: u32) -> &[u8] {
        self.body(slot)
            .expect("the page in this slot isn't latched")
    }
}

impl IndexMut<u32> for Pages<'_> {
    fn index_mut(&mut self, slot: u32) -> &mut [u8] {
        self.body_mut(slot)
            .expect("the page in this slot isn't latched X")
    }
}
