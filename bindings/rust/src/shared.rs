// SPDX-License-Identifier: Apache-2.0
//! The pool's handle under its lock, and the threads' bells.

use crate::ffi::{self, Handle, Told, NOBODY};
use crate::running::Room;
use std::sync::{Condvar, Mutex, MutexGuard};
use std::time::Duration;

/// What the lock guards: the handle of an open pool, and what a plan's thread finds in its chair.
pub(crate) struct Raw {
    pub(crate) handle: Handle,
    /// A room for each chair that is home; none where its plan runs, or no plan has run there.
    rooms: Box<[Option<Box<Room>>]>,
}

// SAFETY: what a handle holds may be used by any thread, one call at a time.
unsafe impl Send for Raw {}

impl Raw {
    pub(crate) fn new(handle: Handle, sizes: &ffi::Sizes) -> Raw {
        let rooms = (0..sizes.workers).map(|_| None).collect();
        Raw { handle, rooms }
    }

    /// The room of the ticket's chair.
    pub(crate) fn take_room(&mut self, ticket: u64) -> Option<Box<Room>> {
        self.rooms[ffi::bell_of(ticket)].take()
    }

    pub(crate) fn give_room(&mut self, ticket: u64, room: Box<Room>) {
        self.rooms[ffi::bell_of(ticket)] = Some(room);
    }
}

/// The handle and the bells: first the chairs', then the queue's, last the flusher's.
pub(crate) struct Shared {
    raw: Mutex<Raw>,
    bells: Box<[Condvar]>,
    workers: usize,
}

impl Shared {
    pub(crate) fn new(raw: Raw, sizes: &ffi::Sizes) -> Shared {
        let bells = (0..sizes.bells).map(|_| Condvar::new()).collect();
        Shared {
            raw: Mutex::new(raw),
            bells,
            workers: sizes.workers as usize,
        }
    }

    /// Takes the lock, for calls that follow one another.
    pub(crate) fn hold(&self) -> Held<'_> {
        Held {
            shared: self,
            raw: Some(self.lock()),
            told: Told::NOBODY,
        }
    }

    /// (No code of a user's runs under the lock, so nobody's panic leaves it half done.)
    fn lock(&self) -> MutexGuard<'_, Raw> {
        self.raw.lock().unwrap_or_else(|e| e.into_inner())
    }

    /// Rings for those whom calls have told.
    fn ring(&self, told: &Told) {
        let mut running = told.running;
        while running != 0 {
            self.bells[running.trailing_zeros() as usize].notify_one();
            running &= running - 1;
        }
        if told.next != NOBODY {
            self.bells[told.next as usize].notify_one();
        }
        let last = self.bells.len() - 1;
        if told.all != 0 {
            self.bells[self.workers..last]
                .iter()
                .for_each(Condvar::notify_one);
        }
        if told.flusher != 0 {
            self.ring_flusher();
        }
    }

    /// Rings the flusher's bell.
    pub(crate) fn ring_flusher(&self) {
        self.bells[self.bells.len() - 1].notify_all();
    }
}

/// The lock, held. Whom the calls have told under it is rung for once it is let go, so that nobody
/// wakes only to wait for the lock.
pub(crate) struct Held<'p> {
    shared: &'p Shared,
    /// Some, until it falls.
    raw: Option<MutexGuard<'p, Raw>>,
    told: Told,
}

impl<'p> Held<'p> {
    /// What the lock guards.
    pub(crate) fn raw(&mut self) -> &mut Raw {
        self.raw.as_mut().expect("it is held until it falls")
    }

    /// The handle, for a call.
    pub(crate) fn handle(&mut self) -> *mut Handle {
        &mut self.raw().handle
    }

    /// A call has told these, too.
    pub(crate) fn tell(&mut self, told: &Told) {
        self.told.running |= told.running;
        self.told.all |= told.all;
        self.told.flusher |= told.flusher;
        if told.next == NOBODY || told.next == self.told.next {
            return;
        }
        if self.told.next != NOBODY {
            self.shared.bells[self.told.next as usize].notify_one();
        }
        self.told.next = told.next;
    }

    /// Sleeps until the ticket's bell rings, once the others are rung for. It may wake for nothing.
    pub(crate) fn sleep(&mut self, ticket: u64) {
        self.wait_with(|raw, shared| {
            let woken = shared.bells[ffi::bell_of(ticket)].wait(raw);
            woken.unwrap_or_else(|e| e.into_inner())
        });
    }

    /// The same, but for a second at most.
    pub(crate) fn nap(&mut self, ticket: u64) {
        self.wait_with(|raw, shared| {
            let second = Duration::from_secs(1);
            let woken = shared.bells[ffi::bell_of(ticket)].wait_timeout(raw, second);
            woken.unwrap_or_else(|e| e.into_inner()).0
        });
    }

    fn wait_with(
        &mut self,
        wait: impl FnOnce(MutexGuard<'p, Raw>, &'p Shared) -> MutexGuard<'p, Raw>,
    ) {
        self.shared.ring(&self.told);
        self.told = Told::NOBODY;
        let raw = self.raw.take().expect("it is held until it falls");
        self.raw = Some(wait(raw, self.shared));
    }
}

impl Drop for Held<'_> {
    fn drop(&mut self) {
        drop(self.raw.take());
        self.shared.ring(&self.told);
    }
}
