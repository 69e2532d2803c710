// SPDX-License-Identifier: Apache-2.0
//! The flusher: it writes changed pages back.

use crate::device::Device;
use crate::error::Error;
use crate::ffi::{self, answer, Ask, Told};
use crate::pool::Pool;
use std::sync::atomic::{AtomicBool, Ordering};
use std::thread;

/// The flusher's ticket, and what it writes from. Who takes its lock and the pool's takes this one
/// first.
pub(crate) struct Flushing {
    pub(crate) ticket: u64,
    pub(crate) image: Vec<u8>,
}

/// How a flush went.
enum Flushed {
    Page,
    /// The device failed.
    Failed,
    Nothing,
    Spent,
}

/// Ends a flusher's thread when it is dropped, also by a panic.
struct Ending<'p, D: Device> {
    pool: &'p Pool<D>,
    is_over: &'p AtomicBool,
}

impl<D: Device> Drop for Ending<'_, D> {
    fn drop(&mut self) {
        let _held = self.pool.shared.hold();
        self.is_over.store(true, Ordering::Relaxed);
        self.pool.shared.ring_flusher();
    }
}

impl<D: Device> Pool<D> {
    /// Runs the closure, beside a thread that flushes by the policy until the closure is over.
    pub fn with_flusher<T>(&self, run: impl FnOnce() -> T) -> T {
        let is_over = AtomicBool::new(false);
        thread::scope(|threads| {
            threads.spawn(|| self.flush_until(&is_over));
            let _ending = Ending {
                pool: self,
                is_over: &is_over,
            };
            run()
        })
    }

    /// Flushes by the policy, and sleeps while nothing is to be flushed, until the pool is stopped.
    /// It is for a thread of the caller's that lives as long as the pool; see also
    /// [`Pool::with_flusher`]. Where a page can't be written it waits for a second, and goes on.
    pub fn run_flusher(&self) {
        self.flush_until(&AtomicBool::new(false));
    }

    /// Flushes until the pool is stopped, or this is set under the lock.
    fn flush_until(&self, is_over: &AtomicBool) {
        let mut is_on = false;
        loop {
            let mut flushing = self.flushing();
            let mut held = self.shared.hold();
            let ticket = flushing.ticket;
            if is_over.load(Ordering::Relaxed) {
                return;
            }
            // SAFETY: here and below, the handle is held under its lock, and each pointer is of a
            // value that lives.
            match unsafe { ffi::pinpool_flush_wanted(held.handle(), ticket, u32::from(is_on)) } {
                answer::DONE => {
                    drop(held);
                    is_on = matches!(self.flush_one(&mut flushing), Flushed::Page);
                    drop(flushing);
                    if !is_on {
                        self.shared.hold().nap(ticket);
                    }
                }
                answer::NOT_NOW => {
                    drop(flushing);
                    held.sleep(ticket);
                    is_on = false;
                }
                _ => return,
            }
        }
    }

    /// Writes changed pages until none is changed, and syncs the device. While others change pages
    /// it may take long.
    ///
    /// # Errors
    ///
    /// [`Error::StillDirty`] where a page can't be written or the device can't sync, and
    /// [`Error::FlushesSpent`].
    pub fn flush(&self) -> Result<(), Error> {
        loop {
            match self.flush_one(&mut self.flushing()) {
                Flushed::Page => {}
                Flushed::Nothing if self.stats().dirty == 0 => break,
                Flushed::Nothing | Flushed::Failed => return Err(Error::StillDirty),
                Flushed::Spent => return Err(Error::FlushesSpent),
            }
        }
        self.device().sync().map_err(|_| Error::StillDirty)
    }

    /// Writes one page back.
    fn flush_one(&self, flushing: &mut Flushing) -> Flushed {
        let ask = match self.flusher_goes(flushing, 0) {
            (answer::DONE, ask) => ask,
            (answer::FLUSHES_SPENT, _) => return Flushed::Spent,
            _ => return Flushed::Nothing,
        };
        let is_written = self.write_image(flushing.ticket, ask.page, &mut flushing.image);
        match self.flusher_goes(flushing, u32::from(is_written)) {
            (answer::DONE, _) if is_written => Flushed::Page,
            _ => Flushed::Failed,
        }
    }

    /// Makes the flusher's next step, and tells the one behind it.
    fn flusher_goes(&self, flushing: &Flushing, argument: u32) -> (u32, Ask) {
        let (mut ask, mut told) = (Ask::default(), Told::NOBODY);
        let mut held = self.shared.hold();
        let answer = unsafe {
            ffi::pinpool_go(
                held.handle(),
                flushing.ticket,
                argument,
                &mut ask,
                &mut told,
            )
        };
        held.tell(&told);
        (answer, ask)
    }

    /// Has the device write the image that the ticket is to write.
    pub(crate) fn write_image(&self, ticket: u64, page: u32, image: &mut [u8]) -> bool {
        let copied = unsafe {
            ffi::pinpool_image(
                self.shared.hold().handle(),
                ticket,
                image.as_mut_ptr(),
                image.len(),
            )
        };
        copied == answer::DONE && self.device().write(page, image).is_ok()
    }
}
