// SPDX-License-Identifier: Apache-2.0
//! The pool.

use crate::device::Device;
use crate::error::{done, CloseError, Error};
use crate::ffi::{self, answer, Ask, Fault, Handle, Told};
use crate::flushing::Flushing;
use crate::running::Running;
use crate::shared::{Raw, Shared};
use crate::work::Work;
use std::fmt;
use std::ptr::null_mut;
use std::sync::atomic::{AtomicU64, Ordering};
use std::sync::{Mutex, MutexGuard};

/// What an engine decides of its pool.
#[derive(Clone, Copy, Debug, PartialEq, Eq)]
pub struct Policy {
    /// How many plans may wait to start at once: 1 to 65,000.
    pub queue: u32,
    /// How many that came later may start before one that waits.
    pub bypass: u32,
    /// So many pages have to be newer than the device's for a flush to be wanted.
    pub flush_from: u32,
    /// And then flushes are wanted until no more than so many are.
    pub flush_to: u32,
}

impl Default for Policy {
    /// A queue of 256, of which four may start before one that waits; and flushes from 64 changed
    /// pages down to 32.
    fn default() -> Policy {
        Policy {
            queue: 256,
            bypass: 4,
            flush_from: 64,
            flush_to: 32,
        }
    }
}

/// A plan that a pool has checked and keeps. A copy is the same plan.
#[derive(Clone, Copy, Debug, PartialEq, Eq)]
pub struct Prepared {
    pool: u64,
    pub(crate) number: u32,
    peak: u64,
    cost: u64,
}

impl Prepared {
    /// The most pages that it holds at once.
    pub fn peak(&self) -> u64 {
        self.peak
    }

    /// The most steps that it makes, those of the device counted.
    pub fn cost(&self) -> u64 {
        self.cost
    }
}

/// What stays as it is while a pool stands.
#[derive(Clone, Copy, Debug, PartialEq, Eq)]
pub struct Sizes {
    /// So many plans run at once.
    pub workers: u32,
    /// How many pages the pool holds.
    pub frames: u32,
    /// How many bytes an image has.
    pub page_bytes: u32,
    /// Page numbers are below this one.
    pub pages: u32,
}

/// What was done since a pool was opened, and how it stands: all of one moment.
#[derive(Clone, Copy, Debug, PartialEq, Eq)]
#[non_exhaustive]
pub struct Stats {
    /// Fixes of a page that was in the pool.
    pub hits: u64,
    /// Fixes of a page that the device had to read.
    pub misses: u64,
    /// Those of them for which a changed page had to be written first.
    pub write_backs: u64,
    /// Flushes that ended well.
    pub flushes: u64,
    /// Flushes that failed at the device.
    pub failed_flushes: u64,
    /// Plans that ended at their end.
    pub done: u64,
    /// Plans that were left.
    pub gone: u64,
    /// The peaks of the plans that run, together.
    pub running_peaks: u64,
    /// How many pages are newer than the device's.
    pub dirty: u32,
    /// How many wait to start.
    pub waiting: u32,
}

/// A page that is newer than the device's.
#[derive(Clone, Copy, Debug, PartialEq, Eq)]
pub struct DirtyPage {
    /// Its number.
    pub page: u32,
    /// Its mark: how often a latch X was taken off it.
    pub mark: u64,
}

/// A pool that stands: it is opened once, and any thread runs plans on it at any time, by
/// reference.
///
/// A plan is run by the thread that calls [`Pool::execute`]; while that runs,
/// [`Pool::with_flusher`] has a thread write changed pages back in the background.
///
/// [`Pool::close`] writes what is changed. A pool that is dropped does so too as far as it can, but
/// tells no errors.
pub struct Pool<D: Device> {
    pub(crate) shared: Shared,
    device: Option<D>,
    flushing: Mutex<Flushing>,
    sizes: ffi::Sizes,
    number: u64,
}

impl<D: Device> Pool<D> {
    /// A pool with these settings (a text of version 2, whose life is endless), in which nothing
    /// was done. It takes nearly all memory that the pool ever has. The device's last page is read
    /// once.
    ///
    /// # Errors
    ///
    /// [`Error::Refused`], [`Error::OtherSettings`], [`Error::WrongArgument`] where the queue's
    /// length is out of its range, and [`Error::OutOfMemory`]; then [`Error::OtherDevice`].
    pub fn open(settings: &str, policy: Policy, device: D) -> Result<Pool<D>, Error> {
        static OPENED: AtomicU64 = AtomicU64::new(0);
        let Policy {
            queue,
            bypass,
            flush_from,
            flush_to,
        } = policy;
        let policy = ffi::Policy {
            queue,
            bypass,
            flush_from,
            flush_to,
        };
        let (mut handle, mut fault) = (Handle { at: null_mut() }, Fault::default());
        let (mut sizes, mut ticket, mut ask) = (ffi::Sizes::default(), 0, Ask::default());
        // SAFETY: the handle is new, and each pointer is of a value that lives. (So it is in all
        // calls below, whose handle is held under its lock, and an empty slice's pointer isn't
        // null.)
        let answer = unsafe {
            ffi::pinpool_open(
                &mut handle,
                settings.as_ptr(),
                settings.len(),
                &policy,
                &mut fault,
            )
        };
        if answer != answer::DONE {
            return Err(Error::of(answer, fault));
        }
        done(unsafe { ffi::pinpool_sizes_of(&mut handle, &mut sizes) })?;
        done(unsafe { ffi::pinpool_flusher(&mut handle, &mut ticket, &mut ask) })?;
        let page_bytes = sizes.page_bytes as usize;
        let pool = Pool {
            shared: Shared::new(Raw::new(handle, &sizes), &sizes),
            device: Some(device),
            flushing: Mutex::new(Flushing {
                ticket,
                image: vec![0; page_bytes],
            }),
            sizes,
            number: OPENED.fetch_add(1, Ordering::Relaxed),
        };
        pool.see_device()?;
        Ok(pool)
    }

    /// Looks whether the device is of the pool's settings, by its last page.
    fn see_device(&self) -> Result<(), Error> {
        let mut image = vec![0; self.sizes.page_bytes as usize];
        let page = self.sizes.pages - 1;
        let is_read = self.device().read(page, &mut image).is_ok();
        if is_read && image[..4] == page.to_be_bytes() {
            Ok(())
        } else {
            Err(Error::OtherDevice { page })
        }
    }

    /// Checks a plan and keeps it, so that it can be run as often as wanted. It is kept until the
    /// pool ends, and 4,096 are kept at most: prepare kinds of work, and not each query.
    ///
    /// # Errors
    ///
    /// [`Error::Refused`], [`Error::TooManyPlans`] and [`Error::OutOfMemory`].
    pub fn prepare(&self, plan: &str) -> Result<Prepared, Error> {
        let (mut kept, mut fault, mut told) =
            (ffi::Plan::default(), Fault::default(), Told::NOBODY);
        let mut held = self.shared.hold();
        let answer = unsafe {
            ffi::pinpool_prepare_alone(
                held.handle(),
                plan.as_ptr(),
                plan.len(),
                &mut kept,
                &mut fault,
                &mut told,
            )
        };
        held.tell(&told);
        self.prepared(answer, kept, fault)
    }

    /// The same, with a certificate of the plan.
    ///
    /// # Errors
    ///
    /// As [`Pool::prepare`]'s.
    pub fn prepare_with(&self, plan: &str, certificate: &str) -> Result<Prepared, Error> {
        let (mut kept, mut fault, mut told) =
            (ffi::Plan::default(), Fault::default(), Told::NOBODY);
        let mut held = self.shared.hold();
        let answer = unsafe {
            let (length, proof) = (plan.len(), certificate.as_ptr());
            ffi::pinpool_prepare(
                held.handle(),
                plan.as_ptr(),
                length,
                proof,
                certificate.len(),
                &mut kept,
                &mut fault,
                &mut told,
            )
        };
        held.tell(&told);
        self.prepared(answer, kept, fault)
    }

    fn prepared(&self, answer: u32, kept: ffi::Plan, fault: Fault) -> Result<Prepared, Error> {
        match answer {
            answer::DONE => Ok(Prepared {
                pool: self.number,
                number: kept.plan,
                peak: kept.peak,
                cost: kept.cost,
            }),
            _ => Err(Error::of(answer, fault)),
        }
    }

    /// Runs a plan with this work, by the calling thread. It waits for its turn, for pages, latches
    /// and the device.
    ///
    /// # Errors
    ///
    /// [`Error::OtherPool`], [`Error::QueueFull`], [`Error::Stopped`], [`Error::OutOfMemory`]: the
    /// plan wasn't run, and the work wasn't called, but for [`Work::ahead`]. [`Error::Gone`],
    /// [`Error::GivenUp`]: it was left before its end.
    ///
    /// # Panics
    ///
    /// Where the work or the device does, once what is left of the plan was run without them.
    pub fn execute<W: Work + ?Sized>(&self, plan: &Prepared, work: &mut W) -> Result<(), Error> {
        if plan.pool != self.number {
            return Err(Error::OtherPool);
        }
        Running::execute(self, plan, work)
    }

    /// Lets no plan start any more. Who waits to start is answered [`Error::Stopped`], and
    /// [`Pool::run_flusher`] returns. Plans that run go on.
    pub fn stop(&self) {
        let mut told = Told::NOBODY;
        let mut held = self.shared.hold();
        unsafe { ffi::pinpool_stop(held.handle(), &mut told) };
        held.tell(&told);
    }

    /// What stays as it is while the pool stands.
    pub fn sizes(&self) -> Sizes {
        let ffi::Sizes {
            workers,
            frames,
            page_bytes,
            pages,
            ..
        } = self.sizes;
        Sizes {
            workers,
            frames,
            page_bytes,
            pages,
        }
    }

    /// What was done, and how things stand.
    pub fn stats(&self) -> Stats {
        let mut s = ffi::Stats::default();
        unsafe { ffi::pinpool_stats_of(self.shared.hold().handle(), &mut s) };
        Stats {
            hits: s.hits,
            misses: s.misses,
            write_backs: s.write_backs,
            flushes: s.flushes,
            failed_flushes: s.failed_flushes,
            done: s.done,
            gone: s.gone,
            running_peaks: s.running_peaks,
            dirty: s.dirty,
            waiting: s.waiting,
        }
    }

    /// The pages that are newer than the device's, by rising numbers, all of one moment; no more
    /// than so many.
    ///
    /// # Errors
    ///
    /// [`Error::OutOfMemory`].
    pub fn dirty_pages(&self, most: usize) -> Result<Vec<DirtyPage>, Error> {
        let most = most.min(self.sizes.frames as usize);
        let (mut pages, mut count) = (vec![ffi::Dirty::default(); most], 0);
        done(unsafe {
            ffi::pinpool_dirty_pages(
                self.shared.hold().handle(),
                pages.as_mut_ptr(),
                most,
                &mut count,
            )
        })?;
        Ok(pages[..count]
            .iter()
            .map(|it| DirtyPage {
                page: it.page,
                mark: it.mark,
            })
            .collect())
    }

    /// Stops the pool, writes what is changed, syncs the device, and gives it back.
    ///
    /// # Errors
    ///
    /// The pool, with [`Error::StillDirty`], [`Error::FlushesSpent`], or [`Error::Broken`].
    #[allow(clippy::result_large_err)] // it is the pool itself, once
    pub fn close(mut self) -> Result<D, CloseError<D>> {
        self.stop();
        match self.flush().and_then(|()| self.end()) {
            Ok(()) => Ok(self.device.take().expect("an open pool has its device")),
            Err(error) => Err(CloseError { error, pool: self }),
        }
    }

    /// Gives the flusher's ticket back, and ends the pool. Where that can't be, the ticket is taken
    /// again.
    fn end(&self) -> Result<(), Error> {
        let (mut told, mut ask) = (Told::NOBODY, Ask::default());
        let mut flushing = self.flushing();
        let mut held = self.shared.hold();
        done(unsafe { ffi::pinpool_leave(held.handle(), flushing.ticket, &mut told) })?;
        let ended = done(unsafe { ffi::pinpool_close(held.handle()) });
        if ended.is_err() {
            done(unsafe { ffi::pinpool_flusher(held.handle(), &mut flushing.ticket, &mut ask) })?;
        }
        ended
    }

    /// Gives the pool up as it is, with the number of pages that were newer than the device's: what
    /// they had is lost.
    pub fn abandon(mut self) -> (D, u32) {
        let lost = self.give_up();
        (
            self.device.take().expect("an open pool has its device"),
            lost,
        )
    }

    fn give_up(&mut self) -> u32 {
        let mut lost = 0;
        unsafe { ffi::pinpool_abandon(self.shared.hold().handle(), &mut lost) };
        lost
    }

    pub(crate) fn device(&self) -> &D {
        self.device.as_ref().expect("an open pool has its device")
    }

    pub(crate) fn flushing(&self) -> MutexGuard<'_, Flushing> {
        self.flushing.lock().unwrap_or_else(|e| e.into_inner())
    }

    /// How many bytes an image has.
    pub(crate) fn page_bytes(&self) -> usize {
        self.sizes.page_bytes as usize
    }
}

impl<D: Device> Drop for Pool<D> {
    fn drop(&mut self) {
        if self.device.is_some() {
            // (who wants to know whether all was written closes the pool)
            let _ = self.flush();
            self.give_up();
        }
    }
}

impl<D: Device> fmt::Debug for Pool<D> {
    fn fmt(&self, f: &mut fmt::Formatter<'_>) -> fmt::Result {
        f.debug_struct("Pool")
            .field("sizes", &self.sizes())
            .finish_non_exhaustive()
    }
}
