// SPDX-License-Identifier: Apache-2.0
//! Checkpoints, and the threads beside the callers.
//!
//! A checkpoint goes so:
//!
//! 1. The gate is closed: nobody changes anything, and no batch is under way.
//! 2. The log goes on in its other half.
//! 3. All changed pages are written, and the gate is opened.
//! 4. The file is synced.
//! 5. The header says that recovery begins in that half. The other half is free from then on.
//!
//! A crash before 5 finds the old header, and both halves.

use crate::error::Error;
use crate::header::Header;
use crate::store::Shared;
use std::sync::{Arc, Condvar, Mutex};
use std::thread::{self, JoinHandle};

impl Shared {
    /// Makes a checkpoint, unless nothing was logged since the last one.
    pub(crate) fn checkpoint(&self) -> Result<(), Error> {
        let mut header = self.header.lock().expect("nobody panics here");
        let device = &self.trees.device;
        if self.log.has_failed() {
            return Err(Error::Failed);
        }
        let (half, begin) = {
            let _gate = self.gate.write().expect("nobody panics here");
            let (half, begin, next) = self.log.position();
            if half == header.half && begin == next {
                return Ok(());
            }
            // (where an earlier checkpoint failed, the log is in its other half already)
            if half == header.half {
                self.log.turn_over()?;
            }
            self.write_all()?;
            let (half, begin, _) = self.log.position();
            device.checkpoint_at(begin);
            (half, begin)
        };
        let next = Header {
            turn: header.turn + 1,
            half,
            begin,
            ..header.clone()
        };
        self.end_checkpoint(&next)
            .inspect_err(|_| self.log.fail())?;
        *header = next;
        Ok(())
    }

    /// Syncs the pages, and then writes the header. Where that fails, it is final: the system may have
    /// dropped what it couldn't write, and a second sync might be answered as done.
    fn end_checkpoint(&self, next: &Header) -> Result<(), Error> {
        let file = self.trees.device.pages.file();
        file.sync().map_err(Error::file("the file"))?;
        next.write(file)
    }

    /// Writes all changed pages.
    fn write_all(&self) -> Result<(), Error> {
        loop {
            match self.trees.pool.flush() {
                Ok(()) => return Ok(()),
                Err(_) if self.trees.device.has_failed() => return Err(Error::Failed),
                // (a reader's page is making room: it is written by that thread)
                Err(pinpool::Error::StillDirty) => thread::yield_now(),
                Err(error) => return Err(error.into()),
            }
        }
    }
}

/// What is wanted of the thread that makes checkpoints.
#[derive(Clone, Copy, PartialEq, Eq)]
enum Wanted {
    Nothing,
    Checkpoint,
    End,
}

/// The threads beside the callers, or none.
pub(crate) struct Background {
    wanted: Arc<(Mutex<Wanted>, Condvar)>,
    threads: Vec<JoinHandle<()>>,
}

impl Background {
    /// Starts them, where they are wanted.
    pub(crate) fn new(shared: &Arc<Shared>, has_threads: bool) -> Background {
        let wanted = Arc::new((Mutex::new(Wanted::Nothing), Condvar::new()));
        let mut threads = Vec::new();
        if has_threads {
            let for_flusher = shared.clone();
            threads.push(thread::spawn(move || for_flusher.trees.pool.run_flusher()));
            let (for_checkpoints, asked) = (shared.clone(), wanted.clone());
            threads.push(thread::spawn(move || {
                make_checkpoints(&for_checkpoints, &asked)
            }));
        }
        Background { wanted, threads }
    }

    /// Behind a change: has a checkpoint made, where the log is long.
    pub(crate) fn after(&self, shared: &Shared) -> Result<(), Error> {
        let (_, begin, next) = shared.log.position();
        if next - begin < shared.log_bytes {
            return Ok(());
        }
        if self.threads.is_empty() {
            return shared.checkpoint();
        }
        let mut wanted = self.wanted.0.lock().expect("nobody panics here");
        if *wanted == Wanted::Nothing {
            *wanted = Wanted::Checkpoint;
            self.wanted.1.notify_one();
        }
        Ok(())
    }

    /// Ends them. From then on no plan starts any more.
    pub(crate) fn end(&mut self, shared: &Shared) {
        *self.wanted.0.lock().expect("nobody panics here") = Wanted::End;
        self.wanted.1.notify_one();
        shared.trees.pool.stop();
        for thread in self.threads.drain(..) {
            let _ = thread.join();
        }
    }
}

/// Makes a checkpoint each time that one is wanted. One that fails is not told to anybody here: the
/// log or the pages have failed then, and so the next change is answered.
fn make_checkpoints(shared: &Shared, asked: &(Mutex<Wanted>, Condvar)) {
    let mut wanted = asked.0.lock().expect("nobody panics here");
    loop {
        match *wanted {
            Wanted::End => return,
            Wanted::Nothing => wanted = asked.1.wait(wanted).expect("nobody panics here"),
            Wanted::Checkpoint => {
                drop(wanted);
                let _ = shared.checkpoint();
                wanted = asked.0.lock().expect("nobody panics here");
                if *wanted == Wanted::Checkpoint {
                    *wanted = Wanted::Nothing;
                }
            }
        }
    }
}
