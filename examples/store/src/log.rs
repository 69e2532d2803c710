// SPDX-License-Identifier: Apache-2.0
//! The write-ahead log.
//!
//! A place in the log is a number that only rises: how many bytes were logged before, in all of the
//! store's life. Records lie one behind another in one half of the log, until a checkpoint goes on at
//! the beginning of the other half.
//!
//! | Bytes of a record | What stands there |
//! |---|---|
//! | 0 to 3 | the CRC-32C of all that follows |
//! | 4 to 7 | how many bytes follow the head |
//! | 8 to 15 | the place of the record in the log |
//! | 16 | its kind |
//! | 17 on | what it says |
//!
//! What is left of older records behind the last one is no record: their places are others.

use crate::error::Error;
use crate::medium::StoreFile;
use crate::numbers::{large, middle};
use crate::sum::sum_of;
use std::sync::atomic::{AtomicU64, Ordering};
use std::sync::{Condvar, Mutex, MutexGuard};

/// The bytes of a record's head.
pub const HEAD: usize = 17;

/// What a record is about.
#[derive(Clone, Copy, Debug, PartialEq, Eq)]
pub enum Kind {
    /// Pages were changed.
    Change = 1,
    /// A batch begins, with all that it is to do.
    Batch = 2,
    /// A batch is done.
    BatchDone = 3,
}

/// A record that was read.
#[derive(Debug, PartialEq, Eq)]
pub struct Record<'a> {
    /// What it is about.
    pub kind: u8,
    /// The place behind it.
    pub end: u64,
    /// What it says.
    pub says: &'a [u8],
}

/// The record at the front of these bytes, if there is one whose place this is.
pub fn record_at(bytes: &[u8], place: u64) -> Option<Record<'_>> {
    let head = bytes.get(..HEAD)?;
    let length = middle(head, 4) as usize;
    let whole = bytes.get(4..HEAD.checked_add(length)?)?;
    let is_one = large(head, 8) == place && middle(head, 0) == sum_of(whole);
    is_one.then(|| Record {
        kind: head[16],
        end: place + (HEAD + length) as u64,
        says: &bytes[HEAD..HEAD + length],
    })
}

/// What is in memory of the log.
struct Tail {
    /// Records that nobody has begun to write; the last of them ends at `next`.
    records: Vec<u8>,
    /// Memory for them, once more.
    spare: Vec<u8>,
    /// Where the next record will be.
    next: u64,
    /// The records before this place are on the medium.
    durable: u64,
    /// The half that is written, and where in the log it begins.
    half: usize,
    begin: u64,
    /// A thread writes and syncs.
    is_being_written: bool,
    /// A write or sync failed.
    is_broken: bool,
}

/// The log, for any number of threads.
pub struct Log {
    halves: [Box<dyn StoreFile>; 2],
    tail: Mutex<Tail>,
    written: Condvar,
    begin: AtomicU64,
}

impl Log {
    /// The log goes on at this place, in this half, which begins there.
    pub fn new(halves: [Box<dyn StoreFile>; 2], half: usize, begin: u64, next: u64) -> Log {
        Log {
            halves,
            tail: Mutex::new(Tail {
                records: Vec::new(),
                spare: Vec::new(),
                next,
                durable: next,
                half,
                begin,
                is_being_written: false,
                is_broken: false,
            }),
            written: Condvar::new(),
            begin: AtomicU64::new(begin),
        }
    }

    fn tail(&self) -> MutexGuard<'_, Tail> {
        self.tail.lock().expect("nobody panics here")
    }

    /// Adds a record in memory, and answers the place behind it.
    pub fn append(&self, kind: Kind, says: &[u8]) -> u64 {
        let mut tail = self.tail();
        let (place, from) = (tail.next, tail.records.len());
        let records = &mut tail.records;
        records.extend([0; 4]);
        records.extend((says.len() as u32).to_le_bytes());
        records.extend(place.to_le_bytes());
        records.push(kind as u8);
        records.extend(says);
        let sum = sum_of(&records[from + 4..]);
        records[from..from + 4].copy_from_slice(&sum.to_le_bytes());
        tail.next += (HEAD + says.len()) as u64;
        tail.next
    }

    /// Waits until all records before this place are on the medium. The first thread that comes
    /// writes and syncs what there is, for all who wait; who comes meanwhile is served by the next.
    ///
    /// # Errors
    ///
    /// Where a write or a sync failed: at once from then on, since after a failed sync nobody knows
    /// what the medium has.
    pub fn force(&self, place: u64) -> Result<(), Error> {
        let mut tail = self.tail();
        while tail.durable < place {
            if tail.is_broken {
                return Err(Error::Failed);
            }
            if tail.is_being_written {
                tail = self.written.wait(tail).expect("nobody panics here");
                continue;
            }
            tail.is_being_written = true;
            let spare = std::mem::take(&mut tail.spare);
            let records = std::mem::replace(&mut tail.records, spare);
            let (half, end) = (tail.half, tail.next);
            let at = end - records.len() as u64 - tail.begin;
            drop(tail);
            let file = &self.halves[half];
            let written = file.write(at, &records).and_then(|()| file.sync());
            tail = self.tail();
            tail.is_being_written = false;
            match written {
                Ok(()) => tail.durable = end,
                Err(_) => tail.is_broken = true,
            }
            tail.spare = records;
            tail.spare.clear();
            self.written.notify_all();
        }
        Ok(())
    }

    /// Nobody knows what the medium has: no change is answered as durable any more.
    pub fn fail(&self) {
        self.tail().is_broken = true;
    }

    /// Whether a write or a sync has failed.
    pub fn has_failed(&self) -> bool {
        self.tail().is_broken
    }

    /// Where in the log the half that is written begins. It stays while the caller holds up
    /// checkpoints.
    pub fn begin(&self) -> u64 {
        self.begin.load(Ordering::Acquire)
    }

    /// The half that is written, where it begins in the log, and where the next record will be.
    pub fn position(&self) -> (usize, u64, u64) {
        let tail = self.tail();
        (tail.half, tail.begin, tail.next)
    }

    /// Forces all, and goes on at the beginning of the other half, whose records are lost. Nobody may
    /// append meanwhile.
    pub fn turn_over(&self) -> Result<(), Error> {
        let (_, _, next) = self.position();
        self.force(next)?;
        let mut tail = self.tail();
        tail.half = 1 - tail.half;
        tail.begin = tail.next;
        self.begin.store(tail.begin, Ordering::Release);
        Ok(())
    }
}

#[cfg(test)]
mod tests {
    use super::*;

    #[test]
    fn a_record_is_one_at_its_place_alone() {
        let mut bytes = vec![0; 4];
        bytes.extend(3u32.to_le_bytes());
        bytes.extend(77u64.to_le_bytes());
        bytes.extend([1, 7, 8, 9]);
        let sum = sum_of(&bytes[4..]);
        bytes[..4].copy_from_slice(&sum.to_le_bytes());
        let record = record_at(&bytes, 77).unwrap();
        assert_eq!(
            (record.kind, record.end, record.says),
            (1, 97, &[7, 8, 9][..])
        );
        assert_eq!(record_at(&bytes, 78), None);
        assert_eq!(record_at(&bytes[..19], 77), None);
        bytes[18] ^= 4;
        assert_eq!(record_at(&bytes, 77), None);
    }
}
