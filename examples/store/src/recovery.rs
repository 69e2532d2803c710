// SPDX-License-Identifier: Apache-2.0
//! What is done before a file is used: what its log says is done again.
//!
//! 1. The records are read from where the header says, up to the first that is none: the log's end.
//!    A record that a crash has torn, and all behind it, was answered to nobody.
//! 2. Each page that they name is made from them, from zeros on, and written; then the file is
//!    synced.
//! 3. A checkpoint that a crash has cut off is brought to its end: where the log goes on in the
//!    other half, all before that isn't needed any more.
//! 4. What stands in the halves behind the log's end is cut off, and that is synced. So nothing of
//!    it will ever be taken for a record that follows a new one.
//!
//! A crash in the midst does no harm: the same is done again.

use crate::batch::{self, Unfinished};
use crate::change::Said;
use crate::device::PageStore;
use crate::error::Error;
use crate::header::Header;
use crate::log::{record_at, Kind};
use crate::medium::{Medium, Part, StoreFile};
use std::collections::{BTreeMap, HashMap};

/// What recovery found.
pub struct Recovered {
    /// Where the next record will be in the log.
    pub next: u64,
    /// How many records were done again.
    pub records: u64,
    /// The batches that have begun and aren't done, in their order.
    pub batches: BTreeMap<u64, Unfinished>,
}

/// The pages as the log makes them.
struct Redo {
    body_bytes: usize,
    bodies: HashMap<u32, Vec<u8>>,
    found: Recovered,
}

impl Redo {
    /// Does again what the records of a half say, the first of which has this place.
    fn half(&mut self, bytes: &[u8], begin: u64) -> Result<(), Error> {
        self.found.next = begin;
        while let Some(record) = record_at(
            &bytes[(self.found.next - begin) as usize..],
            self.found.next,
        ) {
            let is_known = match record.kind {
                kind if kind == Kind::Change as u8 => self.change(record.says, record.end),
                kind if kind == Kind::Batch as u8 => self.batch(record.says, record.end),
                kind if kind == Kind::BatchDone as u8 => self.batch_done(record.says),
                _ => None,
            };
            is_known.ok_or_else(|| {
                Error::Damaged(format!("the record at {} of the log", self.found.next))
            })?;
            self.found.next = record.end;
            self.found.records += 1;
        }
        Ok(())
    }

    fn change(&mut self, says: &[u8], end: u64) -> Option<()> {
        let mut said = Said::read(says)?;
        if let Some(tag) = said.tag {
            let batch = self.found.batches.get_mut(&tag.batch)?;
            *batch.is_done.get_mut(tag.number as usize)? = true;
        }
        while let Some(page) = said.next_page() {
            let body = match page.is_new {
                true => {
                    let body = self.bodies.entry(page.page);
                    body.or_insert_with(|| vec![0; self.body_bytes])
                }
                false => self.bodies.get_mut(&page.page)?,
            };
            page.apply(body, end).then_some(())?;
        }
        Some(())
    }

    fn batch(&mut self, says: &[u8], end: u64) -> Option<()> {
        self.found.batches.insert(end, batch::read(says)?);
        Some(())
    }

    fn batch_done(&mut self, says: &[u8]) -> Option<()> {
        let batch = u64::from_le_bytes(says.try_into().ok()?);
        self.found.batches.remove(&batch).map(|_| ())
    }
}

/// Where the log ends.
pub fn log_end(header: &Header, medium: &dyn Medium) -> Result<u64, Error> {
    let mut end = header.begin;
    for half in [header.half, 1 - header.half] {
        let file = medium
            .open(Part::Log(half))
            .map_err(Error::file("the log"))?;
        let (bytes, begin) = (all_of(&*file)?, end);
        while let Some(record) = record_at(&bytes[(end - begin) as usize..], end) {
            end = record.end;
        }
    }
    Ok(end)
}

/// All bytes of a file.
fn all_of(file: &dyn StoreFile) -> Result<Vec<u8>, Error> {
    let failed = Error::file("the log");
    let mut bytes = vec![0; file.length().map_err(&failed)? as usize];
    let there = file.read(0, &mut bytes).map_err(&failed)?;
    bytes.truncate(there);
    Ok(bytes)
}

/// Cuts off what a half of the log has behind this place.
fn cut(file: &dyn StoreFile, length: u64) -> Result<(), Error> {
    let failed = Error::file("the log");
    if file.length().map_err(&failed)? > length {
        file.cut(length)
            .and_then(|()| file.sync())
            .map_err(&failed)?;
    }
    Ok(())
}

/// Recovers the file. The header is that of the file, and tells behind it in which half the log goes
/// on, and where that begins.
pub fn recover(
    header: &mut Header,
    pages: &PageStore,
    halves: &[Box<dyn StoreFile>; 2],
) -> Result<Recovered, Error> {
    let found = Recovered {
        next: 0,
        records: 0,
        batches: BTreeMap::new(),
    };
    let mut redo = Redo {
        body_bytes: header.layout.body_bytes(),
        bodies: HashMap::new(),
        found,
    };
    redo.half(&all_of(&*halves[header.half])?, header.begin)?;
    let other = all_of(&*halves[1 - header.half])?;
    let turn_over = redo.found.next;
    let goes_on = record_at(&other, turn_over).is_some();
    if goes_on {
        redo.half(&other, turn_over)?;
    }
    if !redo.bodies.is_empty() {
        let failed = Error::file("a page");
        for (page, body) in &redo.bodies {
            pages.write_body(*page, body).map_err(&failed)?;
        }
        pages.file().sync().map_err(&failed)?;
    }
    if goes_on {
        header.turn += 1;
        header.half = 1 - header.half;
        header.begin = turn_over;
        header.write(pages.file())?;
    }
    cut(&*halves[header.half], redo.found.next - header.begin)?;
    cut(&*halves[1 - header.half], 0)?;
    Ok(redo.found)
}
