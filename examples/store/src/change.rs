// SPDX-License-Identifier: Apache-2.0
//! Changes of pages that belong together, as one record of the log.
//!
//! | Bytes | What stands there |
//! |---|---|
//! | 0 to 7 | the batch that it is of: the place in the log behind the batch's record; 0: none |
//! | 8 to 11 | which of the batch's changes it is, from 0 on |
//! | 12 | how many pages |
//!
//! and for each page its number (4 bytes), 1 where it is made anew from zeros, or 0, and how many
//! ranges of bytes are other (2 bytes); and for each range where it begins in the body and how long
//! it is (2 bytes each), and its bytes. The first eight bytes of a body are in no range: they get
//! the place behind the record.
//!
//! **A page is made anew where it is changed for the first time since the log's half began.** So
//! recovery makes each page from the log alone, and never from an image in the file, which a crash
//! may have torn.

use crate::node;
use crate::numbers::Reader;

/// Which change of a batch it is.
#[derive(Clone, Copy, Debug, PartialEq, Eq)]
pub struct Tag {
    /// The place in the log behind the batch's record.
    pub batch: u64,
    /// The number of the change, from 0 on.
    pub number: u32,
}

/// The first byte of a body that a range can have.
const FROM: usize = 8;

/// A record that is being made.
pub struct Record {
    bytes: Vec<u8>,
    pages: u8,
}

impl Record {
    /// A record without a page.
    pub fn new(tag: Option<Tag>) -> Record {
        let mut bytes = Vec::with_capacity(512);
        bytes.extend(tag.map_or(0, |it| it.batch).to_le_bytes());
        bytes.extend(tag.map_or(0, |it| it.number).to_le_bytes());
        bytes.push(0);
        Record { bytes, pages: 0 }
    }

    /// Adds a page that was changed: what it was before, or none where it is made anew.
    pub fn add(&mut self, page: u32, before: Option<&[u8]>, after: &[u8]) {
        self.pages += 1;
        self.bytes[12] = self.pages;
        self.bytes.extend(page.to_le_bytes());
        self.bytes.push(u8::from(before.is_none()));
        let count_at = self.bytes.len();
        self.bytes.extend([0; 2]);
        let mut count = 0u16;
        let mut add = |from: usize, to: usize| {
            self.bytes.extend((from as u16).to_le_bytes());
            self.bytes.extend(((to - from) as u16).to_le_bytes());
            self.bytes.extend(&after[from..to]);
            count += 1;
        };
        match before {
            Some(before) => ranges(before, after, &mut add),
            None => ranges(&vec![0; after.len()], after, &mut add),
        }
        self.bytes[count_at..count_at + 2].copy_from_slice(&count.to_le_bytes());
    }

    /// Whether it has no page.
    pub fn is_empty(&self) -> bool {
        self.pages == 0
    }

    /// Its bytes.
    pub fn bytes(&self) -> &[u8] {
        &self.bytes
    }
}

/// Tells the ranges in which two bodies differ. Eight bytes are compared at once, and eight that are
/// the same don't end a range.
fn ranges(before: &[u8], after: &[u8], add: &mut dyn FnMut(usize, usize)) {
    let mut open: Option<(usize, usize)> = None;
    let mut at = FROM;
    while at < after.len() {
        let to = (at + 8).min(after.len());
        if before[at..to] != after[at..to] {
            open = Some((open.map_or(at, |it| it.0), to));
        } else if let Some((from, end)) = open.filter(|it| it.1 + 8 <= at) {
            add(from, end);
            open = None;
        }
        at = to;
    }
    if let Some((from, end)) = open {
        add(from, end);
    }
}

/// What a record of changed pages says.
pub struct Said<'a> {
    /// The batch's change that it is.
    pub tag: Option<Tag>,
    /// How many pages are still to be read.
    pages: u8,
    reader: Reader<'a>,
}

/// A page of a record, whose ranges are to be applied.
pub struct SaidPage<'r, 'a> {
    /// The page.
    pub page: u32,
    /// Whether it is made anew.
    pub is_new: bool,
    ranges: usize,
    reader: &'r mut Reader<'a>,
}

impl<'a> Said<'a> {
    /// Reads the beginning of a record. None where it isn't one.
    pub fn read(bytes: &'a [u8]) -> Option<Said<'a>> {
        let mut reader = Reader(bytes);
        let (batch, number) = (reader.large()?, reader.middle()?);
        let tag = (batch != 0).then_some(Tag { batch, number });
        let pages = reader.byte()?;
        Some(Said { tag, pages, reader })
    }

    /// The next page, whose ranges have to be applied before the next but one is asked for.
    pub fn next_page(&mut self) -> Option<SaidPage<'_, 'a>> {
        self.pages = self.pages.checked_sub(1)?;
        Some(SaidPage {
            page: self.reader.middle()?,
            is_new: self.reader.byte()? == 1,
            ranges: self.reader.small()?,
            reader: &mut self.reader,
        })
    }
}

impl SaidPage<'_, '_> {
    /// Makes of the body what it was behind the change. Answers whether all ranges lie in it.
    pub fn apply(self, body: &mut [u8], end: u64) -> bool {
        if self.is_new {
            body.fill(0);
        }
        for _ in 0..self.ranges {
            let Some((from, length)) = self.reader.small().zip(self.reader.small()) else {
                return false;
            };
            let (place, bytes) = (body.get_mut(from..from + length), self.reader.bytes(length));
            match (place, bytes) {
                (Some(place), Some(bytes)) => place.copy_from_slice(bytes),
                _ => return false,
            }
        }
        node::set_log_end(body, end);
        true
    }
}

#[cfg(test)]
mod tests {
    use super::*;

    #[test]
    fn what_is_applied_is_what_was_changed() {
        let before: Vec<u8> = (0..1009).map(|it| (it * 7 % 251) as u8).collect();
        let mut after = before.clone();
        for (at, length) in [(8, 1), (100, 40), (141, 2), (500, 9), (1008, 1)] {
            after[at..at + length].iter_mut().for_each(|it| *it ^= 255);
        }
        let mut record = Record::new(Some(Tag {
            batch: 3,
            number: 5,
        }));
        record.add(9, Some(&before), &after);
        record.add(10, None, &after);
        assert!(record.bytes().len() < 1009 + 200);
        let mut said = Said::read(record.bytes()).unwrap();
        assert_eq!(
            said.tag,
            Some(Tag {
                batch: 3,
                number: 5
            })
        );
        node::set_log_end(&mut after, 77);
        for (page, is_new) in [(9, false), (10, true)] {
            let mut body = before.clone();
            let it = said.next_page().unwrap();
            assert_eq!((it.page, it.is_new), (page, is_new));
            assert!(it.apply(&mut body, 77));
            assert!(body == after);
        }
        assert!(said.next_page().is_none());
    }
}
