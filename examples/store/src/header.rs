// SPDX-License-Identifier: Apache-2.0
//! The header of the file: its sizes, and from where on recovery reads the log. It has two places,
//! the file's first two pages, and is written to them by turns: a crash may tear the one that is
//! written, and never the other.

use crate::error::Error;
use crate::layout::{Layout, HEADER_PAGES};
use crate::medium::StoreFile;
use crate::numbers::Reader;
use crate::sum::sum_of;

const MAGIC: &[u8; 8] = b"pinstore";
const VERSION: u32 = 1;
/// How many bytes it has, its sum counted. (Less than a sector, which a disk writes whole.)
const BYTES: usize = 52;
/// Where the second place begins, and how many bytes both have, whatever the pages' size is.
const SECOND: u64 = 1024;

/// The header.
#[derive(Clone, Debug, PartialEq, Eq)]
pub struct Header {
    /// How the pages are laid out.
    pub layout: Layout,
    /// How often it was written.
    pub turn: u64,
    /// The half of the log in which recovery begins.
    pub half: usize,
    /// Where in the log that half begins, and recovery with it.
    pub begin: u64,
}

impl Header {
    fn bytes(&self) -> Vec<u8> {
        let mut bytes = MAGIC.to_vec();
        let Layout {
            page_bytes,
            leaves,
            levels,
            ..
        } = self.layout;
        for number in [
            VERSION,
            page_bytes as u32,
            leaves,
            levels as u32,
            self.half as u32,
            0,
        ] {
            bytes.extend(number.to_le_bytes());
        }
        bytes.extend(self.turn.to_le_bytes());
        bytes.extend(self.begin.to_le_bytes());
        bytes.extend(sum_of(&bytes).to_le_bytes());
        bytes
    }

    fn of(bytes: &[u8]) -> Option<Header> {
        let (front, sum) = bytes.split_at_checked(BYTES - 4)?;
        let mut reader = Reader(front);
        if reader.bytes(8)? != MAGIC
            || sum != sum_of(front).to_le_bytes()
            || reader.middle()? != VERSION
        {
            return None;
        }
        let (page_bytes, leaves, levels) = (reader.middle()?, reader.middle()?, reader.middle()?);
        let (half, _) = (reader.middle()? as usize, reader.middle()?);
        Some(Header {
            layout: Layout::new(page_bytes as usize, leaves, levels as usize)?,
            half: half & 1,
            turn: reader.large()?,
            begin: reader.large()?,
        })
    }

    /// Writes the header to the place whose turn it is, and syncs the file.
    pub fn write(&self, file: &dyn StoreFile) -> Result<(), Error> {
        file.write(self.turn % 2 * SECOND, &self.bytes())
            .and_then(|()| file.sync())
            .map_err(Error::file("the header"))
    }

    /// The newest header of the file; none where the file is new: it has no header, nor any page.
    pub fn read(file: &dyn StoreFile) -> Result<Option<Header>, Error> {
        let failed = Error::file("the header");
        let mut newest: Option<Header> = None;
        for place in [0, SECOND] {
            let mut bytes = [0; BYTES];
            let there = file.read(place, &mut bytes).map_err(&failed)?;
            if let Some(header) = Header::of(&bytes[..there]) {
                newest = newest.filter(|it| it.turn > header.turn).or(Some(header));
            }
        }
        if newest.is_none() && file.length().map_err(&failed)? > SECOND * u64::from(HEADER_PAGES) {
            return Err(Error::Damaged("it has no header of a store".into()));
        }
        Ok(newest)
    }
}

#[cfg(test)]
mod tests {
    use super::*;

    #[test]
    fn a_header_is_read_as_it_was_written() {
        let layout = Layout::new(4096, 1 << 20, 4).unwrap();
        let header = Header {
            layout,
            turn: 9,
            half: 1,
            begin: 1 << 40,
        };
        let mut bytes = header.bytes();
        assert_eq!(bytes.len(), BYTES);
        assert_eq!(Header::of(&bytes), Some(header));
        bytes[30] ^= 1;
        assert_eq!(Header::of(&bytes), None);
    }
}
