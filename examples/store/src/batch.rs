// SPDX-License-Identifier: Apache-2.0
//! Batches: changes that are all done, or none.
//!
//! A batch is first logged as a whole. Then its changes are made one by one, each with a record that
//! tells which one it is; then a record tells that it is done. Recovery makes those that are
//! missing.

use crate::numbers::Reader;
use crate::tree::Op;

/// The most changes of a batch.
pub const MOST_OF_A_BATCH: usize = 4096;

/// A change of a key in a tree.
#[derive(Clone, Copy, Debug, PartialEq, Eq)]
pub struct Change<'a> {
    /// The page of the tree's root.
    pub root: u32,
    /// The key.
    pub key: &'a [u8],
    /// What becomes of it.
    pub op: Op<'a>,
}

/// A batch that recovery found, and that isn't done.
pub struct Unfinished {
    /// The root, the key and, unless that is deleted, the value of each change.
    pub changes: Vec<(u32, Vec<u8>, Option<Vec<u8>>)>,
    /// Which of them were made.
    pub is_done: Vec<bool>,
}

/// What the record of a batch says: for each change the root (4 bytes), 1 for a put or 0, the key's
/// length and the value's (2 bytes each), the key and the value.
pub fn record_of(changes: &[Change]) -> Vec<u8> {
    let mut says = Vec::new();
    for Change { root, key, op } in changes {
        let (is_put, value) = match op {
            Op::Put(value) => (1, *value),
            Op::Delete => (0, &[][..]),
        };
        says.extend(root.to_le_bytes());
        says.push(is_put);
        says.extend((key.len() as u16).to_le_bytes());
        says.extend((value.len() as u16).to_le_bytes());
        says.extend(*key);
        says.extend(value);
    }
    says
}

/// Reads such a record. None where it isn't one.
pub fn read(says: &[u8]) -> Option<Unfinished> {
    let (mut reader, mut changes) = (Reader(says), Vec::new());
    while !reader.0.is_empty() {
        let (root, is_put) = (reader.middle()?, reader.byte()? == 1);
        let (key, value) = (reader.small()?, reader.small()?);
        let key = reader.bytes(key)?.to_vec();
        let value = reader.bytes(value)?.to_vec();
        changes.push((root, key, is_put.then_some(value)));
    }
    let is_done = vec![false; changes.len()];
    Some(Unfinished { changes, is_done })
}

#[cfg(test)]
mod tests {
    use super::*;

    #[test]
    fn a_batch_is_read_as_it_was_logged() {
        let of = |key, op| Change { root: 9, key, op };
        let says = record_of(&[
            of(b"a", Op::Put(b"xy")),
            of(b"bc", Op::Delete),
            of(b"", Op::Put(b"")),
        ]);
        let read = read(&says).unwrap();
        let expected = [
            (9, b"a".to_vec(), Some(b"xy".to_vec())),
            (9, b"bc".to_vec(), None),
            (9, Vec::new(), Some(Vec::new())),
        ];
        assert_eq!(read.changes, expected);
        assert!(super::read(&says[..says.len() - 1]).is_none());
    }
}
