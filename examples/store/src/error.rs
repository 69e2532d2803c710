// SPDX-License-Identifier: Apache-2.0
//! Why a call of the store wasn't done.

use std::fmt;
use std::io;

/// Why a call wasn't done.
#[derive(Debug)]
#[non_exhaustive]
pub enum Error {
    /// The key is longer than [`crate::Store::longest_key`]. Nothing was changed.
    KeyTooLong,
    /// The value is longer than [`crate::Store::longest_value`]. Nothing was changed.
    ValueTooLong,
    /// A batch has more than [`crate::MOST_OF_A_BATCH`] changes, or a tree's name isn't 1 to 32
    /// bytes long. Nothing was changed.
    OutOfRange,
    /// No page is free that the change needs, or the file has as many trees as it may. Nothing was
    /// changed.
    Full,
    /// Somebody else has the file open.
    InUse,
    /// A file can't be read or written: what was to be done, and why it wasn't.
    File(&'static str, io::Error),
    /// What stands in a file isn't what the store has written there: what was found.
    Damaged(String),
    /// An earlier call of the log or of the pages' file failed. Each change and checkpoint is answered
    /// so from then on: open the store again, and it recovers.
    Failed,
    /// The pool refused something; it is a slip of the store's.
    Pool(pinpool::Error),
}

impl Error {
    /// An error of a file, in the form that `map_err` wants.
    pub(crate) fn file(what: &'static str) -> impl Fn(io::Error) -> Error {
        move |error| match error.kind() {
            io::ErrorKind::ResourceBusy => Error::InUse,
            _ => Error::File(what, error),
        }
    }
}

impl From<pinpool::Error> for Error {
    fn from(error: pinpool::Error) -> Error {
        match error {
            pinpool::Error::Gone { page, why } => {
                Error::Damaged(format!("page {}: {why}", page.unwrap_or(0)))
            }
            other @ pinpool::Error::OtherDevice { .. } => Error::Damaged(other.to_string()),
            other => Error::Pool(other),
        }
    }
}

impl fmt::Display for Error {
    fn fmt(&self, f: &mut fmt::Formatter<'_>) -> fmt::Result {
        match self {
            Error::KeyTooLong => f.write_str("the key is too long"),
            Error::ValueTooLong => f.write_str("the value is too long"),
            Error::OutOfRange => f.write_str("a batch is too long, or a tree's name is"),
            Error::Full => f.write_str("the file is full"),
            Error::InUse => f.write_str("somebody else has the file open"),
            Error::File(what, error) => write!(f, "{what}: {error}"),
            Error::Damaged(what) => write!(f, "the file is damaged: {what}"),
            Error::Failed => f.write_str("an earlier call failed: open the store again"),
            Error::Pool(error) => write!(f, "the pool: {error}"),
        }
    }
}

impl std::error::Error for Error {}
