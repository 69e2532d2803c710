// SPDX-License-Identifier: Apache-2.0
//! Why something wasn't done.

use crate::device::Device;
use crate::ffi::{answer, Fault, NOBODY};
use crate::pool::Pool;
use std::fmt;

/// Why a call of a device failed for a plan.
#[derive(Clone, Copy, Debug, PartialEq, Eq)]
#[non_exhaustive]
pub enum Failure {
    /// The device failed to read the page.
    ReadFailed,
    /// The device failed to write the page, which had to make room. It stays in the pool, changed.
    WriteFailed,
    /// What was read is another page's image, or an older or newer one of this page.
    ReadOther,
    /// Something else.
    Other,
}

/// Why something wasn't done.
#[derive(Clone, Copy, Debug, PartialEq, Eq)]
#[non_exhaustive]
pub enum Error {
    /// A text was refused: settings, a plan or a certificate.
    Refused {
        /// As the program `pinpool` prints it, and as its documents list it.
        number: u32,
        /// The number of the statement or of the note at fault.
        place: Option<u32>,
    },
    /// The settings aren't those of a pool that stands: their life is bounded, no flush is allowed,
    /// or there are more than 32 workers.
    OtherSettings,
    /// The device isn't of these settings: this page, its last, can't be read, or is another page.
    OtherDevice {
        /// The page's number.
        page: u32,
    },
    /// Memory ran out. Nothing was done.
    OutOfMemory,
    /// A number is out of its range.
    WrongArgument,
    /// As many plans are kept as may be.
    TooManyPlans,
    /// The plan was prepared by another pool.
    OtherPool,
    /// As many wait to start as may. The plan wasn't run.
    QueueFull,
    /// The pool is stopped. The plan wasn't run.
    Stopped,
    /// The plan was left, since a call of the device failed. What it had unlatched by then is done;
    /// pages that it had latched are as they were.
    Gone {
        /// The page of that call: where a changed page had to make room, that one, which the plan
        /// may never have asked for.
        page: Option<u32>,
        /// What failed.
        why: Failure,
    },
    /// The work gave its plan up, or named a page or a branch that it may not. What the plan had
    /// unlatched by then is done.
    GivenUp,
    /// Pages are newer than the device's, and can't be written.
    StillDirty,
    /// Pages are newer than the device's, and no flush of the settings is left.
    FlushesSpent,
    /// A plan still runs.
    InUse,
    /// A slip of the pool's own.
    Broken,
}

impl Error {
    /// The error of an answer that isn't DONE.
    pub(crate) fn of(number: u32, fault: Fault) -> Error {
        match number {
            answer::REFUSED => Error::Refused {
                number: fault.number,
                place: some(fault.place),
            },
            answer::OTHER_SETTINGS => Error::OtherSettings,
            answer::OUT_OF_MEMORY => Error::OutOfMemory,
            answer::WRONG_ARGUMENT => Error::WrongArgument,
            answer::TOO_MANY_PLANS => Error::TooManyPlans,
            answer::QUEUE_FULL => Error::QueueFull,
            answer::STOPPED => Error::Stopped,
            answer::STILL_DIRTY => Error::StillDirty,
            answer::FLUSHES_SPENT => Error::FlushesSpent,
            answer::IN_USE => Error::InUse,
            _ => Error::Broken,
        }
    }

    pub(crate) fn gone(page: u32, why: u32) -> Error {
        let why = match why {
            71 => Failure::ReadFailed,
            72 => Failure::WriteFailed,
            73 => Failure::ReadOther,
            _ => Failure::Other,
        };
        Error::Gone {
            page: some(page),
            why,
        }
    }
}

/// The number, unless it is that of nobody.
fn some(number: u32) -> Option<u32> {
    (number != NOBODY).then_some(number)
}

/// Nothing, or the error of an answer.
pub(crate) fn done(number: u32) -> Result<(), Error> {
    match number {
        answer::DONE => Ok(()),
        _ => Err(Error::of(number, Fault::default())),
    }
}

impl fmt::Display for Failure {
    fn fmt(&self, f: &mut fmt::Formatter<'_>) -> fmt::Result {
        f.write_str(match self {
            Failure::ReadFailed => "it couldn't be read",
            Failure::WriteFailed => "it couldn't be written",
            Failure::ReadOther => "another image was read",
            Failure::Other => "a call of the device failed",
        })
    }
}

impl fmt::Display for Error {
    fn fmt(&self, f: &mut fmt::Formatter<'_>) -> fmt::Result {
        match self {
            Error::Refused {
                number,
                place: Some(place),
            } => write!(f, "refused {number} at {place}"),
            Error::Refused {
                number,
                place: None,
            } => write!(f, "refused {number}"),
            Error::OtherSettings => f.write_str("not the settings of a pool that stands"),
            Error::OtherDevice { page } => {
                write!(
                    f,
                    "page {page} of the device can't be read, or is another page"
                )
            }
            Error::OutOfMemory => f.write_str("out of memory"),
            Error::WrongArgument => f.write_str("a number is out of its range"),
            Error::TooManyPlans => f.write_str("as many plans are kept as may be"),
            Error::OtherPool => f.write_str("the plan is another pool's"),
            Error::QueueFull => f.write_str("the queue is full"),
            Error::Stopped => f.write_str("the pool is stopped"),
            Error::Gone {
                page: Some(page),
                why,
            } => write!(f, "the plan was left: page {page}: {why}"),
            Error::Gone { page: None, why } => write!(f, "the plan was left: {why}"),
            Error::GivenUp => f.write_str("the work gave its plan up"),
            Error::StillDirty => f.write_str("changed pages can't be written"),
            Error::FlushesSpent => f.write_str("no flush is left, and pages are changed"),
            Error::InUse => f.write_str("a plan still runs"),
            Error::Broken => f.write_str("the pool is broken"),
        }
    }
}

impl std::error::Error for Error {}

/// Why a pool isn't closed, and the pool: try again, or let it go.
pub struct CloseError<D: Device> {
    /// Why.
    pub error: Error,
    /// The pool, which is stopped.
    pub pool: Pool<D>,
}

impl<D: Device> fmt::Debug for CloseError<D> {
    fn fmt(&self, f: &mut fmt::Formatter<'_>) -> fmt::Result {
        f.debug_struct("CloseError")
            .field("error", &self.error)
            .finish_non_exhaustive()
    }
}

impl<D: Device> fmt::Display for CloseError<D> {
    fn fmt(&self, f: &mut fmt::Formatter<'_>) -> fmt::Result {
        self.error.fmt(f)
    }
}

impl<D: Device> std::error::Error for CloseError<D> {}
