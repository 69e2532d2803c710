// SPDX-License-Identifier: Apache-2.0
//! The trees: what is done along each plan.
//!
//! Whatever a plan changes, it changes in the call behind its last latch, in its own copies of the
//! pages, and puts into one record of the log. Only then is the first latch taken off. So a plan that
//! is left before (a page couldn't be read, or it turned out that more pages are needed) has changed
//! nothing, and one that came so far calls no device any more.

mod common;
mod growth;
mod leaf;
mod reads;
mod splits;

use crate::change::{Record, Tag};
use crate::device::{PageDevice, Shown};
use crate::error::Error;
use crate::layout::Layout;
use crate::log::{Kind, Log};
use crate::node;
use crate::path::Path;
use crate::plans::{Job, Plans};
use crate::space::Space;
use common::Common;
use growth::{Found, Grow};
use leaf::Write;
use pinpool::{Pages, Pool, Work};
use reads::{Look, Scan};
use splits::Restructure;
use std::sync::atomic::{AtomicUsize, Ordering};
use std::sync::Arc;

/// A change of one key.
#[derive(Clone, Copy, Debug, PartialEq, Eq)]
pub enum Op<'a> {
    /// The key gets this value.
    Put(&'a [u8]),
    /// The key gets none.
    Delete,
}

/// A key with its value.
pub type Entry = (Vec<u8>, Vec<u8>);

/// All trees of a file, for any number of threads.
pub struct Trees {
    /// How their pages are laid out.
    pub layout: Layout,
    /// The pool.
    pub pool: Pool<Shown>,
    /// The device under it.
    pub device: Arc<PageDevice>,
    /// The pages that are free.
    pub space: Space,
    log: Arc<Log>,
    /// The plans that the pool keeps.
    pub plans: Plans,
    /// The heights of the roots, as far as known.
    heights: Vec<AtomicUsize>,
}

/// How a change went.
#[derive(Clone, Copy, Debug, PartialEq, Eq)]
pub struct Changed {
    /// Where its record ends in the log; where nothing was to be changed, that of the leaf's last
    /// change.
    pub end: u64,
    /// Whether the key had a value before.
    pub was_there: bool,
}

/// What came of a plan.
enum Outcome {
    /// It ended before that was known.
    Unknown,
    Done(Changed),
    /// It needs more pages than it has.
    NeedsMore,
    /// No page is free.
    Full,
}

/// A page that is latched X: its slot, and what it was before; none where it was free.
struct Held {
    slot: u32,
    before: Option<Vec<u8>>,
}

impl Trees {
    /// The trees on this pool, whose roots have these heights (0: there is no such tree).
    pub fn new(
        pool: Pool<Shown>,
        device: Arc<PageDevice>,
        plans: Plans,
        layout: Layout,
        space: Space,
        heights: Vec<usize>,
    ) -> Trees {
        Trees {
            layout,
            pool,
            space,
            log: device.log.clone(),
            device,
            plans,
            heights: heights.into_iter().map(AtomicUsize::new).collect(),
        }
    }

    /// Whether this page is a tree's root.
    pub fn is_tree(&self, root: u32) -> bool {
        let number = root.wrapping_sub(self.layout.root(0)) as usize;
        self.heights
            .get(number)
            .is_some_and(|it| it.load(Ordering::Relaxed) > 0)
    }

    fn height(&self, root: u32) -> &AtomicUsize {
        &self.heights[(root - self.layout.root(0)) as usize]
    }

    fn path<'a>(&'a self, root: u32, key: &'a [u8]) -> Path<'a> {
        let height = self.height(root).load(Ordering::Relaxed);
        Path::new(&self.layout, root, height, key)
    }

    /// Runs a plan, up to its end or to where its work gave it up.
    fn run<W: Work>(&self, job: Job, work: &mut W) -> Result<(), Error> {
        match self.pool.execute(self.plans.of(job), work) {
            Ok(()) | Err(pinpool::Error::GivenUp) => Ok(()),
            Err(pinpool::Error::Gone { .. }) if self.device.has_failed() => Err(Error::Failed),
            Err(error) => Err(error.into()),
        }
    }

    /// Runs a plan that begins with the root's height. Answers whether that was right: else it is
    /// known now, and the plan is to be run anew.
    fn run_by_height<'a, W: Work + HasPath<'a>>(
        &self,
        job: Job,
        root: u32,
        work: &mut W,
    ) -> Result<bool, Error> {
        let ended = self.run(job, work);
        if work.path().is_lost {
            self.height(root)
                .store(work.path().height, Ordering::Relaxed);
            return Ok(false);
        }
        ended.map(|()| true)
    }

    /// The value of a key.
    pub fn get(&self, root: u32, key: &[u8]) -> Result<Option<Vec<u8>>, Error> {
        let mut look = Look {
            path: Path::from_root(&self.layout, root, key),
            first_leaf: self.layout.even_of(0),
            value: None,
        };
        self.run(Job::Look, &mut look)?;
        Ok(look.value)
    }

    /// Keys from one on, and below another, with their values: no more than so many. Each parent's
    /// leaves are seen as they were at one moment.
    pub fn scan(
        &self,
        root: u32,
        from: &[u8],
        to: Option<&[u8]>,
        most: usize,
    ) -> Result<Vec<Entry>, Error> {
        let (mut from, mut entries) = (from.to_vec(), Vec::new());
        loop {
            let mut scan = Scan {
                path: Path::from_root(&self.layout, root, &from),
                first_leaf: self.layout.even_of(0),
                to,
                most,
                leaves: None,
                upper: None,
                entries: std::mem::take(&mut entries),
            };
            self.run(Job::Scan, &mut scan)?;
            entries = std::mem::take(&mut scan.entries);
            let goes_on = entries.len() < most;
            match scan
                .upper
                .filter(|it| goes_on && to.is_none_or(|to| &it[..] < to))
            {
                Some(upper) => from = upper,
                None => return Ok(entries),
            }
        }
    }

    /// Changes a key, by the plan that holds fewest pages first.
    ///
    /// # Errors
    ///
    /// [`Error::Full`], and then nothing was changed; [`Error::Failed`], [`Error::Damaged`].
    pub fn change(
        &self,
        root: u32,
        key: &[u8],
        op: Op,
        tag: Option<Tag>,
    ) -> Result<Changed, Error> {
        let mut job = Job::Write;
        loop {
            let (is_right, outcome) = match job {
                Job::Write => (true, self.write(root, key, op, tag, false)?),
                Job::Grow => self.grow(root, tag)?,
                _ => self.restructure(job, root, key, op, tag)?,
            };
            if !is_right {
                continue;
            }
            job = match (outcome, job) {
                (_, Job::Grow) => Job::Path,
                (Outcome::Done(changed), _) => return Ok(changed),
                (Outcome::NeedsMore, Job::Write) => Job::Pair,
                (Outcome::NeedsMore, Job::Pair) => Job::Path,
                (Outcome::NeedsMore, _) => Job::Grow,
                (Outcome::Full, _) if op == Op::Delete => {
                    // (a leaf without an entry may stay)
                    match self.write(root, key, op, tag, true)? {
                        Outcome::Done(changed) => return Ok(changed),
                        _ => Job::Write,
                    }
                }
                (Outcome::Full, _) => return Err(Error::Full),
                (Outcome::Unknown, _) => {
                    return Err(Error::Damaged(
                        "a node names a page of another level".into(),
                    ))
                }
            };
        }
    }

    fn write(
        &self,
        root: u32,
        key: &[u8],
        op: Op,
        tag: Option<Tag>,
        may_be_empty: bool,
    ) -> Result<Outcome, Error> {
        let mut write = Write {
            trees: self,
            path: Path::from_root(&self.layout, root, key),
            op,
            tag,
            may_be_empty,
            outcome: Outcome::Unknown,
        };
        self.run(Job::Write, &mut write)?;
        Ok(write.outcome)
    }

    fn restructure(
        &self,
        job: Job,
        root: u32,
        key: &[u8],
        op: Op,
        tag: Option<Tag>,
    ) -> Result<(bool, Outcome), Error> {
        let mut work = Restructure {
            path: self.path(root, key),
            op,
            job,
            nodes: vec![(0, 0); self.layout.levels + 1],
            freed: None,
            common: Common::new(self, tag),
        };
        let ran = self.run_by_height(job, root, &mut work);
        work.common.give_back();
        let is_right = ran?;
        if let (true, Some(page)) = (is_right, work.freed) {
            self.space.give(page);
        }
        Ok((is_right, work.common.outcome))
    }

    fn grow(&self, root: u32, tag: Option<Tag>) -> Result<(bool, Outcome), Error> {
        let path = self.path(root, &[]);
        if path.height == self.layout.levels {
            return Err(Error::Full);
        }
        let last_slot = self.layout.even_of(path.height) + 1;
        // (the change itself is tagged, not the growth before it)
        let mut common = Common::new(self, None);
        common.is_of_a_batch = tag.is_some();
        let mut work = Grow {
            path,
            last_slot,
            common,
        };
        let ran = self.run_by_height(Job::Grow, root, &mut work);
        work.common.give_back();
        let is_right = ran?;
        if let (true, Outcome::Full) = (is_right, &work.common.outcome) {
            return Err(Error::Full);
        }
        if let (true, Outcome::Done(_)) = (is_right, &work.common.outcome) {
            self.height(root)
                .fetch_max(work.path.height + 1, Ordering::Relaxed);
        }
        Ok((is_right, work.common.outcome))
    }

    /// Makes the tree of this root, whose page was never used, and of this name. Answers where its
    /// record ends in the log.
    pub fn found(&self, root: u32, name: &str) -> Result<u64, Error> {
        let mut work = Found {
            path: self.path(root, name.as_bytes()),
            common: Common::new(self, None),
        };
        let ran = self.run(Job::Found, &mut work);
        work.common.give_back();
        ran?;
        match work.common.outcome {
            Outcome::Done(changed) => {
                self.height(root).store(1, Ordering::Relaxed);
                Ok(changed.end)
            }
            _ => Err(Error::Full),
        }
    }

    /// Puts what was changed into one record of the log, and notes in the pages where it ends.
    fn commit(&self, pages: &mut Pages, held: &[Held], tag: Option<Tag>) -> u64 {
        let begin = self.log.begin();
        let (mut record, mut last, mut changed) = (Record::new(tag), 0, Vec::new());
        for Held { slot, before } in held {
            let (page, body) = (pages.page(*slot).unwrap_or(0), &pages[*slot]);
            last = last.max(node::log_end(body));
            if before.as_deref() == Some(body) {
                continue;
            }
            let known = before.as_deref().filter(|it| node::log_end(it) > begin);
            record.add(page, known, body);
            changed.push(*slot);
        }
        if record.is_empty() && tag.is_none() {
            return last;
        }
        let end = self.log.append(Kind::Change, record.bytes());
        for slot in changed {
            node::set_log_end(&mut pages[slot], end);
        }
        end
    }
}

/// A work that goes down a tree whose root may have another height than was believed.
trait HasPath<'a> {
    fn path(&self) -> &Path<'a>;
}
