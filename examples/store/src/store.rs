// SPDX-License-Identifier: Apache-2.0
//! The store: open, get, put, delete, scan, batch, checkpoint, close.

use crate::batch::{self, Change, Unfinished, MOST_OF_A_BATCH};
use crate::change::Tag;
use crate::checkpoint::Background;
use crate::device::{PageDevice, PageStore, Shown};
use crate::error::Error;
use crate::header::Header;
use crate::layout::{Layout, MOST_LEVELS, ROOTS};
use crate::log::{Kind, Log};
use crate::medium::{Disk, Medium, Part, StoreFile};
use crate::opening;
use crate::plans::{Job, Plans};
use crate::recovery::recover;
use crate::tree::{Entry, Op, Trees};
use pinpool::{Policy, Pool};
use std::collections::BTreeMap;
use std::path::Path;
use std::sync::{Arc, Mutex, RwLock};

/// How a store is opened.
#[derive(Clone, Debug)]
pub struct Options {
    /// Of a new file: how many bytes a page has, 1,024 to 32,768. A key has an eighth of that at
    /// most, a value a quarter.
    pub page_bytes: usize,
    /// Of a new file: how many leaves there may be, 64 to 2^30. A page number costs some 40 bytes of
    /// memory.
    pub leaves: u32,
    /// Of a new file: how many levels there may be below a root, 2 to 5.
    pub levels: usize,
    /// How many pages the pool holds in memory: 16 at least.
    pub frames: u32,
    /// A checkpoint is made where so many bytes were logged since the last one.
    pub log_bytes: u64,
    /// Whether two threads work beside the callers: one writes changed pages back, one makes
    /// checkpoints. Without them the callers do.
    pub has_threads: bool,
}

impl Default for Options {
    /// Pages of 4,096 bytes, a million leaves (4 GiB), a pool of 8,192 pages (32 MiB), and a
    /// checkpoint for each 64 MiB of log.
    fn default() -> Options {
        Options {
            page_bytes: 4096,
            leaves: 1 << 20,
            levels: MOST_LEVELS,
            frames: 8192,
            log_bytes: 64 << 20,
            has_threads: true,
        }
    }
}

/// A tree of a store. A copy is the same tree.
#[derive(Clone, Copy, Debug, PartialEq, Eq)]
pub struct Tree {
    root: u32,
}

impl Tree {
    /// A number that stands for it, and stays while the file is there.
    pub fn number(self) -> u32 {
        self.root
    }
}

/// A change of a batch.
#[derive(Clone, Copy, Debug, PartialEq, Eq)]
pub enum BatchOp<'a> {
    /// The key gets this value in the tree.
    Put(Tree, &'a [u8], &'a [u8]),
    /// The key gets none.
    Delete(Tree, &'a [u8]),
}

/// What all threads share of a store.
pub(crate) struct Shared {
    pub(crate) trees: Trees,
    pub(crate) log: Arc<Log>,
    /// Who changes something has it shared, a checkpoint alone.
    pub(crate) gate: RwLock<()>,
    pub(crate) header: Mutex<Header>,
    pub(crate) log_bytes: u64,
    names: Mutex<BTreeMap<String, u32>>,
}

/// A durable store of keys and values, in trees that have names. Any thread uses it by reference.
///
/// *What is answered `Ok` is on the medium*: a crash at any later moment doesn't lose it. A change
/// that wasn't answered when the machine stopped is done or not, and never by half; so is a batch.
/// A get or a scan may see changes of other threads that aren't on the medium yet, and single changes
/// of a batch that isn't done.
///
/// A store that is let fall makes no checkpoint; opened again, it recovers from its log.
pub struct Store {
    shared: Arc<Shared>,
    background: Background,
}

impl Store {
    /// Opens the store of this file, and makes it where it isn't there. It is recovered, where that
    /// is needed.
    ///
    /// # Errors
    ///
    /// [`Error::InUse`], [`Error::File`], [`Error::Damaged`]; [`Error::OutOfRange`] where the options
    /// are.
    pub fn open(path: impl AsRef<Path>, options: &Options) -> Result<Store, Error> {
        Store::open_on(&Disk::new(path, true), options)
    }

    /// The same, but the file has to be there.
    ///
    /// # Errors
    ///
    /// As [`Store::open`]'s.
    pub fn open_existing(path: impl AsRef<Path>, options: &Options) -> Result<Store, Error> {
        Store::open_on(&Disk::new(path, false), options)
    }

    /// The same on another medium.
    ///
    /// # Errors
    ///
    /// As [`Store::open`]'s.
    pub fn open_on(medium: &dyn Medium, options: &Options) -> Result<Store, Error> {
        let file = medium.open(Part::Pages).map_err(Error::file("the file"))?;
        let failed = Error::file("the log");
        let halves = [
            medium.open(Part::Log(0)).map_err(&failed)?,
            medium.open(Part::Log(1)).map_err(&failed)?,
        ];
        let mut header = match Header::read(&*file)? {
            Some(header) => header,
            None => make(&*file, &halves, options)?,
        };
        let pages = PageStore::new(file, &header.layout);
        let recovered = recover(&mut header, &pages, &halves)?;
        let found = opening::look(&pages, recovered.next)?;
        let log = Arc::new(Log::new(halves, header.half, header.begin, recovered.next));
        let layout = header.layout.clone();
        let settings = layout.settings(options.frames.max(16));
        let device = Arc::new(PageDevice::new(pages, log.clone(), header.begin));
        let pool = Pool::open(&settings, policy(options), Shown(device.clone()))?;
        let plans = Plans::new(&pool, &layout)?;
        let trees = Trees::new(pool, device, plans, layout, found.space, found.heights);
        let shared = Arc::new(Shared {
            trees,
            log,
            gate: RwLock::new(()),
            header: Mutex::new(header),
            log_bytes: options.log_bytes,
            names: Mutex::new(found.names),
        });
        shared.finish(recovered.batches)?;
        if recovered.records > 0 {
            shared.checkpoint()?;
        }
        let background = Background::new(&shared, options.has_threads);
        Ok(Store { shared, background })
    }

    /// The tree of this name, which is made where it isn't there. Durable when answered.
    ///
    /// # Errors
    ///
    /// [`Error::OutOfRange`] where the name isn't 1 to 32 bytes long, [`Error::Full`] where there are
    /// 64 trees already, their names have no room in a page, or no leaf is free, [`Error::Failed`],
    /// [`Error::Damaged`].
    pub fn tree(&self, name: &str) -> Result<Tree, Error> {
        if !(1..=32).contains(&name.len()) {
            return Err(Error::OutOfRange);
        }
        let mut names = self.shared.names.lock().expect("nobody panics here");
        if let Some(root) = names.get(name) {
            return Ok(Tree { root: *root });
        }
        let number = names.len() as u32;
        if number == ROOTS {
            return Err(Error::Full);
        }
        let root = self.shared.trees.layout.root(number);
        let end = {
            let _gate = self.shared.gate.read().expect("nobody panics here");
            self.shared.trees.found(root, name)?
        };
        names.insert(name.into(), root);
        self.shared.log.force(end)?;
        Ok(Tree { root })
    }

    /// The tree of this name, if there is one.
    pub fn find_tree(&self, name: &str) -> Option<Tree> {
        let names = self.shared.names.lock().expect("nobody panics here");
        names.get(name).map(|root| Tree { root: *root })
    }

    /// The tree that this number stands for, if there is one.
    pub fn tree_of_number(&self, number: u32) -> Option<Tree> {
        self.shared
            .trees
            .is_tree(number)
            .then_some(Tree { root: number })
    }

    /// The names of the trees, by rising bytes.
    pub fn tree_names(&self) -> Vec<String> {
        self.shared
            .names
            .lock()
            .expect("nobody panics here")
            .keys()
            .cloned()
            .collect()
    }

    /// The value of a key, if it has one.
    ///
    /// # Errors
    ///
    /// [`Error::Failed`], [`Error::Damaged`].
    pub fn get(&self, tree: Tree, key: &[u8]) -> Result<Option<Vec<u8>>, Error> {
        self.shared.trees.get(tree.root, key)
    }

    /// Gives a key a value. Durable when answered.
    ///
    /// # Errors
    ///
    /// [`Error::KeyTooLong`], [`Error::ValueTooLong`], [`Error::Full`]: nothing was changed.
    /// [`Error::Failed`], [`Error::Damaged`]: it may have been.
    pub fn put(&self, tree: Tree, key: &[u8], value: &[u8]) -> Result<(), Error> {
        self.change(tree, key, Op::Put(value)).map(|_| ())
    }

    /// Takes a key's value away. Answers whether it had one. Durable when answered.
    ///
    /// # Errors
    ///
    /// [`Error::Failed`], [`Error::Damaged`].
    pub fn delete(&self, tree: Tree, key: &[u8]) -> Result<bool, Error> {
        self.change(tree, key, Op::Delete)
    }

    fn change(&self, tree: Tree, key: &[u8], op: Op) -> Result<bool, Error> {
        self.see_lengths(key, op)?;
        let changed = {
            let _gate = self.shared.gate.read().expect("nobody panics here");
            self.shared.trees.change(tree.root, key, op, None)?
        };
        self.shared.log.force(changed.end)?;
        self.background.after(&self.shared)?;
        Ok(changed.was_there)
    }

    fn see_lengths(&self, key: &[u8], op: Op) -> Result<(), Error> {
        match op {
            _ if key.len() > self.longest_key() => Err(Error::KeyTooLong),
            Op::Put(value) if value.len() > self.longest_value() => Err(Error::ValueTooLong),
            _ => Ok(()),
        }
    }

    /// Keys from one on, and below another if that is given, with their values, by rising keys: no
    /// more than so many.
    ///
    /// What has one parent in the tree (up to 32 leaves) is seen as it was at one moment; others may
    /// change what comes behind in the meantime. A key that is there all the time is seen once, one
    /// that never is isn't.
    ///
    /// # Errors
    ///
    /// [`Error::Failed`], [`Error::Damaged`].
    pub fn scan(
        &self,
        tree: Tree,
        from: &[u8],
        to: Option<&[u8]>,
        most: usize,
    ) -> Result<Vec<Entry>, Error> {
        self.shared.trees.scan(tree.root, from, to, most)
    }

    /// Makes all changes, or none where the machine stops before it is answered. They are made one by
    /// one, in their order. Durable when answered.
    ///
    /// # Errors
    ///
    /// [`Error::KeyTooLong`], [`Error::ValueTooLong`], [`Error::OutOfRange`] where there are more than
    /// [`MOST_OF_A_BATCH`], and [`Error::Full`] where there may not be pages enough for all: nothing
    /// was changed. [`Error::Failed`], [`Error::Damaged`]: the store is to be opened again, and then
    /// all or none are made.
    pub fn batch(&self, ops: &[BatchOp]) -> Result<(), Error> {
        let changes: Vec<_> = ops.iter().map(change_of).collect();
        if changes.len() > MOST_OF_A_BATCH {
            return Err(Error::OutOfRange);
        }
        for change in &changes {
            self.see_lengths(change.key, change.op)?;
        }
        let end = {
            let _gate = self.shared.gate.read().expect("nobody panics here");
            self.shared.batch(&changes)?
        };
        self.shared.log.force(end)?;
        self.background.after(&self.shared)
    }

    /// Writes and syncs all pages that were changed before, and lets the log begin anew. Changes wait
    /// while pages are written, and go on while they are synced; gets and scans go on all the time.
    ///
    /// # Errors
    ///
    /// [`Error::Failed`], [`Error::File`].
    pub fn checkpoint(&self) -> Result<(), Error> {
        self.shared.checkpoint()
    }

    /// Makes a checkpoint, and closes the store.
    ///
    /// # Errors
    ///
    /// [`Error::Failed`], [`Error::File`]. The store is closed then, too, and recovers when it is
    /// opened.
    pub fn close(mut self) -> Result<(), Error> {
        self.background.end(&self.shared);
        self.shared.checkpoint()
    }

    /// How many bytes a key may have.
    pub fn longest_key(&self) -> usize {
        self.shared.trees.layout.longest_key()
    }

    /// How many bytes a value may have.
    pub fn longest_value(&self) -> usize {
        self.shared.trees.layout.longest_value()
    }

    /// Each plan's name, the most pages that it holds at once, and the most steps that it makes.
    pub fn plans(&self) -> Vec<(&'static str, u64, u64)> {
        let plans = &self.shared.trees.plans;
        let row = |job: &Job| (job.name(), plans.of(*job).peak(), plans.of(*job).cost());
        Job::ALL.iter().map(row).collect()
    }

    /// What the pool has done.
    pub fn pool_stats(&self) -> pinpool::Stats {
        self.shared.trees.pool.stats()
    }
}

impl Drop for Store {
    fn drop(&mut self) {
        self.background.end(&self.shared);
    }
}

impl Shared {
    /// Makes the changes of a batch. Answers where its last record ends in the log.
    fn batch(&self, changes: &[Change]) -> Result<u64, Error> {
        if !self.trees.space.promise(changes.len() as u32) {
            return Err(Error::Full);
        }
        let batch = self.log.append(Kind::Batch, &batch::record_of(changes));
        let made = (0..).zip(changes).try_for_each(|(number, change)| {
            let tag = Some(Tag { batch, number });
            self.trees
                .change(change.root, change.key, change.op, tag)
                .map(|_| ())
        });
        self.trees.space.release(changes.len() as u32);
        made.map_err(|_| Error::Failed)?;
        Ok(self.log.append(Kind::BatchDone, &batch.to_le_bytes()))
    }

    /// Makes the changes that are missing of batches which a crash has cut off.
    fn finish(&self, batches: BTreeMap<u64, Unfinished>) -> Result<(), Error> {
        for (batch, unfinished) in batches {
            let changes = (0..).zip(&unfinished.changes).zip(&unfinished.is_done);
            for ((number, (root, key, value)), _) in changes.filter(|it| !it.1) {
                let op = value.as_ref().map_or(Op::Delete, |value| Op::Put(value));
                self.trees
                    .change(*root, key, op, Some(Tag { batch, number }))?;
            }
            let end = self.log.append(Kind::BatchDone, &batch.to_le_bytes());
            self.log.force(end)?;
        }
        Ok(())
    }
}

fn change_of<'a>(op: &BatchOp<'a>) -> Change<'a> {
    match *op {
        BatchOp::Put(Tree { root }, key, value) => Change {
            root,
            key,
            op: Op::Put(value),
        },
        BatchOp::Delete(Tree { root }, key) => Change {
            root,
            key,
            op: Op::Delete,
        },
    }
}

/// Makes a new file: its header. (Pages that were never written are zeros.) An older store's log of
/// the same name is cut off before.
fn make(
    file: &dyn StoreFile,
    halves: &[Box<dyn StoreFile>; 2],
    options: &Options,
) -> Result<Header, Error> {
    for half in halves {
        half.cut(0)
            .and_then(|()| half.sync())
            .map_err(Error::file("the log"))?;
    }
    let header = Header {
        layout: Layout::new(options.page_bytes, options.leaves, options.levels)
            .ok_or(Error::OutOfRange)?,
        turn: 0,
        half: 0,
        begin: 0,
    };
    header.write(file)?;
    Ok(header)
}

/// Pages are written back where an eighth of the frames is changed, down to a sixteenth.
fn policy(options: &Options) -> Policy {
    Policy {
        queue: 4096,
        bypass: 4,
        flush_from: (options.frames / 8).max(8),
        flush_to: (options.frames / 16).max(4),
    }
}
