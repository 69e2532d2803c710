// SPDX-License-Identifier: Apache-2.0
//! Crash tests: a store on a medium whose power fails at a chosen call, and a plain map beside it.
//!
//! A *life* is from an opening to the next failure. In each one the store does steps by chance: puts,
//! deletes, batches, checkpoints, and an orderly closing and opening. Then the power fails, the medium
//! keeps of what wasn't synced what chance decides, and the store is opened again; there the power
//! may fail, too. Behind that
//!
//! - each key has the value that was answered last; or, of the one call that was under way, all
//!   changes are made, and not some of them;
//! - the whole file is well-formed ([`crate::check`]).

mod simulated;

pub use simulated::{Chance, Simulated};

use crate::check::check;
use crate::error::Error;
use crate::medium::Medium;
use crate::store::{BatchOp, Options, Store, Tree};
use std::collections::BTreeMap;
use std::thread;

/// Keys with their values.
pub type Map = BTreeMap<Vec<u8>, Vec<u8>>;

/// Changes that are answered together: a key, and its value or none.
pub type Changes = Vec<(Vec<u8>, Option<Vec<u8>>)>;

/// What a thread does next.
#[derive(Clone, Debug, PartialEq, Eq)]
pub enum Step {
    /// One change, or a batch of several.
    Changes(Changes),
    /// A checkpoint.
    Checkpoint,
    /// The store is closed, and opened again.
    Reopen,
}

/// The steps of a thread, which are the same each time.
#[derive(Clone, Copy, Debug)]
pub struct Script {
    /// What chance begins with.
    pub seed: u64,
    /// The thread's number. Each has keys of its own.
    pub thread: u64,
    /// How many keys there are for each thread.
    pub keys: u64,
    /// How long a key and a value are at most.
    pub key_bytes: u64,
    /// How long a value is at most.
    pub value_bytes: u64,
}

impl Script {
    /// The step of this number.
    pub fn step(&self, number: u64) -> Step {
        let mut chance =
            Chance::new(self.seed ^ self.thread << 56 ^ number.wrapping_mul(0x5851_f42d_4c95_7f2d));
        match chance.below(40) {
            0 => Step::Checkpoint,
            1 => Step::Reopen,
            it => {
                let count = match it {
                    2 => 20 + chance.below(30),
                    3..8 => 2 + chance.below(6),
                    _ => 1,
                };
                Step::Changes((0..count).map(|_| self.change(&mut chance)).collect())
            }
        }
    }

    fn change(&self, chance: &mut Chance) -> (Vec<u8>, Option<Vec<u8>>) {
        let number = chance.below(self.keys);
        let mut key = format!("{}{number:05}", self.thread).into_bytes();
        key.resize(
            key.len() + (number * 31 % (self.key_bytes - 12)) as usize,
            b'k',
        );
        // (now most keys come, and now most go)
        let puts = if self.seed.is_multiple_of(3) { 2 } else { 5 };
        let is_put = chance.below(7) < puts;
        let value =
            || vec![b'a' + chance.below(26) as u8; chance.below(self.value_bytes + 1) as usize];
        (key, is_put.then(value))
    }
}

/// Makes the changes in a map.
pub fn apply(map: &mut Map, changes: &Changes) {
    for (key, value) in changes {
        match value {
            Some(value) => map.insert(key.clone(), value.clone()),
            None => map.remove(key),
        };
    }
}

/// Makes the changes in the store: one by its own call, several as a batch.
///
/// # Errors
///
/// Those of the call.
pub fn make(store: &Store, tree: Tree, changes: &Changes) -> Result<(), Error> {
    match changes.as_slice() {
        [(key, Some(value))] => store.put(tree, key, value),
        [(key, None)] => store.delete(tree, key).map(|_| ()),
        _ => {
            let ops: Vec<_> = changes
                .iter()
                .map(|(key, value)| match value {
                    Some(value) => BatchOp::Put(tree, key, value),
                    None => BatchOp::Delete(tree, key),
                })
                .collect();
            store.batch(&ops)
        }
    }
}

/// Whether the keys that are there are those of the map; or those of the map with these changes.
pub fn is_one_of(there: &Map, map: &Map, under_way: Option<&Changes>) -> bool {
    there == map
        || under_way.is_some_and(|changes| {
            let mut changed = map.clone();
            apply(&mut changed, changes);
            *there == changed
        })
}

/// A crash test.
#[derive(Clone, Copy, Debug)]
pub struct Trial {
    /// What chance begins with.
    pub seed: u64,
    /// How many threads there are.
    pub threads: u64,
    /// How many lives there are.
    pub lives: u64,
    /// How many steps a thread makes in a life, unless the power fails before.
    pub steps: u64,
    /// The call of the medium at which the power fails in the first life; none where chance decides.
    pub first_failure: Option<u64>,
}

/// Small pages, and a pool and a log that are full soon.
fn small(has_threads: bool) -> Options {
    Options {
        page_bytes: 1024,
        leaves: 256,
        levels: 3,
        frames: 16,
        log_bytes: 20_000,
        has_threads,
    }
}

/// What a thread knows of its keys.
#[derive(Clone, Default)]
struct Known {
    /// What was answered.
    map: Map,
    /// What was asked, and not answered.
    under_way: Option<Changes>,
    /// How many steps were begun.
    begun: u64,
}

impl Trial {
    /// Runs it. Answers how many calls of the medium were made in the first life.
    ///
    /// # Errors
    ///
    /// What was amiss behind which life.
    pub fn run(&self) -> Result<u64, String> {
        let mut medium = Simulated::new();
        let mut chance = Chance::new(self.seed);
        let mut known = vec![Known::default(); self.threads as usize];
        let mut first_calls = 0;
        for life in 0..self.lives {
            medium.fail_at(match self.first_failure.filter(|_| life == 0) {
                Some(call) => call,
                None => 1 + chance.below(self.steps * self.threads * 3),
            });
            self.live(&medium, &mut known);
            if life == 0 {
                first_calls = medium.calls();
            }
            medium = medium.restart(&mut chance);
            for _ in 0..chance.below(3) {
                // the power fails while the store recovers
                medium.fail_at(1 + chance.below(12));
                drop(Store::open_on(&medium, &small(self.threads > 1)));
                medium = medium.restart(&mut chance);
            }
            self.see(&medium, &mut known)
                .map_err(|what| format!("life {life} of {self:?}: {what}"))?;
        }
        Ok(first_calls)
    }

    fn script(&self, thread: u64) -> Script {
        Script {
            seed: self.seed,
            thread,
            keys: 120 / self.threads,
            key_bytes: 128,
            value_bytes: 256,
        }
    }

    /// Works until the power fails, or all steps are made.
    fn live(&self, medium: &Simulated, known: &mut [Known]) {
        let has_threads = self.threads > 1;
        let Ok(mut store) = Store::open_on(medium, &small(has_threads)) else {
            return;
        };
        let Ok(tree) = store.tree("keys") else {
            return;
        };
        if let [known] = known {
            for _ in 0..self.steps {
                known.begun += 1;
                match self.script(0).step(known.begun) {
                    Step::Reopen => {
                        drop(store.close());
                        match Store::open_on(medium, &small(has_threads)) {
                            Ok(opened) => store = opened,
                            Err(_) => return,
                        }
                    }
                    step => match one_step(&store, tree, step, known) {
                        Ok(()) => {}
                        Err(_) => return,
                    },
                }
            }
            return;
        }
        thread::scope(|scope| {
            for (number, known) in (0..).zip(known) {
                let (store, script) = (&store, self.script(number));
                scope.spawn(move || {
                    for _ in 0..self.steps {
                        known.begun += 1;
                        if one_step(store, tree, script.step(known.begun), known).is_err() {
                            return;
                        }
                    }
                });
            }
        });
    }

    /// Opens the store, compares what it has with what is known, and looks at the whole file.
    fn see(&self, medium: &Simulated, known: &mut [Known]) -> Result<(), String> {
        let failed = |error: Error| format!("it can't be opened: {error}");
        let store = Store::open_on(medium, &small(false)).map_err(failed)?;
        let tree = store.tree("keys").map_err(failed)?;
        let there = store.scan(tree, b"", None, usize::MAX).map_err(failed)?;
        for (number, known) in (0..).zip(known) {
            let is_mine = |it: &(Vec<u8>, Vec<u8>)| it.0[0] == b'0' + number;
            let mine: Map = there.iter().filter(|it| is_mine(it)).cloned().collect();
            if !is_one_of(&mine, &known.map, known.under_way.as_ref()) {
                return Err(difference(&mine, known));
            }
            known.map = mine;
            known.under_way = None;
        }
        store.close().map_err(failed)?;
        let report = check(medium as &dyn Medium).map_err(failed)?;
        match report.amiss.first() {
            Some(what) => Err(what.clone()),
            None if report.keys != there.len() as u64 => {
                Err("a scan found other keys than there are".into())
            }
            None => Ok(()),
        }
    }
}

fn one_step(store: &Store, tree: Tree, step: Step, known: &mut Known) -> Result<(), Error> {
    match step {
        Step::Changes(changes) => {
            known.under_way = Some(changes);
            let changes = known.under_way.as_ref().expect("it was set");
            make(store, tree, changes)?;
            apply(&mut known.map, changes);
            known.under_way = None;
            Ok(())
        }
        Step::Checkpoint => store.checkpoint(),
        Step::Reopen => Ok(()),
    }
}

/// The first key that has another value than was answered.
fn difference(there: &Map, known: &Known) -> String {
    let keys = there.keys().chain(known.map.keys());
    let other = keys
        .into_iter()
        .find(|key| there.get(*key) != known.map.get(*key));
    let key = String::from_utf8_lossy(other.map_or(&[], |key| key)).into_owned();
    format!(
        "key {key} has another value than was answered, or a call that was under way is done by half ({} changes)",
        known.under_way.as_ref().map_or(0, Vec::len)
    )
}
