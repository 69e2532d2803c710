// SPDX-License-Identifier: Apache-2.0
//! A medium in memory whose power fails.

use crate::medium::{Medium, Part, StoreFile};
use std::io;
use std::sync::atomic::{AtomicU64, Ordering};
use std::sync::{Arc, Mutex};

/// How many bytes the medium writes as a whole.
const SECTOR: usize = 512;

/// Numbers by chance (splitmix64).
pub struct Chance(u64);

impl Chance {
    /// They are the same for the same seed.
    pub fn new(seed: u64) -> Chance {
        Chance(seed)
    }

    /// A number below this limit.
    pub fn below(&mut self, limit: u64) -> u64 {
        self.0 = self.0.wrapping_add(0x9e37_79b9_7f4a_7c15);
        let mut number = self.0;
        number = (number ^ (number >> 30)).wrapping_mul(0xbf58_476d_1ce4_e5b9);
        number = (number ^ (number >> 27)).wrapping_mul(0x94d0_49bb_1331_11eb);
        (number ^ (number >> 31)) % limit
    }
}

/// A medium for the three files of a store. Each write, cut and sync is a call; at the chosen one the
/// power fails. That call and all later ones answer an error. A write that is cut off so may be on the
/// medium or not, like all that weren't synced; a sync does nothing.
pub struct Simulated {
    power: Arc<Power>,
    files: [Arc<Mutex<Content>>; 3],
}

struct Power {
    calls: AtomicU64,
    fails_at: AtomicU64,
}

impl Power {
    /// A call. Answers whether the power is still on behind it.
    fn call(&self) -> io::Result<()> {
        let call = self.calls.fetch_add(1, Ordering::SeqCst) + 1;
        match call < self.fails_at.load(Ordering::SeqCst) {
            true => Ok(()),
            false => Err(io::Error::other("the power is off")),
        }
    }

    fn is_on(&self) -> bool {
        self.calls.load(Ordering::SeqCst) < self.fails_at.load(Ordering::SeqCst)
    }
}

/// What a file has.
#[derive(Default)]
struct Content {
    /// As its readers see it.
    now: Vec<u8>,
    /// As it is on the medium for certain.
    synced: Vec<u8>,
    /// What came behind the last sync.
    unsynced: Vec<Change>,
}

enum Change {
    Write(usize, Vec<u8>),
    Cut(usize),
}

impl Change {
    fn apply(&self, bytes: &mut Vec<u8>) {
        match self {
            Change::Write(at, new) => {
                if bytes.len() < at + new.len() {
                    bytes.resize(at + new.len(), 0);
                }
                bytes[*at..at + new.len()].copy_from_slice(new);
            }
            Change::Cut(length) => bytes.truncate(*length),
        }
    }

    /// Of a write some sectors alone.
    fn tear(&self, bytes: &mut Vec<u8>, chance: &mut Chance) {
        let Change::Write(at, new) = self else {
            return;
        };
        let mut from = *at;
        while from < at + new.len() {
            let to = ((from / SECTOR + 1) * SECTOR).min(at + new.len());
            if chance.below(2) == 0 {
                Change::Write(from, new[from - at..to - at].to_vec()).apply(bytes);
            }
            from = to;
        }
    }
}

impl Simulated {
    /// Without a byte, and with power for ever.
    pub fn new() -> Simulated {
        Simulated::of(Default::default())
    }

    fn of(files: [Arc<Mutex<Content>>; 3]) -> Simulated {
        let power = Power {
            calls: AtomicU64::new(0),
            fails_at: AtomicU64::new(u64::MAX),
        };
        Simulated {
            power: Arc::new(power),
            files,
        }
    }

    /// The power fails at this call, counted from the medium's beginning, from 1 on.
    pub fn fail_at(&self, call: u64) {
        self.power.fails_at.store(call, Ordering::SeqCst);
    }

    /// How many calls were made.
    pub fn calls(&self) -> u64 {
        self.power.calls.load(Ordering::SeqCst)
    }

    /// What the medium has when the power is on again. Of what wasn't synced, by chance, all is there,
    /// or nothing, or some of it: some writes, and of some of them some sectors.
    pub fn restart(&self, chance: &mut Chance) -> Simulated {
        let how = chance.below(4);
        let files = [0, 1, 2].map(|number| {
            let content = self.files[number].lock().expect("nobody panics here");
            let mut bytes = content.synced.clone();
            for change in &content.unsynced {
                match (how, chance.below(3)) {
                    (0, _) | (2 | 3, 0) => change.apply(&mut bytes),
                    (2 | 3, 1) => change.tear(&mut bytes, chance),
                    _ => {}
                }
            }
            Arc::new(Mutex::new(Content {
                now: bytes.clone(),
                synced: bytes,
                unsynced: Vec::new(),
            }))
        });
        Simulated::of(files)
    }
}

impl Default for Simulated {
    fn default() -> Simulated {
        Simulated::new()
    }
}

impl Medium for Simulated {
    fn open(&self, part: Part) -> io::Result<Box<dyn StoreFile>> {
        let number = match part {
            Part::Pages => 0,
            Part::Log(half) => 1 + half,
        };
        Ok(Box::new(SimulatedFile {
            power: self.power.clone(),
            content: self.files[number].clone(),
        }))
    }
}

struct SimulatedFile {
    power: Arc<Power>,
    content: Arc<Mutex<Content>>,
}

impl SimulatedFile {
    fn change(&self, change: Change) -> io::Result<()> {
        let mut content = self.content.lock().expect("nobody panics here");
        if !self.power.is_on() {
            return self.power.call();
        }
        let answer = self.power.call();
        change.apply(&mut content.now);
        content.unsynced.push(change);
        answer
    }
}

impl StoreFile for SimulatedFile {
    fn read(&self, at: u64, bytes: &mut [u8]) -> io::Result<usize> {
        if !self.power.is_on() {
            return Err(io::Error::other("the power is off"));
        }
        let content = self.content.lock().expect("nobody panics here");
        let from = content.now.get(at as usize..).unwrap_or(&[]);
        let count = from.len().min(bytes.len());
        bytes[..count].copy_from_slice(&from[..count]);
        Ok(count)
    }

    fn write(&self, at: u64, bytes: &[u8]) -> io::Result<()> {
        self.change(Change::Write(at as usize, bytes.to_vec()))
    }

    fn sync(&self) -> io::Result<()> {
        let mut content = self.content.lock().expect("nobody panics here");
        self.power.call()?;
        let Content {
            synced, unsynced, ..
        } = &mut *content;
        unsynced.drain(..).for_each(|change| change.apply(synced));
        Ok(())
    }

    fn cut(&self, length: u64) -> io::Result<()> {
        self.change(Change::Cut(length as usize))
    }

    fn length(&self) -> io::Result<u64> {
        Ok(self.content.lock().expect("nobody panics here").now.len() as u64)
    }
}
