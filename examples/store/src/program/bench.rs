// SPDX-License-Identifier: Apache-2.0
//! The loads A to F of YCSB.

use std::sync::atomic::{AtomicU64, Ordering};
use std::thread;
use std::time::{Duration, Instant};
use store::{BatchOp, Error, Options, Store, Tree};

/// How many bytes a value has.
const VALUE_BYTES: usize = 100;

/// How skewed the choice of keys is.
const SKEW: f64 = 0.99;

/// What a load does, in hundredths.
struct Load {
    reads: u64,
    updates: u64,
    inserts: u64,
    scans: u64,
    /// Whether the newest records are read most.
    reads_newest: bool,
}

fn load_of(letter: u8) -> Load {
    let (reads, updates, inserts, scans) = match letter {
        b'A' => (50, 50, 0, 0),
        b'B' => (95, 5, 0, 0),
        b'C' => (100, 0, 0, 0),
        b'D' => (95, 0, 5, 0),
        b'E' => (0, 0, 5, 95),
        _ => (50, 0, 0, 0), // F: and the others read, change and write
    };
    Load {
        reads,
        updates,
        inserts,
        scans,
        reads_newest: letter == b'D',
    }
}

/// Numbers by chance (splitmix64).
struct Chance(u64);

impl Chance {
    fn next(&mut self) -> u64 {
        self.0 = self.0.wrapping_add(0x9e37_79b9_7f4a_7c15);
        let mut number = self.0;
        number = (number ^ (number >> 30)).wrapping_mul(0xbf58_476d_1ce4_e5b9);
        number = (number ^ (number >> 27)).wrapping_mul(0x94d0_49bb_1331_11eb);
        number ^ (number >> 31)
    }

    fn below(&mut self, limit: u64) -> u64 {
        self.next() % limit
    }

    fn fraction(&mut self) -> f64 {
        (self.next() >> 11) as f64 / (1u64 << 53) as f64
    }
}

/// Ranks by Zipf's law, as YCSB draws them (Gray et al., Quickly generating billion-record synthetic
/// databases).
#[derive(Clone, Copy)]
struct Zipf {
    items: f64,
    alpha: f64,
    zeta: f64,
    eta: f64,
}

impl Zipf {
    fn new(items: u64) -> Zipf {
        let zeta: f64 = (1..=items).map(|it| (it as f64).powf(-SKEW)).sum();
        let zeta_of_2 = 1.0 + 0.5f64.powf(SKEW);
        let items = items as f64;
        Zipf {
            items,
            alpha: 1.0 / (1.0 - SKEW),
            zeta,
            eta: (1.0 - (2.0 / items).powf(1.0 - SKEW)) / (1.0 - zeta_of_2 / zeta),
        }
    }

    fn rank(&self, chance: &mut Chance) -> u64 {
        let fraction = chance.fraction();
        let scaled = fraction * self.zeta;
        if scaled < 1.0 {
            return 0;
        }
        if scaled < 1.0 + 0.5f64.powf(SKEW) {
            return 1;
        }
        (self.items * (self.eta * fraction - self.eta + 1.0).powf(self.alpha)) as u64
    }
}

/// FNV-1a of a number: records that are used much don't lie side by side.
fn scatter(number: u64) -> u64 {
    number
        .to_le_bytes()
        .iter()
        .fold(0xcbf2_9ce4_8422_2325, |sum, byte| {
            (sum ^ u64::from(*byte)).wrapping_mul(0x0000_0100_0000_01b3)
        })
}

fn key_of(number: u64) -> Vec<u8> {
    format!("user{:020}", scatter(number)).into_bytes()
}

/// One thread's part.
struct Worker<'s> {
    store: &'s Store,
    tree: Tree,
    zipf: Zipf,
    /// How many records there are.
    records: &'s AtomicU64,
    chance: Chance,
    value: [u8; VALUE_BYTES],
}

impl Worker<'_> {
    fn old_record(&mut self, reads_newest: bool) -> Vec<u8> {
        let records = self.records.load(Ordering::Relaxed);
        let rank = self.zipf.rank(&mut self.chance);
        key_of(match reads_newest {
            true => records.saturating_sub(1 + rank),
            false => scatter(rank) % records,
        })
    }

    fn operation(&mut self, load: &Load) -> Result<(), Error> {
        let turn = self.chance.below(100);
        let key = self.old_record(load.reads_newest);
        self.value[..8].copy_from_slice(&self.chance.next().to_le_bytes());
        if turn < load.reads {
            self.store.get(self.tree, &key).map(|_| ())
        } else if turn < load.reads + load.updates {
            self.store.put(self.tree, &key, &self.value)
        } else if turn < load.reads + load.updates + load.inserts {
            let number = self.records.fetch_add(1, Ordering::Relaxed);
            self.store.put(self.tree, &key_of(number), &self.value)
        } else if load.scans > 0 {
            let most = 1 + self.chance.below(100) as usize;
            self.store.scan(self.tree, &key, None, most).map(|_| ())
        } else {
            let mut value = self.store.get(self.tree, &key)?.unwrap_or_default();
            value.resize(VALUE_BYTES, 0);
            value[0] ^= 1;
            self.store.put(self.tree, &key, &value)
        }
    }
}

/// Puts the records that aren't there, in batches.
fn fill(store: &Store, tree: Tree, records: u64) -> Result<(), Error> {
    if store.get(tree, &key_of(records - 1))?.is_some() {
        return Ok(());
    }
    let value = [7; VALUE_BYTES];
    for first in (0..records).step_by(1000) {
        let keys: Vec<_> = (first..records.min(first + 1000)).map(key_of).collect();
        let puts: Vec<_> = keys
            .iter()
            .map(|key| BatchOp::Put(tree, key, &value))
            .collect();
        store.batch(&puts)?;
    }
    store.checkpoint()
}

/// How many bytes this process has had written.
fn bytes_written() -> u64 {
    let text = std::fs::read_to_string("/proc/self/io").unwrap_or_default();
    let line = text
        .lines()
        .find_map(|line| line.strip_prefix("write_bytes: "));
    line.and_then(|word| word.parse().ok()).unwrap_or(0)
}

/// Runs a load, and prints a line: operations a second, the time that 99 of 100 stay below, and the
/// bytes written for each operation.
pub fn run(
    file: &str,
    letter: u8,
    threads: u64,
    records: u64,
    operations: u64,
) -> Result<(), Error> {
    let store = Store::open(file, &Options::default())?;
    let tree = store.tree("bench")?;
    fill(&store, tree, records)?;
    let (count, zipf, load) = (AtomicU64::new(records), Zipf::new(records), load_of(letter));
    let (before, begun) = (bytes_written(), Instant::now());
    let worker = |number: u64| -> Result<Vec<Duration>, Error> {
        let mut worker = Worker {
            store: &store,
            tree,
            zipf,
            records: &count,
            chance: Chance(number + 1),
            value: [9; VALUE_BYTES],
        };
        let mut times = Vec::new();
        for _ in 0..operations / threads {
            let begun = Instant::now();
            worker.operation(&load)?;
            times.push(begun.elapsed());
        }
        Ok(times)
    };
    let worker = &worker;
    let times: Result<Vec<_>, Error> = thread::scope(|scope| {
        let started: Vec<_> = (0..threads)
            .map(|number| scope.spawn(move || worker(number)))
            .collect();
        started
            .into_iter()
            .map(|it| it.join().expect("no worker panics"))
            .collect()
    });
    let (time, mut times) = (begun.elapsed(), times?.concat());
    let written = bytes_written() - before;
    times.sort_unstable();
    let made = times.len().max(1);
    let ninety_nine = times.get(made * 99 / 100).copied().unwrap_or_default();
    println!(
        "{} {threads} threads: {:.0} operations a second, 99 of 100 in {:.0} us, {} bytes written an operation",
        char::from(letter),
        made as f64 / time.as_secs_f64(),
        ninety_nine.as_secs_f64() * 1e6,
        written / made as u64
    );
    store.close()
}
