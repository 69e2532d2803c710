// SPDX-License-Identifier: Apache-2.0
//! Four threads count keys in one index, over a file: rust-pool FILE [TURNS]. FILE is made where it
//! isn't there; else the counts in it go on. It is the same file as that of examples/c-pool.

mod hash_index;

use hash_index::HashIndex;
use pinpool::{Device, Error, PageFile, Policy, Pool};
use std::error::Error as AnyError;
use std::path::Path;
use std::thread;

const SETTINGS: &str = include_str!("../../c-pool/settings.toml");
const POLICY: Policy = Policy {
    queue: 64,
    bypass: 4,
    flush_from: 24,
    flush_to: 12,
};
const THREADS: u64 = 4;
const KEYS: u64 = 8000;
const PAGES: u32 = 65 + 2048;
const PAGE_BYTES: usize = 512;

/// One thread's turns: it counts a key, and then looks at another.
fn work<D: Device>(index: &HashIndex<'_, D>, number: u64, turns: u64) -> Result<(), Error> {
    let mut seed = 88_172_645_463_325_252 + number;
    for _ in 0..turns {
        seed ^= seed << 13;
        seed ^= seed >> 7;
        seed ^= seed << 17;
        index.add(seed % KEYS, 1)?;
        index.get(seed / KEYS % KEYS)?;
    }
    Ok(())
}

/// All counts together.
fn sum<D: Device>(index: &HashIndex<'_, D>) -> Result<u64, Error> {
    (0..KEYS).try_fold(0, |all, key| Ok(all + index.get(key)?.unwrap_or(0)))
}

/// Has the threads run, beside the flusher's.
fn run<D: Device>(pool: &Pool<D>, turns: u64) -> Result<(u64, u64), Error> {
    let index = HashIndex::new(pool)?;
    let before = sum(&index)?;
    let index = &index;
    let all_work = || {
        thread::scope(|threads| {
            let started: Vec<_> = (0..THREADS)
                .map(|number| threads.spawn(move || work(index, number, turns)))
                .collect();
            let mut ended = started
                .into_iter()
                .map(|it| it.join().expect("no work panics"));
            ended.try_for_each(|it| it)
        })
    };
    pool.with_flusher(all_work)?;
    Ok((before, sum(index)?))
}

fn main() -> Result<(), Box<dyn AnyError>> {
    let words: Vec<String> = std::env::args().collect();
    let path = words.get(1).ok_or("use: rust-pool FILE [TURNS]")?;
    let turns = words.get(2).map_or(Ok(20_000), |it| it.parse())?;
    let file = match Path::new(path).exists() {
        true => PageFile::open(path, PAGE_BYTES)?,
        false => PageFile::create(path, PAGES, PAGE_BYTES)?,
    };
    let pool = Pool::open(SETTINGS, POLICY, file)?;
    let (before, after) = run(&pool, turns)?;
    let stats = pool.stats();
    let pool = Pool::open(SETTINGS, POLICY, pool.close()?)?; // a new pool finds in the file what the other one left
    let again = sum(&HashIndex::new(&pool)?)?;
    pool.close()?;
    println!(
        "pinpool {}: {} plans, {} hits, {} misses, {} flushes",
        pinpool::version(),
        stats.done,
        stats.hits,
        stats.misses,
        stats.flushes
    );
    let is_right = after == before + turns * THREADS && again == after;
    println!(
        "counted {before} before, {after} after, {again} in the file: {}",
        if is_right { "right" } else { "WRONG" }
    );
    if is_right {
        Ok(())
    } else {
        Err("counts were lost".into())
    }
}
