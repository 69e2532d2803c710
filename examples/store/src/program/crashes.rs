// SPDX-License-Identifier: Apache-2.0
//! Long crash tests: on the medium whose power fails, and of a program that is killed under load.

use crate::Trouble;
use std::collections::BTreeMap;
use std::io::Write;
use std::sync::Mutex;
use std::thread;
use store::crash::{apply, is_one_of, make, Map, Script, Step, Trial};
use store::{Error, Options, Store, Tree};

/// Runs so many trials, whose seeds rise from this one. Each ends at a point by chance, in each of its
/// lives; every eighth has four threads.
pub fn run(trials: u64, seed: u64) -> Result<(), Trouble> {
    let mut lives = 0;
    for seed in seed..seed + trials {
        let threads = if seed % 8 == 7 { 4 } else { 1 };
        let trial = Trial {
            seed,
            threads,
            lives: 2,
            steps: 100 / threads,
            first_failure: None,
        };
        trial.run().map_err(Trouble::File)?;
        lives += trial.lives;
    }
    println!("{trials} trials, {lives} crashes: all is right");
    Ok(())
}

/// How many threads work until the program is killed.
const THREADS: u64 = 4;

fn script(seed: u64, thread: u64) -> Script {
    Script {
        seed,
        thread,
        keys: 2000,
        key_bytes: 500,
        value_bytes: 1000,
    }
}

fn options() -> Options {
    Options {
        frames: 64,
        log_bytes: 4 << 20,
        ..Options::default()
    }
}

fn all_of(store: &Store, tree: Tree) -> Result<Map, Error> {
    Ok(store
        .scan(tree, b"", None, usize::MAX)?
        .into_iter()
        .collect())
}

/// Works on the file until the program is killed. A line `THREAD STEP` is printed behind each answer.
pub fn storm(file: &str, seed: u64) -> Result<(), Trouble> {
    let store = Store::open(file, &options())?;
    let tree = store.tree("storm")?;
    let out = Mutex::new(std::io::stdout());
    let work = |thread: u64| -> Result<(), Trouble> {
        for number in 0.. {
            match script(seed, thread).step(number) {
                Step::Changes(changes) => make(&store, tree, &changes)?,
                Step::Checkpoint if thread == 0 => store.checkpoint()?,
                Step::Checkpoint | Step::Reopen => {}
            }
            let line = format!("{thread} {number}\n");
            let mut out = out.lock().expect("nobody panics here");
            out.write_all(line.as_bytes()).and_then(|()| out.flush())?;
        }
        Ok(())
    };
    let work = &work;
    thread::scope(|scope| {
        let started: Vec<_> = (0..THREADS)
            .map(|thread| scope.spawn(move || work(thread)))
            .collect();
        started
            .into_iter()
            .try_for_each(|it| it.join().expect("no thread panics"))
    })
}

/// Looks at the file behind a storm that was killed: `before` has what was in it before, as `scan`
/// prints it; `answered` what the storm has printed.
pub fn verify(file: &str, seed: u64, before: &str, answered: &str) -> Result<(), Trouble> {
    let before: Map = lines_of(before)?
        .filter_map(|line| {
            crate::key_and_value(&line).map(|(key, value)| (key.to_vec(), value.to_vec()))
        })
        .collect();
    let mut last = BTreeMap::new();
    for line in lines_of(answered)? {
        let line = String::from_utf8_lossy(&line).into_owned();
        if let Some((thread, number)) = line.split_once(' ') {
            let numbers = thread.parse::<u64>().ok().zip(number.parse::<u64>().ok());
            last.extend(numbers);
        }
    }
    let store = Store::open_existing(file, &options())?;
    let tree = store.tree("storm")?;
    let there = all_of(&store, tree)?;
    store.close()?;
    for thread in 0..THREADS {
        let is_mine = |it: &(&Vec<u8>, &Vec<u8>)| it.0[0] == b'0' + thread as u8;
        let of = |map: &Map| -> Map {
            map.iter()
                .filter(is_mine)
                .map(|(k, v)| (k.clone(), v.clone()))
                .collect()
        };
        let (there, mut known) = (of(&there), of(&before));
        let count = last.get(&thread).map_or(0, |number| number + 1);
        let script = script(seed, thread);
        for number in 0..count {
            if let Step::Changes(changes) = script.step(number) {
                apply(&mut known, &changes);
            }
        }
        let under_way = match script.step(count) {
            Step::Changes(changes) => Some(changes),
            _ => None,
        };
        if !is_one_of(&there, &known, under_way.as_ref()) {
            return Err(Trouble::File(format!(
                "thread {thread} has lost something behind step {count}"
            )));
        }
    }
    println!(
        "{} answers, {} keys: all is right",
        last.values().map(|it| it + 1).sum::<u64>(),
        there.len()
    );
    Ok(())
}

/// The whole lines of a file.
fn lines_of(path: &str) -> Result<impl Iterator<Item = Vec<u8>>, Trouble> {
    let bytes = std::fs::read(path)?;
    let lines: Vec<Vec<u8>> = bytes
        .split_inclusive(|byte| *byte == b'\n')
        .filter_map(|line| line.strip_suffix(b"\n").map(<[u8]>::to_vec))
        .collect();
    Ok(lines.into_iter())
}
