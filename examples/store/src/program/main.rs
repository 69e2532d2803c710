// SPDX-License-Identifier: Apache-2.0
//! The program `store`.

mod bench;
mod crashes;

use std::io::{self, BufRead, Write};
use std::process::ExitCode;
use store::{check, plan_text, BatchOp, Disk, Error, Job, Layout, Options, Store};

const USE: &str = "\
use: store [-t TREE] get FILE KEY
     store [-t TREE] put FILE KEY VALUE
     store [-t TREE] delete FILE KEY
     store [-t TREE] scan FILE [FROM [TO]]
     store [-t TREE] load FILE                  lines KEY, a tab, VALUE from standard input
     store trees FILE
     store check FILE
     store bench FILE A..F THREADS RECORDS OPERATIONS
     store crash TRIALS [SEED]                  crash tests on a medium in memory
     store storm FILE SEED                      works until it is killed; tests/kill uses it, and then
     store verify FILE SEED BEFORE ANSWERED
     store plans [FOLDER]                       peaks and costs; or writes settings and plans to FOLDER
FILE is made by put, load and bench where it isn't there; FILE-log0 and FILE-log1 are its log.
TREE is `main` where it isn't named.
status: 0 done, 1 not found or amiss, 2 the command is none of these, 3 a file can't be read or written";

/// Why the program doesn't end with status 0.
enum Trouble {
    NotFound,
    Use,
    File(String),
}

impl From<Error> for Trouble {
    fn from(error: Error) -> Trouble {
        Trouble::File(error.to_string())
    }
}

impl From<io::Error> for Trouble {
    fn from(error: io::Error) -> Trouble {
        Trouble::File(error.to_string())
    }
}

/// A pool of 4 MiB is enough for a command.
fn small() -> Options {
    Options {
        frames: 1024,
        has_threads: false,
        ..Options::default()
    }
}

fn main() -> ExitCode {
    let words: Vec<String> = std::env::args().skip(1).collect();
    let words: Vec<&str> = words.iter().map(String::as_str).collect();
    let done = match words.as_slice() {
        ["-t", tree, rest @ ..] => run(tree, rest),
        rest => run("main", rest),
    };
    match done {
        Ok(()) => ExitCode::SUCCESS,
        Err(Trouble::NotFound) => ExitCode::from(1),
        Err(Trouble::Use) => {
            eprintln!("{USE}");
            ExitCode::from(2)
        }
        Err(Trouble::File(why)) => {
            eprintln!("store: {why}");
            ExitCode::from(3)
        }
    }
}

fn run(tree: &str, words: &[&str]) -> Result<(), Trouble> {
    match *words {
        ["get", file, key] => get(file, tree, key),
        ["put", file, key, value] => {
            let store = Store::open(file, &small())?;
            store.put(store.tree(tree)?, key.as_bytes(), value.as_bytes())?;
            Ok(store.close()?)
        }
        ["delete", file, key] => delete(file, tree, key),
        ["scan", file] => scan(file, tree, "", None),
        ["scan", file, from] => scan(file, tree, from, None),
        ["scan", file, from, to] => scan(file, tree, from, Some(to)),
        ["load", file] => load(file, tree),
        ["trees", file] => {
            let store = Store::open_existing(file, &small())?;
            let names = store.tree_names();
            names.iter().for_each(|name| println!("{name}"));
            Ok(store.close()?)
        }
        ["check", file] => look(file),
        ["crash", trials] => crashes::run(number(trials)?, 0),
        ["crash", trials, seed] => crashes::run(number(trials)?, number(seed)?),
        ["storm", file, seed] => crashes::storm(file, number(seed)?),
        ["verify", file, seed, before, answered] => {
            crashes::verify(file, number(seed)?, before, answered)
        }
        ["plans"] => plans(),
        ["plans", folder] => write_plans(folder),
        ["bench", file, letter, threads, records, operations] => {
            let numbers = [threads, records, operations].map(|word| word.parse::<u64>().ok());
            match (letter.as_bytes(), numbers) {
                (
                    [letter @ b'A'..=b'F'],
                    [Some(threads @ 1..), Some(records @ 1..), Some(operations)],
                ) => Ok(bench::run(file, *letter, threads, records, operations)?),
                _ => Err(Trouble::Use),
            }
        }
        _ => Err(Trouble::Use),
    }
}

fn number(word: &str) -> Result<u64, Trouble> {
    word.parse().map_err(|_| Trouble::Use)
}

/// Prints bytes as they are, and a line feed.
fn print(parts: &[&[u8]]) -> io::Result<()> {
    let mut out = io::stdout().lock();
    parts.iter().try_for_each(|part| out.write_all(part))?;
    out.write_all(b"\n")
}

fn get(file: &str, tree: &str, key: &str) -> Result<(), Trouble> {
    let store = Store::open_existing(file, &small())?;
    let value = match store.find_tree(tree) {
        Some(tree) => store.get(tree, key.as_bytes())?,
        None => None,
    };
    store.close()?;
    Ok(print(&[&value.ok_or(Trouble::NotFound)?])?)
}

fn delete(file: &str, tree: &str, key: &str) -> Result<(), Trouble> {
    let store = Store::open_existing(file, &small())?;
    let was_there = match store.find_tree(tree) {
        Some(tree) => store.delete(tree, key.as_bytes())?,
        None => false,
    };
    store.close()?;
    was_there.then_some(()).ok_or(Trouble::NotFound)
}

fn scan(file: &str, tree: &str, from: &str, to: Option<&str>) -> Result<(), Trouble> {
    const AT_ONCE: usize = 1000;
    let store = Store::open_existing(file, &small())?;
    let tree = store.find_tree(tree).ok_or(Trouble::NotFound)?;
    let mut from = from.as_bytes().to_vec();
    loop {
        let entries = store.scan(tree, &from, to.map(str::as_bytes), AT_ONCE)?;
        for (key, value) in &entries {
            print(&[key, b"\t", value])?;
        }
        match entries.last() {
            Some((key, _)) if entries.len() == AT_ONCE => {
                from.clone_from(key);
                from.push(0); // the least key behind it
            }
            _ => break,
        }
    }
    Ok(store.close()?)
}

/// Lines are put in batches: what was loaded when it is broken off is whole batches.
fn load(file: &str, tree: &str) -> Result<(), Trouble> {
    const AT_ONCE: usize = 256;
    let store = Store::open(file, &Options::default())?;
    let tree = store.tree(tree)?;
    let (mut count, mut lines) = (0, Vec::new());
    let mut input = io::stdin().lock();
    loop {
        let mut line = Vec::new();
        let is_over = input.read_until(b'\n', &mut line)? == 0;
        if line.last() == Some(&b'\n') {
            line.pop();
        }
        if !is_over {
            lines.push(line);
        }
        if lines.len() == AT_ONCE || is_over {
            let puts: Option<Vec<_>> = lines.iter().map(|line| key_and_value(line)).collect();
            let puts = puts.ok_or_else(|| {
                Trouble::File("a line without a tab: nothing of its batch was loaded".into())
            })?;
            let puts: Vec<_> = puts
                .iter()
                .map(|(key, value)| BatchOp::Put(tree, key, value))
                .collect();
            store.batch(&puts)?;
            count += puts.len();
            lines.clear();
        }
        if is_over {
            store.close()?;
            println!("loaded {count}");
            return Ok(());
        }
    }
}

fn key_and_value(line: &[u8]) -> Option<(&[u8], &[u8])> {
    let tab = line.iter().position(|byte| *byte == b'\t')?;
    Some((&line[..tab], &line[tab + 1..]))
}

/// Recovers the file where that is needed, and looks at all of it.
fn look(file: &str) -> Result<(), Trouble> {
    Store::open_existing(file, &small())?.close()?;
    let report = check(&Disk::new(file, false))?;
    report.amiss.iter().for_each(|line| println!("{line}"));
    let store::Report {
        trees, nodes, keys, ..
    } = report;
    println!(
        "{trees} trees, {nodes} nodes, {keys} keys, {} amiss",
        report.amiss.len()
    );
    report
        .amiss
        .is_empty()
        .then_some(())
        .ok_or(Trouble::NotFound)
}

fn plans() -> Result<(), Trouble> {
    let file = std::env::temp_dir().join(format!("store-plans-{}", std::process::id()));
    let store = Store::open(&file, &small())?;
    for (name, peak, cost) in store.plans() {
        println!("{name}\tpeak {peak}\tcost {cost}");
    }
    store.close()?;
    for ending in ["", "-log0", "-log1"] {
        std::fs::remove_file(format!("{}{ending}", file.display()))?;
    }
    Ok(())
}

/// The settings of a store's pool and its plans, as texts for the program `pinpool`.
fn write_plans(folder: &str) -> Result<(), Trouble> {
    let Options {
        page_bytes,
        leaves,
        levels,
        frames,
        ..
    } = Options::default();
    let layout = Layout::new(page_bytes, leaves, levels).ok_or(Trouble::Use)?;
    let folder = std::path::Path::new(folder);
    std::fs::create_dir_all(folder)?;
    std::fs::write(folder.join("settings.toml"), layout.settings(frames))?;
    for job in Job::ALL {
        std::fs::write(
            folder.join(format!("{}.json", job.name())),
            plan_text(&layout, job),
        )?;
    }
    Ok(())
}
