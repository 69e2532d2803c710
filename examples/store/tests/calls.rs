// SPDX-License-Identifier: Apache-2.0
//! The store's calls beside a plain map, on a disk.

use std::collections::BTreeMap;
use std::path::PathBuf;
use store::{check, BatchOp, Disk, Error, Options, Store};

/// Small pages: trees that are high soon.
fn small() -> Options {
    Options {
        page_bytes: 1024,
        leaves: 4096,
        levels: 4,
        frames: 32,
        log_bytes: 1 << 20,
        has_threads: true,
    }
}

/// A file that goes with the test, and its log.
struct Place(PathBuf);

impl Place {
    fn new(name: &str) -> Place {
        let place =
            Place(std::env::temp_dir().join(format!("store-{}-{name}", std::process::id())));
        place.clear();
        place
    }

    fn clear(&self) {
        for ending in ["", "-log0", "-log1"] {
            let mut path = self.0.clone().into_os_string();
            path.push(ending);
            let _ = std::fs::remove_file(path);
        }
    }
}

impl Drop for Place {
    fn drop(&mut self) {
        self.clear();
    }
}

/// Numbers by chance.
struct Chance(u64);

impl Chance {
    fn below(&mut self, limit: u64) -> u64 {
        self.0 ^= self.0 << 13;
        self.0 ^= self.0 >> 7;
        self.0 ^= self.0 << 17;
        self.0 % limit
    }
}

fn entries_of(map: &BTreeMap<Vec<u8>, Vec<u8>>) -> Vec<(Vec<u8>, Vec<u8>)> {
    map.iter()
        .map(|(key, value)| (key.clone(), value.clone()))
        .collect()
}

fn key_of(chance: &mut Chance) -> Vec<u8> {
    let number = chance.below(3000);
    let mut key = format!("{number:04}").into_bytes();
    key.resize(4 + (number as usize * 7 % 100), b'x');
    key
}

#[test]
fn all_calls_answer_as_a_map_does() {
    let place = Place::new("map");
    let (mut map, mut chance) = (BTreeMap::new(), Chance(77));
    for round in 0..4 {
        let store = Store::open(&place.0, &small()).unwrap();
        let tree = store.tree("one").unwrap();
        let other = store.tree("other").unwrap();
        for _ in 0..1500 {
            let key = key_of(&mut chance);
            match chance.below(8) {
                0..=3 => {
                    let value = vec![b'0' + round; chance.below(257) as usize];
                    store.put(tree, &key, &value).unwrap();
                    store.put(other, &value[..value.len() / 2], &key).unwrap();
                    map.insert(key, value);
                }
                4..=5 => {
                    let was_there = map.remove(&key).is_some();
                    assert_eq!(store.delete(tree, &key).unwrap(), was_there);
                }
                6 => assert_eq!(store.get(tree, &key).unwrap().as_ref(), map.get(&key)),
                _ => {
                    let (to, most) = (key_of(&mut chance), 1 + chance.below(300) as usize);
                    let found = store.scan(tree, &key, Some(&to), most).unwrap();
                    let expected: Vec<_> = map
                        .iter()
                        .filter(|it| *it.0 >= key && *it.0 < to)
                        .take(most)
                        .map(|(key, value)| (key.clone(), value.clone()))
                        .collect();
                    assert!(found == expected);
                }
            }
        }
        if round == 2 {
            for (key, _) in entries_of(&map) {
                assert!(store.delete(tree, &key).unwrap());
            }
            map.clear();
        }
        assert!(store.scan(tree, b"", None, usize::MAX).unwrap() == entries_of(&map));
        match round % 2 {
            0 => store.close().unwrap(),
            _ => drop(store),
        }
        Store::open(&place.0, &small()).unwrap().close().unwrap();
        let report = check(&Disk::new(&place.0, false)).unwrap();
        assert_eq!(report.amiss, Vec::<String>::new());
        assert_eq!(report.trees, 2);
        assert!(report.keys >= map.len() as u64);
    }
}

#[test]
fn what_is_too_large_is_refused() {
    let place = Place::new("limits");
    let store = Store::open(&place.0, &small()).unwrap();
    let tree = store.tree("t").unwrap();
    let (key, value) = (vec![1; 128], vec![2; 256]);
    store.put(tree, &key, &value).unwrap();
    store.put(tree, b"", b"").unwrap();
    assert_eq!(store.get(tree, b"").unwrap(), Some(Vec::new()));
    assert_eq!(store.get(tree, &key).unwrap(), Some(value));
    assert!(matches!(
        store.put(tree, &[0; 129], b""),
        Err(Error::KeyTooLong)
    ));
    assert!(matches!(
        store.put(tree, b"a", &[0; 257]),
        Err(Error::ValueTooLong)
    ));
    let long = BatchOp::Put(tree, b"a", &[0; 257]);
    assert!(matches!(
        store.batch(&[BatchOp::Put(tree, b"b", b""), long]),
        Err(Error::ValueTooLong)
    ));
    assert_eq!(store.get(tree, b"b").unwrap(), None);
    assert!(matches!(store.tree(""), Err(Error::OutOfRange)));
    assert!(matches!(Store::open(&place.0, &small()), Err(Error::InUse)));
    // (a small page has room for some of the 64 names alone)
    let made = (1..)
        .find(|number| store.tree(&format!("tree {number}")).is_err())
        .unwrap();
    assert!(matches!(store.tree("one more"), Err(Error::Full)));
    assert_eq!(store.tree_names().len(), made);
    assert!(made > 40, "{made}");
}

#[test]
fn a_full_file_says_so_and_takes_deletes() {
    let place = Place::new("full");
    let options = Options {
        leaves: 128,
        levels: 2,
        ..small()
    };
    let store = Store::open(&place.0, &options).unwrap();
    let tree = store.tree("t").unwrap();
    let mut count = 0u32;
    let key = |count: u32| (count.wrapping_mul(2_654_435_761)).to_be_bytes();
    let full = loop {
        match store.put(tree, &key(count), &[7; 200]) {
            Ok(()) => count += 1,
            Err(error) => break error,
        }
    };
    assert!(matches!(full, Error::Full), "{full}");
    assert!(count > 128, "{count}");
    assert_eq!(store.get(tree, &key(count)).unwrap(), None);
    assert_eq!(
        store.scan(tree, b"", None, usize::MAX).unwrap().len() as u32,
        count
    );
    for number in 0..count {
        assert!(store.delete(tree, &key(number)).unwrap());
    }
    store.put(tree, &key(count), &[7; 200]).unwrap();
    store.close().unwrap();
    let report = check(&Disk::new(&place.0, false)).unwrap();
    assert_eq!((report.amiss, report.keys), (Vec::new(), 1));
}

#[test]
fn threads_work_at_once() {
    let place = Place::new("threads");
    let store = Store::open(&place.0, &small()).unwrap();
    let tree = store.tree("t").unwrap();
    std::thread::scope(|threads| {
        for thread in 0..6u64 {
            let store = &store;
            threads.spawn(move || {
                let (mut map, mut chance) = (BTreeMap::new(), Chance(thread + 1));
                for turn in 0..400 {
                    let key = format!("{:04} {thread}", chance.below(300)).into_bytes();
                    if chance.below(3) == 0 {
                        assert_eq!(
                            store.delete(tree, &key).unwrap(),
                            map.remove(&key).is_some()
                        );
                    } else {
                        let value = vec![thread as u8; turn % 250];
                        store.batch(&[BatchOp::Put(tree, &key, &value)]).unwrap();
                        map.insert(key, value);
                    }
                }
                let mine = store.scan(tree, b"", None, usize::MAX).unwrap();
                let mine: Vec<_> = mine
                    .into_iter()
                    .filter(|it| it.0.last() == Some(&(b'0' + thread as u8)))
                    .collect();
                assert!(mine == entries_of(&map));
            });
        }
    });
    store.close().unwrap();
    assert_eq!(
        check(&Disk::new(&place.0, false)).unwrap().amiss,
        Vec::<String>::new()
    );
}

/// Two records were on their way to the disk when the power failed: the second one came there, and
/// the first one was torn. Recovery takes neither. Behind it a record as long as the first one is
/// logged; and at the next recovery the second one must not be found behind that.
#[test]
fn a_record_behind_a_torn_one_never_comes_back() {
    let place = Place::new("torn");
    let options = Options {
        has_threads: false,
        ..small()
    };
    let open = || {
        let store = Store::open(&place.0, &options).unwrap();
        let tree = store.tree("t").unwrap();
        (store, tree)
    };
    let log = |half: usize| format!("{}-log{half}", place.0.display());
    open().0.close().unwrap();
    let pages = std::fs::read(&place.0).unwrap();
    let before = [0, 1].map(|half| std::fs::read(log(half)).unwrap());
    let (store, tree) = open();
    store.put(tree, b"first", b"1").unwrap();
    store.put(tree, b"second", b"1").unwrap();
    drop(store);
    let records = [0, 1].map(|half| std::fs::read(log(half)).unwrap());
    let half = (0..2)
        .find(|half| !records[*half].is_empty() && records[*half] != before[*half])
        .unwrap();
    let mut records = records[half].clone();
    records[20] ^= 1;
    std::fs::write(log(half), records).unwrap();
    std::fs::write(&place.0, &pages).unwrap();

    let (store, tree) = open();
    assert_eq!(store.get(tree, b"first").unwrap(), None);
    store.put(tree, b"first", b"2").unwrap();
    drop(store);
    std::fs::write(&place.0, &pages).unwrap();

    let (store, tree) = open();
    assert_eq!(store.get(tree, b"first").unwrap(), Some(b"2".to_vec()));
    assert_eq!(store.get(tree, b"second").unwrap(), None);
}
