// SPDX-License-Identifier: Apache-2.0
//! The edges of the crate: devices that fail, works that give up or panic, a full queue, and pools
//! that can't be closed.

use pinpool::{
    Ahead, Device, Error, Failure, Fix, Kind, MemoryPages, PageFile, Pages, Policy, Pool, Prepared,
    Work,
};
use std::io;
use std::panic::{catch_unwind, AssertUnwindSafe};
use std::sync::atomic::{AtomicBool, AtomicU32, Ordering};
use std::sync::Barrier;
use std::thread;

const NOBODY: u32 = u32::MAX;

/// Pages in memory, of which one can't be read and one can't be written: the call fails, or panics.
#[derive(Debug)]
struct Failing {
    pages: MemoryPages,
    unread: AtomicU32,
    unwritten: AtomicU32,
    panics: AtomicBool,
    no_sync: AtomicBool,
}

impl Failing {
    fn new() -> Failing {
        Failing {
            pages: MemoryPages::new(8, 512),
            unread: AtomicU32::new(NOBODY),
            unwritten: AtomicU32::new(NOBODY),
            panics: AtomicBool::new(false),
            no_sync: AtomicBool::new(false),
        }
    }

    fn fails(&self) -> io::Result<()> {
        assert!(!self.panics.load(Ordering::SeqCst), "a device that panics");
        Err(io::ErrorKind::Other.into())
    }
}

impl Device for Failing {
    fn read(&self, page: u32, image: &mut [u8]) -> io::Result<()> {
        match self.unread.load(Ordering::SeqCst) == page {
            true => self.fails(),
            false => self.pages.read(page, image),
        }
    }

    fn write(&self, page: u32, image: &[u8]) -> io::Result<()> {
        match self.unwritten.load(Ordering::SeqCst) == page {
            true => self.fails(),
            false => self.pages.write(page, image),
        }
    }

    fn sync(&self) -> io::Result<()> {
        match self.no_sync.load(Ordering::SeqCst) {
            true => self.fails(),
            false => Ok(()),
        }
    }
}

const ONE: &str = r#"{"version":1,"body":[{"fix":"a","region":"low"},{"latch":"a","mode":"X"},{"unlatch":"a"},{"unfix":"a"}]}"#;
const TWO: &str = r#"{"version":1,"body":[{"fix":"a","region":"low"},{"latch":"a","mode":"X"},
    {"fix":"b","region":"top"},{"latch":"b","mode":"X"},{"unlatch":"b"},{"unfix":"b"},{"unlatch":"a"},{"unfix":"a"}]}"#;
const FOUR: &str = r#"{"version":1,"body":[{"loop":4,"body":[{"fix":"a","region":"low"},{"latch":"a","mode":"X"},
    {"unlatch":"a"},{"unfix":"a"}]}]}"#;
const BUNDLE: &str = r#"{"version":2,"body":[{"loop":2,"body":[{"gather":"g","region":"low"}]},
    {"choice":[[],[{"fix":"s","region":"top"},{"latch":"s","mode":"S"},{"unlatch":"s"},{"unfix":"s"}]]},{"scatter":"g"}]}"#;

fn settings(workers: u32, flushes: u32) -> String {
    format!(
        "version = 2\nframes = 3\npage_bytes = 512\nworkers = {workers}\nwaiting = 1\nflushes = {flushes}\n\
         [[region]]\nname = \"low\"\nfirst = 0\ncount = 4\nclass = 1\n\
         [[region]]\nname = \"top\"\nfirst = 4\ncount = 4\nclass = 2\n"
    )
}

const POLICY: Policy = Policy {
    queue: 1,
    bypass: 0,
    flush_from: 9,
    flush_to: 8,
};

fn opened(failing: &Failing) -> (Pool<&Failing>, Prepared, Prepared) {
    let pool = Pool::open(&settings(1, 1000), POLICY, failing).unwrap();
    let (one, two) = (pool.prepare(ONE).unwrap(), pool.prepare(TWO).unwrap());
    (pool, one, two)
}

/// What a work does in a call.
#[derive(Clone, Copy, PartialEq)]
enum Does {
    Add,
    GiveUp,
    Panic,
}

/// Adds one to both pages, or to one. Once it has given up, no call may come.
struct Adding {
    low: Option<u32>,
    second: Does,
    first: Does,
    is_over: bool,
}

impl Adding {
    fn to(low: u32) -> Adding {
        Adding {
            low: Some(low),
            first: Does::Add,
            second: Does::Add,
            is_over: false,
        }
    }
}

impl Work for Adding {
    fn page(&mut self, fix: Fix) -> Option<u32> {
        assert_eq!(fix.kind, Kind::Fix);
        assert_eq!(fix.region, fix.slot);
        assert!(!self.is_over);
        if fix.slot == 0 {
            self.low
        } else {
            Some(5)
        }
    }

    fn change(&mut self, slot: u32, pages: &mut Pages) {
        assert!(!self.is_over);
        pages[slot][0] += 1;
        match if slot == 0 { self.first } else { self.second } {
            Does::Add => {}
            Does::GiveUp => {
                self.is_over = true;
                pages.give_up();
            }
            Does::Panic => panic!("a work that panics"),
        }
    }
}

/// The first bytes of all bodies.
fn bytes_of(failing: &Failing) -> Vec<u8> {
    (0..8).map(|page| failing.pages.body(page)[0]).collect()
}

#[test]
fn devices_fail() {
    let failing = Failing::new();
    let (pool, one, two) = opened(&failing);
    failing.unread.store(5, Ordering::SeqCst);
    let gone = Error::Gone {
        page: Some(5),
        why: Failure::ReadFailed,
    };
    assert_eq!(pool.execute(&two, &mut Adding::to(1)), Err(gone));
    assert_eq!(
        gone.to_string(),
        "the plan was left: page 5: it couldn't be read"
    );
    failing.unread.store(NOBODY, Ordering::SeqCst);
    pool.execute(&two, &mut Adding::to(1)).unwrap();
    for page in [0, 2] {
        pool.execute(&one, &mut Adding::to(page)).unwrap();
    }
    let stats = pool.stats();
    assert_eq!((stats.done, stats.gone), (3, 1));
    failing.unwritten.store(1, Ordering::SeqCst);
    let error = pool.close().unwrap_err();
    assert_eq!(error.error, Error::StillDirty);
    let pool = error.pool;
    assert_eq!(pool.execute(&one, &mut Adding::to(3)), Err(Error::Stopped));
    let dirty = pool.dirty_pages(100).unwrap();
    assert!(dirty.iter().any(|it| it.page == 1 && it.mark >= 1));
    assert_eq!(dirty.len(), pool.stats().dirty as usize);
    failing.unwritten.store(NOBODY, Ordering::SeqCst);
    failing.no_sync.store(true, Ordering::SeqCst);
    let error = pool.close().unwrap_err();
    assert_eq!(
        (error.error, error.pool.stats().dirty),
        (Error::StillDirty, 0)
    );
    failing.no_sync.store(false, Ordering::SeqCst);
    error.pool.close().unwrap();
    assert_eq!(bytes_of(&failing), [1, 1, 1, 0, 0, 1, 0, 0]);
}

#[test]
fn works_give_up() {
    let failing = Failing::new();
    let (pool, one, two) = opened(&failing);
    let given_up = Err(Error::GivenUp);
    assert_eq!(
        pool.execute(
            &one,
            &mut Adding {
                low: None,
                ..Adding::to(0)
            }
        ),
        given_up
    );
    assert_eq!(pool.execute(&one, &mut Adding::to(4)), given_up); // of another region
    assert_eq!(
        pool.execute(
            &one,
            &mut Adding {
                first: Does::GiveUp,
                ..Adding::to(1)
            }
        ),
        given_up
    );
    assert_eq!(
        pool.execute(
            &two,
            &mut Adding {
                second: Does::GiveUp,
                ..Adding::to(1)
            }
        ),
        given_up
    );
    pool.execute(&two, &mut Adding::to(3)).unwrap();
    pool.close().unwrap();
    assert_eq!(bytes_of(&failing), [0, 0, 0, 1, 0, 1, 0, 0]);
}

#[test]
fn a_panic_of_a_device_goes_to_the_caller_alone() {
    let failing = Failing::new();
    let (pool, one, two) = opened(&failing);
    failing.panics.store(true, Ordering::SeqCst);
    let panics = |page| {
        let run = || pool.execute(&two, &mut Adding::to(page));
        catch_unwind(AssertUnwindSafe(run)).unwrap_err();
    };
    failing.unread.store(5, Ordering::SeqCst);
    panics(1);
    failing.unread.store(NOBODY, Ordering::SeqCst);
    for page in 0..3 {
        pool.execute(&one, &mut Adding::to(page)).unwrap();
    }
    failing.unwritten.store(0, Ordering::SeqCst); // which has to make room
    panics(3);
    failing.unwritten.store(NOBODY, Ordering::SeqCst);
    pool.execute(&two, &mut Adding::to(3)).unwrap();
    pool.close().unwrap();
    assert_eq!(bytes_of(&failing), [1, 1, 1, 1, 0, 1, 0, 0]);
}

/// Adds the number of each page to it.
struct Naming(u32);

impl Work for Naming {
    fn page(&mut self, fix: Fix) -> Option<u32> {
        self.0 += 1;
        Some(fix.pages.start + self.0 - 1)
    }

    fn change(&mut self, slot: u32, pages: &mut Pages) {
        let page = pages.page(slot).unwrap() as u8;
        pages[slot][0] += page;
    }
}

#[test]
fn a_slot_is_latched_again() {
    let failing = Failing::new();
    let (pool, _one, _two) = opened(&failing);
    let plan = pool.prepare(FOUR).unwrap();
    pool.execute(&plan, &mut Naming(0)).unwrap();
    pool.close().unwrap();
    assert_eq!(bytes_of(&failing), [0, 1, 2, 3, 0, 0, 0, 0]);
}

/// Looks at a low page, and changes a top one.
struct Mixing;

impl Work for Mixing {
    fn page(&mut self, fix: Fix) -> Option<u32> {
        Some(fix.pages.start)
    }

    fn see(&mut self, slot: u32, pages: &Pages) {
        assert_eq!((slot, pages.page(0), pages.page(1)), (0, Some(0), None));
    }

    fn change(&mut self, slot: u32, pages: &mut Pages) {
        assert_eq!((slot, pages.page(0), pages.page(1)), (1, Some(0), Some(4)));
        assert!(pages.body_mut(0).is_none() && pages.two_mut(0, 1).is_none());
        assert_eq!(pages.body_mut(1).map(|body| body.len()), Some(500));
    }
}

#[test]
fn a_page_that_is_latched_shared_stays() {
    let failing = Failing::new();
    let (pool, _one, _two) = opened(&failing);
    let mixed = TWO.replacen(r#""mode":"X""#, r#""mode":"S""#, 1);
    let plan = pool.prepare(&mixed).unwrap();
    pool.execute(&plan, &mut Mixing).unwrap();
    pool.close().unwrap();
    assert_eq!(bytes_of(&failing), [0; 8]);
}

#[test]
fn a_panic_goes_to_the_caller_alone() {
    let failing = Failing::new();
    let (pool, one, two) = opened(&failing);
    for (first, second) in [(Does::Panic, Does::Add), (Does::Add, Does::Panic)] {
        let mut adding = Adding {
            first,
            second,
            ..Adding::to(1)
        };
        catch_unwind(AssertUnwindSafe(|| pool.execute(&two, &mut adding))).unwrap_err();
    }
    pool.execute(&one, &mut Adding::to(1)).unwrap();
    pool.close().unwrap();
    assert_eq!(bytes_of(&failing), [0, 1, 0, 0, 0, 0, 0, 0]);
}

/// Takes a branch behind a bundle, and may look at a page there.
struct Gathering {
    branch: u32,
    seen: Vec<Kind>,
}

impl Work for Gathering {
    fn page(&mut self, fix: Fix) -> Option<u32> {
        self.seen.push(fix.kind);
        Some(fix.pages.end - 1)
    }

    fn branch(&mut self, branches: u32) -> Option<u32> {
        assert_eq!(branches, 2);
        Some(self.branch)
    }

    fn see(&mut self, slot: u32, pages: &Pages) {
        assert_eq!(
            (pages.page(slot), pages[slot].len(), pages.page(0)),
            (Some(7), 500, None)
        );
    }
}

#[test]
fn bundles_and_branches() {
    let pool = Pool::open(&settings(1, 1000), POLICY, MemoryPages::new(8, 512)).unwrap();
    let plan = pool.prepare(BUNDLE).unwrap();
    assert_eq!(plan.peak(), 3);
    let by_two = vec![Kind::Gather; 2];
    let by_three = vec![Kind::Gather, Kind::Gather, Kind::Fix];
    for (branch, kinds, end) in [
        (0, by_two.clone(), Ok(())),
        (2, by_two, Err(Error::GivenUp)), // the last branch is taken, whose page isn't there
        (1, by_three, Ok(())),
    ] {
        let seen = Vec::new();
        let mut gathering = Gathering { branch, seen };
        assert_eq!(pool.execute(&plan, &mut gathering), end);
        assert_eq!(gathering.seen, kinds);
    }
    assert_eq!((pool.stats().done, pool.stats().gone), (2, 1));
}

/// Says all ahead that it knows, and isn't asked for it again.
struct Foretelling {
    branch: u32,
    page: u32,
    seen: u32,
}

impl Work for Foretelling {
    fn page(&mut self, fix: Fix) -> Option<u32> {
        panic!("it was said ahead, and {} is asked", fix.slot);
    }

    fn ahead(&mut self) -> Ahead {
        Ahead {
            branch: Some(self.branch),
            page: Some(self.page),
        }
    }

    fn see(&mut self, slot: u32, pages: &Pages) {
        self.seen += 1;
        assert_eq!(pages.page(slot), Some(7));
    }
}

#[test]
fn what_is_said_ahead_counts_as_answered() {
    let pool = Pool::open(&settings(1, 1000), POLICY, MemoryPages::new(8, 512)).unwrap();
    let choice = r#"{"version":1,"body":[{"choice":[[],
        [{"fix":"s","region":"top"},{"latch":"s","mode":"S"},{"unlatch":"s"},{"unfix":"s"}]]}]}"#;
    let plan = pool.prepare(choice).unwrap();
    let run = |branch, page| {
        let mut work = Foretelling {
            branch,
            page,
            seen: 0,
        };
        (pool.execute(&plan, &mut work), work.seen)
    };
    assert_eq!(run(0, 7), (Ok(()), 0));
    assert_eq!(run(1, 7), (Ok(()), 1)); // which has to be read
    assert_eq!(run(1, 7), (Ok(()), 1)); // and is there now
    assert_eq!(run(2, 7), (Err(Error::GivenUp), 0));
    assert_eq!(run(1, 3), (Err(Error::GivenUp), 0)); // of another region
    let stats = pool.stats();
    assert_eq!((stats.done, stats.gone, stats.hits), (3, 2, 1)); // who gives up doesn't read
}

/// Sees what was, while it changes a page in two calls.
struct Twice;

impl Work for Twice {
    fn page(&mut self, fix: Fix) -> Option<u32> {
        Some(fix.pages.start)
    }

    fn change(&mut self, slot: u32, pages: &mut Pages) {
        assert_eq!(pages[slot][0], 0);
        if slot == 1 {
            assert_eq!(pages[0][..2], [4, 0]);
            let (low, top) = pages.two_mut(0, 1).unwrap();
            (low[1], top[0]) = (5, 6);
            let (top, low) = pages.two_mut(1, 0).unwrap();
            assert_eq!((low[..2].to_vec(), top[0]), (vec![4, 5], 6));
            assert!(pages.two_mut(1, 1).is_none());
        } else {
            pages[slot][0] = 4;
        }
    }
}

#[test]
fn a_page_is_changed_in_several_calls() {
    let failing = Failing::new();
    let (pool, _one, two) = opened(&failing);
    pool.execute(&two, &mut Twice).unwrap();
    pool.close().unwrap();
    assert_eq!(failing.pages.body(0)[..2], [4, 5]);
    assert_eq!(failing.pages.body(4)[0], 6);
}

/// Stays in its plan until somebody else has come twice.
struct Staying<'b>(&'b Barrier);

impl Work for Staying<'_> {
    fn page(&mut self, fix: Fix) -> Option<u32> {
        Some(fix.pages.start)
    }

    fn change(&mut self, _slot: u32, pages: &mut Pages) {
        self.0.wait();
        self.0.wait();
        assert!(pages.two_mut(0, 1).is_none());
    }
}

#[test]
fn a_queue_is_full_and_then_stopped() {
    let failing = Failing::new();
    let (pool, one, _two) = opened(&failing);
    pool.execute(&one, &mut Adding::to(0)).unwrap();
    let barrier = Barrier::new(2);
    thread::scope(|threads| {
        let running = threads.spawn(|| pool.execute(&one, &mut Staying(&barrier)));
        barrier.wait();
        let waiting = threads.spawn(|| pool.execute(&one, &mut Adding::to(1)));
        let flusher = threads.spawn(|| pool.run_flusher());
        while pool.stats().waiting == 0 {
            thread::yield_now();
        }
        assert_eq!(
            pool.execute(&one, &mut Adding::to(1)),
            Err(Error::QueueFull)
        );
        assert_eq!(pool.flush(), Err(Error::StillDirty)); // the page is changed, and latched X
        pool.stop();
        assert_eq!(waiting.join().unwrap(), Err(Error::Stopped));
        flusher.join().unwrap();
        barrier.wait();
        assert_eq!(running.join().unwrap(), Ok(()));
    });
    pool.close().unwrap();
}

#[test]
fn texts_and_plans_are_refused() {
    let pages = || MemoryPages::new(8, 512);
    let refused = Pool::open("frames = 4", POLICY, pages()).unwrap_err();
    let missing = Error::Refused {
        number: 2,
        place: None,
    };
    assert_eq!(refused, missing);
    assert_eq!(refused.to_string(), "refused 2");
    let bounded = settings(1, 5).replace("waiting = 1", "waiting = 0");
    assert_eq!(
        Pool::open(&bounded, POLICY, pages()).unwrap_err(),
        Error::OtherSettings
    );
    let none = Policy { queue: 0, ..POLICY };
    assert_eq!(
        Pool::open(&settings(1, 5), none, pages()).unwrap_err(),
        Error::WrongArgument
    );
    let (pool, other) = (
        Pool::open(&settings(2, 5), POLICY, pages()).unwrap(),
        Pool::open(&settings(1, 5), POLICY, pages()).unwrap(),
    );
    let refused = pool
        .prepare(r#"{"version":1,"body":[{"fix":"a","region":"nowhere"}]}"#)
        .unwrap_err();
    assert_eq!(
        refused,
        Error::Refused {
            number: 15,
            place: Some(0)
        }
    );
    assert_eq!(refused.to_string(), "refused 15 at 0");
    let proof = r#"{"notes":[{},{"a":["low","-"]},{"a":["low","X"]},{"a":["low","-"]},{}],"peak":1,"steps":4}"#;
    let plan = pool.prepare_with(ONE, proof).unwrap();
    assert!(matches!(
        pool.prepare_with(TWO, proof),
        Err(Error::Refused { .. })
    ));
    assert_eq!(
        other.execute(&plan, &mut Adding::to(1)),
        Err(Error::OtherPool)
    );
    assert_eq!(
        (
            pool.sizes().workers,
            pool.sizes().frames,
            pool.sizes().page_bytes
        ),
        (2, 3, 512)
    );
}

#[test]
fn a_device_of_other_settings_is_refused() {
    let failing = Failing::new();
    let refused = Error::OtherDevice { page: 7 };
    failing.unread.store(7, Ordering::SeqCst);
    let opened = Pool::open(&settings(1, 5), POLICY, &failing);
    assert_eq!(opened.unwrap_err(), refused);
    failing.unread.store(NOBODY, Ordering::SeqCst);
    let mut image = vec![0; 512];
    failing.pages.read(7, &mut image).unwrap();
    for byte in 0..4 {
        let mut other = image.clone();
        other[byte] ^= 8;
        failing.pages.write(7, &other).unwrap();
        let opened = Pool::open(&settings(1, 5), POLICY, &failing);
        assert_eq!(opened.unwrap_err(), refused);
    }
    failing.pages.write(7, &image).unwrap();
    let shorter = MemoryPages::new(7, 512);
    let opened = Pool::open(&settings(1, 5), POLICY, shorter);
    assert_eq!(opened.unwrap_err(), refused);
    assert_eq!(
        refused.to_string(),
        "page 7 of the device can't be read, or is another page"
    );
    // No other page is looked at.
    failing.unread.store(6, Ordering::SeqCst);
    Pool::open(&settings(1, 5), POLICY, &failing).unwrap();
}

#[test]
fn flushes_run_out() {
    let failing = Failing::new();
    let pool = Pool::open(&settings(1, 1), POLICY, &failing).unwrap();
    let one = pool.prepare(ONE).unwrap();
    for page in 0..2 {
        pool.execute(&one, &mut Adding::to(page)).unwrap();
    }
    let error = pool.close().unwrap_err();
    assert_eq!(error.error, Error::FlushesSpent);
    assert_eq!(error.pool.abandon().1, 1);
}

#[test]
fn a_pool_that_falls_writes_what_is_changed() {
    let failing = Failing::new();
    let (pool, one, _two) = opened(&failing);
    pool.execute(&one, &mut Adding::to(3)).unwrap();
    drop(pool);
    assert_eq!(bytes_of(&failing), [0, 0, 0, 1, 0, 0, 0, 0]);
}

#[test]
fn types_go_where_they_may() {
    fn shared<T: Send + Sync>() {}
    fn error<T: std::error::Error>() {}
    shared::<Pool<MemoryPages>>();
    shared::<Prepared>();
    shared::<Error>();
    error::<Error>();
    error::<pinpool::CloseError<MemoryPages>>();
    assert!(pinpool::version().starts_with("0."));
}

#[test]
fn a_flusher_ends_with_what_it_stands_beside() {
    let failing = Failing::new();
    let policy = Policy {
        flush_from: 2,
        flush_to: 0,
        ..POLICY
    };
    let pool = Pool::open(&settings(1, 1000), policy, &failing).unwrap();
    let one = pool.prepare(ONE).unwrap();
    pool.with_flusher(|| {
        pool.execute(&one, &mut Adding::to(2)).unwrap();
        pool.execute(&one, &mut Adding::to(3)).unwrap();
        while pool.stats().dirty != 0 {
            thread::yield_now();
        }
    });
    assert_eq!((bytes_of(&failing)[2], pool.stats().flushes), (1, 2));
    let panicked = catch_unwind(AssertUnwindSafe(|| {
        pool.with_flusher(|| panic!("beside it"))
    }));
    panicked.unwrap_err();
    pool.execute(&one, &mut Adding::to(2)).unwrap();
    assert_eq!(pool.stats().dirty, 1);
    pool.close().unwrap();
    assert_eq!(bytes_of(&failing)[2], 2);
}

#[test]
fn files_have_pages() {
    let path = std::env::temp_dir().join(format!("pinpool-edges-{}", std::process::id()));
    let _none = std::fs::remove_file(&path);
    assert!(PageFile::open(&path, 512).is_err());
    PageFile::create(&path, 3, 512).unwrap();
    assert!(PageFile::create(&path, 3, 512).is_err());
    let file = PageFile::open(&path, 512).unwrap();
    let mut image = [7; 512];
    file.read(2, &mut image).unwrap();
    assert_eq!((image[3], image[4..].iter().max()), (2, Some(&0)));
    assert!(file.read(3, &mut image).is_err());
    image[511] = 9;
    file.write(1, &image).unwrap();
    file.sync().unwrap();
    let beyond = PageFile::open(&path, 1 << 20).unwrap(); // its page 5,000 lies beyond 2^32 bytes
    beyond.write(5000, &image).unwrap();
    file.read(1, &mut image).unwrap();
    assert_eq!(image[511], 9);
    assert_eq!(
        std::fs::metadata(&path).unwrap().len(),
        5000 * (1 << 20) + 512
    );
    std::fs::remove_file(&path).unwrap();
}
