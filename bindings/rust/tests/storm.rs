// SPDX-License-Identifier: Apache-2.0
//! More threads than chairs move ones between pages, while the device fails now and then and works
//! give up. Each move is done whole or not at all, so in the end all pages sum up to nothing. Behind
//! each move its thread looks at two pages: each has its number twice, and both are the same.

use pinpool::{Ahead, Device, Error, Fix, MemoryPages, Pages, Policy, Pool, Work};
use std::io;
use std::sync::atomic::{AtomicBool, AtomicU64, Ordering};
use std::thread;

const SETTINGS: &str = r#"
version = 2
frames = 9
page_bytes = 600
workers = 4
waiting = 1
flushes = 1000000
[[region]]
name = "top"
first = 8
count = 8
class = 1
[[region]]
name = "low"
first = 0
count = 8
class = 2
"#;
const PLAN: &str = r#"{"version":1,"body":[
    {"fix":"b","region":"top"},{"latch":"b","mode":"X"},{"fix":"a","region":"low"},{"latch":"a","mode":"X"},
    {"unlatch":"a"},{"unfix":"a"},{"unlatch":"b"},{"unfix":"b"}]}"#;
const LOOK: &str = r#"{"version":1,"body":[
    {"fix":"b","region":"top"},{"latch":"b","mode":"S"},{"fix":"a","region":"low"},{"latch":"a","mode":"S"},
    {"unlatch":"b"},{"unfix":"b"},{"unlatch":"a"},{"unfix":"a"}]}"#;

fn below(seed: &mut u64, many: u32) -> u32 {
    *seed ^= *seed << 13;
    *seed ^= *seed >> 7;
    *seed ^= *seed << 17;
    (*seed >> 20) as u32 % many
}

/// Pages in memory whose calls fail one time in thirty, unless all is calm.
struct Failing {
    pages: MemoryPages,
    calls: AtomicU64,
    is_calm: AtomicBool,
}

impl Failing {
    fn draw(&self) -> io::Result<()> {
        let mut seed = 1 + self.calls.fetch_add(0x9e37_79b9, Ordering::Relaxed);
        let _first = below(&mut seed, 30);
        let fails = !self.is_calm.load(Ordering::Relaxed) && below(&mut seed, 30) == 0;
        if fails {
            Err(io::ErrorKind::Other.into())
        } else {
            Ok(())
        }
    }
}

impl Device for Failing {
    fn read(&self, page: u32, image: &mut [u8]) -> io::Result<()> {
        self.draw()?;
        self.pages.read(page, image)
    }

    fn write(&self, page: u32, image: &[u8]) -> io::Result<()> {
        self.draw()?;
        self.pages.write(page, image)
    }
}

/// Moves one from a top page to a low one.
struct Move {
    seed: u64,
}

fn add(body: &mut [u8], number: i64) {
    let sum = number_of(body) + number;
    let last = body.len() - 8;
    body[..8].copy_from_slice(&sum.to_le_bytes());
    body[last..].copy_from_slice(&sum.to_le_bytes());
}

fn number_of(body: &[u8]) -> i64 {
    i64::from_le_bytes(body[..8].try_into().expect("eight bytes"))
}

impl Work for Move {
    fn page(&mut self, fix: Fix) -> Option<u32> {
        let at = fix.pages.start + below(&mut self.seed, fix.pages.len() as u32);
        (below(&mut self.seed, 50) != 0).then_some(at)
    }

    fn change(&mut self, slot: u32, pages: &mut Pages) {
        if below(&mut self.seed, 8) == 0 {
            thread::yield_now(); // others meet its latches
        }
        if slot == 0 {
            let (low, top) = pages.two_mut(0, 1).expect("both are latched X");
            add(low, 1);
            add(top, -1);
            if below(&mut self.seed, 50) == 0 {
                pages.give_up();
            }
        }
    }
}

/// Looks at a top page and a low one, and says the pages ahead by turns.
struct Look {
    seed: u64,
    seen: u32,
}

impl Work for Look {
    fn page(&mut self, fix: Fix) -> Option<u32> {
        Some(fix.pages.start + below(&mut self.seed, fix.pages.len() as u32))
    }

    fn ahead(&mut self) -> Ahead {
        let first = if self.seen % 2 == 0 { 8 } else { 0 };
        let page = first + below(&mut self.seed, 8);
        Ahead {
            branch: None,
            page: (below(&mut self.seed, 2) == 0).then_some(page),
        }
    }

    fn see(&mut self, slot: u32, pages: &Pages) {
        self.seen += 1;
        let last = pages[slot].len() - 8;
        assert_eq!(pages[slot][..8], pages[slot][last..]);
        if slot == 0 {
            assert!(pages.page(1).is_some() && pages.body(1).is_some());
        }
    }
}

/// One thread's moves: how many were done, gone and given up.
fn moves<D: Device>(pool: &Pool<D>, number: u64) -> [i64; 3] {
    let mut work = Move {
        seed: 88_172_645_463_325_252 + number,
    };
    let plan = pool.prepare(PLAN).expect("it is accepted");
    let look = pool.prepare(LOOK).expect("it is accepted");
    let mut ends = [0; 3];
    for _ in 0..200 {
        let end = match pool.execute(&plan, &mut work) {
            Ok(()) => 0,
            Err(Error::Gone { .. }) => 1,
            Err(Error::GivenUp) => 2,
            Err(error) => panic!("{error}"),
        };
        ends[end] += 1;
        let (seed, seen) = (work.seed, 0);
        match pool.execute(&look, &mut Look { seed, seen }) {
            Ok(()) | Err(Error::Gone { .. }) => {}
            Err(error) => panic!("{error}"),
        }
    }
    ends
}

#[test]
fn moves_are_whole() {
    let failing = Failing {
        pages: MemoryPages::new(16, 600),
        calls: AtomicU64::new(0),
        is_calm: AtomicBool::new(false),
    };
    let policy = Policy {
        queue: 9,
        bypass: 3,
        flush_from: 5,
        flush_to: 2,
    };
    let pool = Pool::open(SETTINGS, policy, &failing).unwrap();
    let ends = pool.with_flusher(|| {
        thread::scope(|threads| {
            let pool = &pool;
            let started: Vec<_> = (0..9)
                .map(|number| threads.spawn(move || moves(pool, number)))
                .collect();
            let ended = started.into_iter().map(|it| it.join().unwrap());
            ended.fold([0; 3], |all, it| [0, 1, 2].map(|end| all[end] + it[end]))
        })
    });
    failing.is_calm.store(true, Ordering::Relaxed);
    let stats = pool.stats();
    assert!(stats.write_backs > 0 && stats.flushes > 0 && stats.running_peaks == 0);
    pool.close().unwrap();
    let sum = |pages: std::ops::Range<u32>| -> i64 {
        pages.map(|page| number_of(&failing.pages.body(page))).sum()
    };
    assert_eq!((sum(0..8), sum(8..16)), (ends[0], -ends[0]));
    assert!(ends.iter().all(|many| *many > 3), "{ends:?}");
    assert_eq!(ends.iter().sum::<i64>(), 1800);
}
