// SPDX-License-Identifier: Apache-2.0
//! An index from keys to values, both numbers: a table of buckets, each with a chain of pages
//! behind it. Its pages are those of examples/c-pool, and so are its plans.

use pinpool::{Device, Error, Fix, Pages, Pool, Prepared, Work};

/// How many entries a page has, and how many pages a chain.
const ENTRIES: u32 = 30;
const LONGEST: u32 = 16;

/// Where the numbers of a bucket, or of a page in its chain, stand: its count of entries, the page
/// behind it, and, of a bucket, its chain's length. Entries follow, a key and a value each.
const COUNT: usize = 0;
const NEXT: usize = 4;
const LENGTH: usize = 8;
const FIRST: usize = 16;

/// The number of the map: how many pages of chains were given out.
const USED: usize = 0;

/// The slots of the plans, by their names in byte order: b, m and o.
const BUCKET: u32 = 0;
const MAP: u32 = 1;
const CHAIN: u32 = 2;

fn small(body: &[u8], at: usize) -> u32 {
    u32::from_le_bytes(body[at..at + 4].try_into().expect("four bytes"))
}

fn set_small(body: &mut [u8], at: usize, number: u32) {
    body[at..at + 4].copy_from_slice(&number.to_le_bytes());
}

fn large(body: &[u8], at: usize) -> u64 {
    u64::from_le_bytes(body[at..at + 8].try_into().expect("eight bytes"))
}

fn set_large(body: &mut [u8], at: usize, number: u64) {
    body[at..at + 8].copy_from_slice(&number.to_le_bytes());
}

/// Where the value of the key stands.
fn find(body: &[u8], key: u64) -> Option<usize> {
    let entries = (0..small(body, COUNT).min(ENTRIES)).map(|it| FIRST + 16 * it as usize);
    entries
        .into_iter()
        .find(|at| large(body, *at) == key)
        .map(|at| at + 8)
}

fn bucket_of(key: u64, fix: Fix) -> Option<u32> {
    let buckets = fix.pages.len() as u64;
    let number = (key.wrapping_mul(0x9e37_79b9_7f4a_7c15) >> 40) as u32;
    Some(fix.pages.start + (u64::from(number) % buckets) as u32)
}

/// A get: the bucket is latched S all the time, and so nobody changes its chain.
struct Get {
    key: u64,
    value: Option<u64>,
    visit: u32,
}

impl Work for Get {
    fn page(&mut self, fix: Fix) -> Option<u32> {
        match fix.slot {
            BUCKET => bucket_of(self.key, fix),
            _ => Some(self.visit),
        }
    }

    fn branch(&mut self, _branches: u32) -> Option<u32> {
        Some(u32::from(self.visit != 0))
    }

    fn see(&mut self, slot: u32, pages: &Pages) {
        let body = &pages[slot];
        self.value = find(body, self.key).map(|at| large(body, at));
        self.visit = if self.value.is_some() {
            0
        } else {
            small(body, NEXT)
        };
    }
}

/// What a turn of the loop over a chain does.
#[derive(Clone, Copy)]
enum Turn {
    Nothing,
    Look,
    Change,
}

/// An add: the bucket is latched X all the time.
struct Add {
    key: u64,
    by: u64,
    value: Option<u64>,
    /// The page of the chain that comes next; 0: none.
    visit: u32,
    /// A page of the chain where an entry has room; 0: none yet.
    room: u32,
    turn: Turn,
    has_passed: bool,
    /// The chain's length, and how many pages were given out, once they are known and wanted.
    length: u32,
    used: Option<u32>,
}

impl Add {
    /// Adds to the entry of the key, if it is in the body.
    fn raise(&mut self, body: &mut [u8]) -> bool {
        if let Some(at) = find(body, self.key) {
            let value = large(body, at).wrapping_add(self.by);
            set_large(body, at, value);
            self.value = Some(value);
        }
        self.value.is_some()
    }

    /// Makes an entry for the key, if there is room.
    fn append(&mut self, body: &mut [u8]) -> bool {
        let count = small(body, COUNT);
        if count >= ENTRIES {
            return false;
        }
        let at = FIRST + 16 * count as usize;
        set_large(body, at, self.key);
        set_large(body, at + 8, self.by);
        set_small(body, COUNT, count + 1);
        self.value = Some(self.by);
        true
    }

    fn change_bucket(&mut self, body: &mut [u8]) {
        self.length = small(body, LENGTH);
        let next = small(body, NEXT);
        if !self.raise(body) && (next != 0 || !self.append(body)) {
            self.visit = next;
            self.turn = Turn::Look;
        }
    }

    /// The page is new: it begins the chain.
    fn begin_chain(&mut self, pages: &mut Pages, page: u32) {
        let next = small(&pages[BUCKET], NEXT);
        let body = &mut pages[CHAIN];
        body.fill(0);
        set_small(body, NEXT, next);
        self.append(body);
        set_small(&mut pages[BUCKET], NEXT, page);
        set_small(&mut pages[BUCKET], LENGTH, self.length + 1);
        let used = small(&pages[MAP], USED);
        set_small(&mut pages[MAP], USED, used + 1);
    }
}

impl Work for Add {
    fn page(&mut self, fix: Fix) -> Option<u32> {
        match (fix.slot, self.used) {
            (BUCKET, _) => bucket_of(self.key, fix),
            (MAP, _) => (self.length < LONGEST).then_some(fix.pages.start),
            // A new page; behind the last one it isn't one of the region's, and so the add is given
            // up.
            (_, Some(used)) => Some(fix.pages.start + used),
            (_, None) => Some(self.visit),
        }
    }

    /// The plan asks whether there is a chain to go through; at each turn of that, what to do; and
    /// then whether a new page is wanted.
    fn branch(&mut self, branches: u32) -> Option<u32> {
        if branches == 3 {
            return Some(self.turn as u32);
        }
        let has_passed = std::mem::replace(&mut self.has_passed, true);
        Some(u32::from(if has_passed {
            self.value.is_none()
        } else {
            self.visit != 0
        }))
    }

    /// Looks for the key in a page of the chain. Where it is, or else where there is room, that
    /// page is asked for once more.
    fn see(&mut self, slot: u32, pages: &Pages) {
        let body = &pages[slot];
        if find(body, self.key).is_none() {
            if small(body, COUNT) < ENTRIES {
                self.room = pages.page(slot).unwrap_or(0);
            }
            self.visit = small(body, NEXT);
            if self.visit != 0 {
                return;
            }
            self.visit = self.room;
        }
        self.turn = if self.visit != 0 {
            Turn::Change
        } else {
            Turn::Nothing
        };
    }

    fn change(&mut self, slot: u32, pages: &mut Pages) {
        match (slot, self.used) {
            (BUCKET, _) => self.change_bucket(&mut pages[slot]),
            (MAP, _) => self.used = Some(small(&pages[slot], USED)),
            (_, Some(_)) => {
                let page = pages.page(slot).unwrap_or(0);
                self.begin_chain(pages, page);
            }
            (_, None) => {
                let body = &mut pages[slot];
                let _is_there = self.raise(body) || self.append(body);
                self.turn = Turn::Nothing;
            }
        }
    }
}

/// The index, for any number of threads.
pub struct HashIndex<'p, D: Device> {
    pool: &'p Pool<D>,
    get: Prepared,
    add: Prepared,
}

impl<'p, D: Device> HashIndex<'p, D> {
    /// Has the pool keep the plans.
    pub fn new(pool: &'p Pool<D>) -> Result<Self, Error> {
        let get = pool.prepare(include_str!("../../c-pool/get.json"))?;
        let add = pool.prepare(include_str!("../../c-pool/add.json"))?;
        Ok(HashIndex { pool, get, add })
    }

    /// The value of the key.
    pub fn get(&self, key: u64) -> Result<Option<u64>, Error> {
        let mut get = Get {
            key,
            value: None,
            visit: 0,
        };
        self.pool.execute(&self.get, &mut get)?;
        Ok(get.value)
    }

    /// Adds to the value of the key, and tells the sum. A key that wasn't there begins at 0. Where
    /// the bucket's chain is as long as may be, or no page is free, nothing is changed, and the
    /// answer is [`Error::GivenUp`].
    pub fn add(&self, key: u64, by: u64) -> Result<u64, Error> {
        let turn = Turn::Nothing;
        let mut add = Add {
            key,
            by,
            value: None,
            visit: 0,
            room: 0,
            turn,
            has_passed: false,
            length: 0,
            used: None,
        };
        self.pool.execute(&self.add, &mut add)?;
        Ok(add.value.unwrap_or(0))
    }
}
