// SPDX-License-Identifier: Apache-2.0
//! Which pages are free.
//!
//! The file has no list of them: a page is taken where its parent names it. What a split writes into
//! the parent, and the whole new page, stand in one record of the log; so a page is never taken by
//! half, nor by two. Who opens the file looks at all inner nodes, a hundredth of the data or so.

use crate::layout::Layout;
use std::sync::atomic::{AtomicU32, Ordering};
use std::sync::Mutex;

/// The pages of nodes that are taken.
pub struct Space {
    regions: Vec<Mutex<Taken>>,
    layout: Layout,
    /// How many changes batches that run may still make, each of which may split a leaf.
    promised: AtomicU32,
}

/// The pages of a region that are taken: a bit for each.
struct Taken {
    bits: Vec<u64>,
    free: u32,
    /// All words before this one are full.
    hint: usize,
}

impl Space {
    /// All pages are free.
    pub fn new(layout: &Layout) -> Space {
        let regions = layout.regions().iter().map(|region| {
            let words = region.count.div_ceil(64) as usize;
            let mut bits = vec![0; words];
            if region.count % 64 != 0 {
                bits[words - 1] = u64::MAX << (region.count % 64);
            }
            Mutex::new(Taken {
                bits,
                free: region.count,
                hint: 0,
            })
        });
        Space {
            regions: regions.collect(),
            layout: layout.clone(),
            promised: AtomicU32::new(0),
        }
    }

    /// Keeps pages for so many changes of a batch. Answers whether there are so many.
    pub fn promise(&self, changes: u32) -> bool {
        let promised = self.promised.fetch_add(changes, Ordering::SeqCst) + changes;
        let mut nodes = self.layout.node_regions();
        let is_kept = nodes.all(|it| self.free(it) >= self.kept(it, promised));
        if !is_kept {
            self.release(changes);
        }
        is_kept
    }

    /// The batch with so many changes is done.
    pub fn release(&self, changes: u32) {
        self.promised.fetch_sub(changes, Ordering::SeqCst);
    }

    /// How many pages of the region so many changes may want: each node of the level's other region
    /// may be full, and one that was split takes three children more before it is split again.
    fn kept(&self, region: u32, changes: u32) -> u32 {
        let other = ((region - 1) ^ 1) + 1;
        let full = self.layout.regions()[other as usize].count - self.free(other);
        let level = self
            .layout
            .level_of(self.layout.regions()[region as usize].first);
        changes.min(full + changes.div_ceil(3u32.pow(level.unwrap_or(0) as u32)))
    }

    /// Takes a page of the region that is free. Those that are kept are for batches.
    pub fn take(&self, region: u32, is_for_a_batch: bool) -> Option<u32> {
        let kept = self.kept(region, self.promised.load(Ordering::SeqCst));
        let mut taken = self.regions[region as usize]
            .lock()
            .expect("nobody panics here");
        if taken.free <= kept && !is_for_a_batch {
            return None;
        }
        let from = taken.hint;
        let word = from + taken.bits[from..].iter().position(|it| *it != u64::MAX)?;
        let bit = taken.bits[word].trailing_ones();
        taken.bits[word] |= 1 << bit;
        taken.hint = word;
        taken.free -= 1;
        Some(self.layout.regions()[region as usize].first + word as u32 * 64 + bit)
    }

    /// Takes this page. Answers whether it is a node's, and was free.
    pub fn take_this(&self, page: u32) -> bool {
        self.set(page, true)
    }

    /// Gives a page back.
    pub fn give(&self, page: u32) {
        self.set(page, false);
    }

    fn set(&self, page: u32, is_taken: bool) -> bool {
        let Some(region) = self
            .layout
            .region_of(page)
            .filter(|it| self.layout.node_regions().contains(it))
        else {
            return false;
        };
        let mut taken = self.regions[region as usize]
            .lock()
            .expect("nobody panics here");
        let number = page - self.layout.regions()[region as usize].first;
        let (word, bit) = (number as usize / 64, 1 << (number % 64));
        if (taken.bits[word] & bit != 0) == is_taken {
            return false;
        }
        taken.bits[word] ^= bit;
        match is_taken {
            true => taken.free -= 1,
            false => {
                taken.free += 1;
                taken.hint = taken.hint.min(word);
            }
        }
        true
    }

    /// How many pages of the region are free.
    pub fn free(&self, region: u32) -> u32 {
        self.regions[region as usize]
            .lock()
            .expect("nobody panics here")
            .free
    }
}

#[cfg(test)]
mod tests {
    use super::*;

    #[test]
    fn each_page_is_given_out_once() {
        let layout = Layout::new(1024, 64, 2).unwrap();
        let space = Space::new(&layout);
        let region = layout.even_of(0);
        let first = layout.regions()[region as usize].first;
        assert!(space.take_this(first + 1));
        assert!(!space.take_this(first + 1));
        let taken: Vec<_> = std::iter::from_fn(|| space.take(region, false)).collect();
        assert_eq!(taken.len(), 31);
        assert_eq!((taken[0], taken[1]), (first, first + 2));
        assert_eq!(space.free(region), 0);
        space.give(first + 7);
        assert_eq!(
            (space.free(region), space.take(region, false)),
            (1, Some(first + 7))
        );
        assert!(!space.take_this(2), "that isn't a node's page");
    }

    #[test]
    fn what_a_batch_was_promised_is_for_batches() {
        let layout = Layout::new(1024, 64, 2).unwrap();
        let space = Space::new(&layout);
        let region = layout.even_of(0);
        assert!(!space.promise(33));
        assert!(space.promise(30));
        assert!(space.take(region, false).is_some() && space.take(region, false).is_some());
        assert_eq!(space.take(region, false), None);
        assert!(space.take(region, true).is_some());
        assert!(!space.promise(1));
        space.release(30);
        assert!(space.take(region, false).is_some());
    }
}
