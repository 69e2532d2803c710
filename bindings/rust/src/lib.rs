// SPDX-License-Identifier: Apache-2.0
//! A page buffer pool for storage engines, where a query runs by a *plan*: a small program that
//! fixes pages into slots, latches, unlatches and unfixes them, with loops and choices. A plan is
//! checked when it is prepared. So while it runs, no fix finds all frames fixed, and no two latches
//! wait for one another.
//!
//! This crate is a safe face of `libpinpool`, whose code is proved; the crate itself isn't. What it
//! adds are the lock and the threads' bells, and Rust's own rules: a [`Pool`] is shared by
//! reference between threads; a page is read where the pool keeps it, without the lock, and its
//! bytes can't outlive its latch; and what is refused is an [`Error`].
//!
//! ```
//! use pinpool::{Fix, MemoryPages, Pages, Policy, Pool, Work};
//!
//! const SETTINGS: &str = r#"
//! version = 2
//! frames = 8
//! page_bytes = 512
//! workers = 4
//! waiting = 1
//! flushes = 1000000
//! [[region]]
//! name = "counters"
//! first = 0
//! count = 64
//! class = 1
//! "#;
//! const PLAN: &str = r#"{"version": 1, "body": [
//!     {"fix": "a", "region": "counters"}, {"latch": "a", "mode": "X"}, {"unlatch": "a"}, {"unfix": "a"}]}"#;
//!
//! /// Adds one to the counter in a page.
//! struct Count {
//!     page: u32,
//!     now: u8,
//! }
//! impl Work for Count {
//!     fn page(&mut self, _fix: Fix) -> Option<u32> {
//!         Some(self.page)
//!     }
//!     fn change(&mut self, slot: u32, pages: &mut Pages) {
//!         pages[slot][0] += 1;
//!         self.now = pages[slot][0];
//!     }
//! }
//!
//! # fn main() -> Result<(), Box<dyn std::error::Error>> {
//! let pool = Pool::open(SETTINGS, Policy::default(), MemoryPages::new(64, 512))?;
//! let plan = pool.prepare(PLAN)?;                       // once for each kind of work
//! let count_all = || {
//!     for page in 0..64 {
//!         pool.execute(&plan, &mut Count { page, now: 0 }).unwrap();
//!     }
//! };
//! pool.with_flusher(|| {                                // a thread that writes changed pages
//!     std::thread::scope(|threads| {
//!         for _ in 0..4 {
//!             threads.spawn(count_all);
//!         }
//!     })
//! });
//! let mut count = Count { page: 7, now: 0 };
//! pool.execute(&plan, &mut count)?;
//! assert_eq!(count.now, 5);
//! let pages = pool.close()?;                            // all that was changed is written
//! assert_eq!(pages.body(7)[0], 5);
//! # Ok(())
//! # }
//! ```
//!
//! A page can't be kept beyond its latch:
//!
//! ```compile_fail
//! use pinpool::{Fix, Pages, Work};
//! struct Keep<'a>(Option<&'a [u8]>);
//! impl<'a> Work for Keep<'a> {
//!     fn page(&mut self, fix: Fix) -> Option<u32> {
//!         Some(fix.pages.start)
//!     }
//!     fn see(&mut self, slot: u32, pages: &Pages) {
//!         self.0 = Some(&pages[slot]); // the page's bytes would outlive this call
//!     }
//! }
//! ```
//!
//! Nor can a work give the pages of one plan to another:
//!
//! ```compile_fail
//! use pinpool::{Fix, Pages, Work};
//! struct Swap<'a, 'p>(&'a mut Pages<'p>);
//! impl<'a, 'p> Work for Swap<'a, 'p> {
//!     fn page(&mut self, fix: Fix) -> Option<u32> {
//!         Some(fix.pages.start)
//!     }
//!     fn change(&mut self, _slot: u32, pages: &mut Pages) {
//!         std::mem::swap(self.0, pages); // they have other lifetimes
//!     }
//! }
//! ```
//!
//! The folder of `libpinpool.a` is named by `PINPOOL_LIB_DIR` when the crate is built; without it
//! the linker looks where it looks.
#![warn(missing_docs)]

mod device;
mod error;
mod ffi;
mod flushing;
mod pages;
mod pool;
mod running;
mod shared;
mod work;

pub use device::{Device, MemoryPages, PageFile};
pub use error::{CloseError, Error, Failure};
pub use pages::Pages;
pub use pool::{DirtyPage, Policy, Pool, Prepared, Sizes, Stats};
pub use work::{Ahead, Fix, Kind, Work};

/// The version of the library, and whether it was built from proved code: `"0.1.0 proved"`, or
/// `"0.1.0 unproved"`.
pub fn version() -> &'static str {
    // SAFETY: it answers a text that stays, and ends with a null.
    unsafe { std::ffi::CStr::from_ptr(ffi::pinpool_version()) }
        .to_str()
        .unwrap_or("unknown")
}
