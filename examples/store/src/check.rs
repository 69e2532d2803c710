// SPDX-License-Identifier: Apache-2.0
//! Looks at a whole file that nobody has open: whether its trees are well-formed.

use crate::device::PageStore;
use crate::error::Error;
use crate::header::Header;
use crate::layout::{Layout, ROOTS};
use crate::medium::{Medium, Part};
use crate::node;
use crate::recovery;
use std::collections::BTreeSet;

/// What was found.
#[derive(Clone, Debug, Default, PartialEq, Eq)]
pub struct Report {
    /// How many trees there are.
    pub trees: u64,
    /// How many nodes they have, the roots too.
    pub nodes: u64,
    /// How many keys.
    pub keys: u64,
    /// What is amiss, a line each.
    pub amiss: Vec<String>,
}

/// Looks at the file of a store that was closed, or at least opened and recovered, and whose pages
/// are all written:
///
/// - each page that is reached fits its sum, and none is newer than the log,
/// - each node is of the tree, the level and the region that its parent means, and no page has two
///   parents (so those that aren't reached are free),
/// - keys rise in each node, and lie in the range that the parent gives it,
/// - entries lie in the page, and apart.
///
/// # Errors
///
/// [`Error::InUse`], [`Error::File`]; [`Error::Damaged`] where there is no header of a store.
pub fn check(medium: &dyn Medium) -> Result<Report, Error> {
    let file = medium.open(Part::Pages).map_err(Error::file("the file"))?;
    let header = Header::read(&*file)?
        .ok_or_else(|| Error::Damaged("it has no header of a store".into()))?;
    let log_end = recovery::log_end(&header, medium)?;
    let pages = PageStore::new(file, &header.layout);
    let mut checker = Checker {
        layout: header.layout.clone(),
        pages: &pages,
        log_end,
        seen: BTreeSet::new(),
        report: Report::default(),
    };
    checker.names();
    Ok(checker.report)
}

struct Checker<'p> {
    layout: Layout,
    pages: &'p PageStore,
    log_end: u64,
    seen: BTreeSet<u32>,
    report: Report,
}

/// What a node has to be.
#[derive(Clone, Copy)]
struct Place<'a> {
    page: u32,
    root: u32,
    height: usize,
    low: &'a [u8],
    high: Option<&'a [u8]>,
}

impl Checker<'_> {
    fn amiss(&mut self, page: u32, what: &str) {
        self.report.amiss.push(format!("page {page} {what}"));
    }

    fn read(&mut self, page: u32) -> Option<Vec<u8>> {
        match self.pages.read_body(page) {
            Ok(body) if !is_in_form(&body) => {
                self.amiss(page, "has entries that lie outside it, or on others");
                None
            }
            Ok(body) => {
                if node::log_end(&body) > self.log_end {
                    self.amiss(page, "is newer than the log");
                }
                Some(body)
            }
            Err(_) => {
                self.amiss(page, "can't be read, or doesn't fit its sum");
                None
            }
        }
    }

    fn names(&mut self) {
        let page = self.layout.names_page();
        let Some(names) = self.read(page) else {
            return;
        };
        for index in 0..node::count(&names) {
            let root = node::child(&names, index);
            let is_one = root >= self.layout.root(0) && root < self.layout.root(ROOTS);
            if !is_one || !self.seen.insert(root) {
                self.amiss(
                    root,
                    "is named as a root, and isn't one, or that of another tree too",
                );
                continue;
            }
            self.report.trees += 1;
            let Some(body) = self.read(root) else {
                continue;
            };
            let height = node::height(&body);
            if !(1..=self.layout.levels).contains(&height) {
                self.amiss(root, "is a root of a wrong height");
                continue;
            }
            let place = Place {
                page: root,
                root,
                height,
                low: &[],
                high: None,
            };
            self.node(place, &body);
        }
    }

    fn node(&mut self, place: Place, body: &[u8]) {
        self.report.nodes += 1;
        if node::root(body) != place.root
            || node::height(body) != place.height
            || !node::is_node(body)
        {
            self.amiss(
                place.page,
                "is of another tree or height than its parent means",
            );
            return;
        }
        self.keys(place, body);
        if place.height == 0 {
            self.report.keys += node::count(body) as u64;
            return;
        }
        if node::count(body) == 0 {
            self.amiss(place.page, "is an inner node without a child");
        }
        for index in 0..node::count(body) {
            let is_last = index + 1 == node::count(body);
            let child = Place {
                page: node::child(body, index),
                height: place.height - 1,
                low: if index == 0 {
                    place.low
                } else {
                    node::key(body, index)
                },
                high: if is_last {
                    place.high
                } else {
                    Some(node::key(body, index + 1))
                },
                ..place
            };
            self.child(child);
        }
    }

    fn child(&mut self, place: Place) {
        if self.layout.level_of(place.page) != Some(place.height) {
            self.amiss(place.page, "is a child, and not a page of its level");
        } else if !self.seen.insert(place.page) {
            self.amiss(place.page, "has two parents");
        } else if let Some(body) = self.read(place.page) {
            self.node(place, &body);
        }
    }

    /// Looks at the order of keys, and at their range. (The first key of an inner node says nothing.)
    fn keys(&mut self, place: Place, body: &[u8]) {
        let first = usize::from(place.height > 0);
        for index in first..node::count(body) {
            let key = node::key(body, index);
            if index > first && node::key(body, index - 1) >= key {
                self.amiss(place.page, "has keys that don't rise");
            }
            if key < place.low || place.high.is_some_and(|high| key >= high) {
                self.amiss(place.page, "has a key that its parent doesn't mean");
            }
        }
    }
}

/// Whether all entries lie in the body behind the places, and apart from each other.
fn is_in_form(body: &[u8]) -> bool {
    node::ranges(body).is_some_and(|mut ranges| {
        ranges.sort_unstable();
        ranges.windows(2).all(|two| two[0].1 <= two[1].0)
    })
}
