// SPDX-License-Identifier: Apache-2.0
//! The plans of the store: which pages a call holds and latches, as texts that the pool checks once.
//!
//! All ways go up in classes: root, the levels from the top down, the even region of a level before
//! its odd one, and the names. Where the root may have to be latched X, its height is a choice at the
//! plan's beginning, since it says whether the root is the parent of leaves. Where it is latched S,
//! the choice behind that is by the region of its child, which says both.

use crate::layout::{Layout, ROOT};
use pinpool::{Device, Error, Pool, Prepared};

/// What a plan is for.
#[derive(Clone, Copy, Debug, PartialEq, Eq)]
pub enum Job {
    /// To see the leaf of a key.
    Look,
    /// To change the leaf of a key.
    Write,
    /// To change the leaf of a key, its parent, and a leaf that is free: a split that ends at the
    /// parent, or the end of a leaf.
    Pair,
    /// To change all nodes from the root down to a leaf, and of each level a page that is free: a
    /// split that cascades.
    Path,
    /// To give the root two new children.
    Grow,
    /// To make a tree: its name, its root, and its first leaf.
    Found,
    /// To see up to [`LEAVES_OF_A_SCAN`] leaves of one parent.
    Scan,
}

/// How many leaves a scan sees before it goes down the tree anew.
pub const LEAVES_OF_A_SCAN: usize = 32;

impl Job {
    /// All of them, in the order of their numbers.
    pub const ALL: [Job; 7] = [
        Job::Look,
        Job::Write,
        Job::Pair,
        Job::Path,
        Job::Grow,
        Job::Found,
        Job::Scan,
    ];

    /// The plan's name in the documents.
    pub fn name(self) -> &'static str {
        match self {
            Job::Look => "look",
            Job::Write => "write",
            Job::Pair => "pair",
            Job::Path => "path",
            Job::Grow => "grow",
            Job::Found => "found",
            Job::Scan => "scan",
        }
    }
}

/// The plans that a pool keeps.
pub struct Plans([Prepared; 7]);

impl Plans {
    /// Has the pool check and keep them.
    ///
    /// # Errors
    ///
    /// Those of [`Pool::prepare`].
    pub fn new<D: Device>(pool: &Pool<D>, layout: &Layout) -> Result<Plans, Error> {
        let first = pool.prepare(&text_of(layout, Job::Look))?;
        let mut plans = [first; 7];
        for job in &Job::ALL[1..] {
            plans[*job as usize] = pool.prepare(&text_of(layout, *job))?;
        }
        Ok(Plans(plans))
    }

    /// The plan for the job.
    pub fn of(&self, job: Job) -> &Prepared {
        &self.0[job as usize]
    }
}

/// The text of a job's plan.
pub fn text_of(layout: &Layout, job: Job) -> String {
    let writer = Writer { layout };
    let body = match job {
        Job::Look => writer.leaf_of_a_key("S"),
        Job::Write => writer.leaf_of_a_key("X"),
        Job::Pair => writer.pair(),
        Job::Scan => writer.descent(&[writer.leaves(ROOT)], &|above| writer.leaves(above)),
        Job::Path => writer.path(),
        Job::Grow => writer.growth(),
        Job::Found => writer.founding(),
    };
    format!("{{\"body\":[{body}],\"version\":1}}")
}

/// The letter of a region's slot. Slots are numbered by the letters that stand in a plan; so in all
/// plans but `Found` a slot has the number of its region.
fn letter(region: u32) -> char {
    char::from(b'a' + region as u8)
}

/// A choice between these bodies.
fn choice(bodies: &[String]) -> String {
    let bodies: Vec<_> = bodies.iter().map(|body| format!("[{body}]")).collect();
    format!("{{\"choice\":[{}]}}", bodies.join(","))
}

/// Writes the plans for a layout.
struct Writer<'l> {
    layout: &'l Layout,
}

impl Writer<'_> {
    /// Fixes a page of the region, and latches it.
    fn take(&self, region: u32, mode: &str) -> String {
        let (slot, name) = (letter(region), &self.layout.regions()[region as usize].name);
        format!("{{\"fix\":\"{slot}\",\"region\":\"{name}\"}},{{\"latch\":\"{slot}\",\"mode\":\"{mode}\"}}")
    }

    /// Unlatches the slot of the region, and unfixes it.
    fn give(&self, region: u32) -> String {
        let slot = letter(region);
        format!("{{\"unlatch\":\"{slot}\"}},{{\"unfix\":\"{slot}\"}}")
    }

    /// The regions of a level.
    fn both(&self, level: usize) -> [u32; 2] {
        let even = self.layout.even_of(level);
        [even, even + 1]
    }

    /// A choice by the height of the root: 1 where its children are leaves.
    fn by_height(
        &self,
        heights: std::ops::RangeInclusive<usize>,
        body: impl Fn(usize) -> String,
    ) -> String {
        choice(&heights.map(body).collect::<Vec<_>>())
    }

    /// From the root to the parent of leaves, all S, and each child latched before its parent is let
    /// go; and what follows then. It has other bodies where the root is that parent.
    fn descent(&self, at_root: &[String], then: &dyn Fn(u32) -> String) -> String {
        let levels = (1..self.layout.levels).rev();
        let mut ways: Vec<_> = levels
            .flat_map(|level| self.ways(level, ROOT, "S", then))
            .collect();
        ways.extend_from_slice(at_root);
        format!("{},{}", self.take(ROOT, "S"), choice(&ways))
    }

    /// The ways by the two regions of an inner level, from a node that is latched, to the parent of
    /// leaves, which is latched in this mode, and what follows then.
    fn ways(
        &self,
        level: usize,
        above: u32,
        mode: &str,
        then: &dyn Fn(u32) -> String,
    ) -> [String; 2] {
        self.both(level).map(|region| {
            let take = self.take(region, if level == 1 { mode } else { "S" });
            let rest = match level {
                1 => then(region),
                _ => choice(&self.ways(level - 1, region, mode, then)),
            };
            format!("{take},{},{rest}", self.give(above))
        })
    }

    /// Down to a leaf, which is latched in this mode.
    fn leaf_of_a_key(&self, mode: &str) -> String {
        let at_root = self.leaf(mode, ROOT);
        self.descent(&at_root, &|above| choice(&self.leaf(mode, above)))
    }

    /// The ways to a leaf, latched before its parent is let go.
    fn leaf(&self, mode: &str, above: u32) -> [String; 2] {
        self.both(0).map(|region| {
            format!(
                "{},{},{}",
                self.take(region, mode),
                self.give(above),
                self.give(region)
            )
        })
    }

    /// Down to the parent of leaves, which is latched X, and two leaves.
    fn pair(&self) -> String {
        let then = |above| self.two_leaves(above);
        self.by_height(1..=self.layout.levels, |height| match height {
            1 => format!("{},{}", self.take(ROOT, "X"), then(ROOT)),
            _ => format!(
                "{},{}",
                self.take(ROOT, "S"),
                choice(&self.ways(height - 1, ROOT, "X", &then))
            ),
        })
    }

    /// Leaf after leaf, while their parent stays latched.
    fn leaves(&self, above: u32) -> String {
        let mut bodies: Vec<_> = self
            .both(0)
            .iter()
            .map(|region| format!("{},{}", self.take(*region, "S"), self.give(*region)))
            .collect();
        bodies.push(String::new());
        format!(
            "{{\"body\":[{}],\"loop\":{LEAVES_OF_A_SCAN}}},{}",
            choice(&bodies),
            self.give(above)
        )
    }

    /// An even and an odd leaf and their parent, all latched X at once.
    fn two_leaves(&self, above: u32) -> String {
        format!(
            "{},{},{}",
            self.take_level(0),
            self.give_level(0),
            self.give(above)
        )
    }

    /// The root, and of each level a node and a page that is free, all latched X at once.
    fn path(&self) -> String {
        let below = self.by_height(1..=self.layout.levels, |height| {
            let takes = (0..height).rev().map(|level| self.take_level(level));
            let gives = (0..height).map(|level| self.give_level(level));
            takes.chain(gives).collect::<Vec<_>>().join(",")
        });
        format!("{},{below},{}", self.take(ROOT, "X"), self.give(ROOT))
    }

    /// The root, and two pages that are free, of the level below the root when that has grown.
    fn growth(&self) -> String {
        let below = self.by_height(1..=self.layout.levels - 1, |height| {
            format!("{},{}", self.take_level(height), self.give_level(height))
        });
        format!("{},{below},{}", self.take(ROOT, "X"), self.give(ROOT))
    }

    /// A root, a leaf and the names, in slots 0, 1 and 2.
    fn founding(&self) -> String {
        let all = [ROOT, self.layout.even_of(0), self.layout.names()];
        let takes = all.iter().map(|region| self.take(*region, "X"));
        let gives = all.iter().rev().map(|region| self.give(*region));
        takes.chain(gives).collect::<Vec<_>>().join(",")
    }

    /// An even and an odd page of the level, latched X.
    fn take_level(&self, level: usize) -> String {
        self.both(level)
            .map(|region| self.take(region, "X"))
            .join(",")
    }

    /// Both let go again.
    fn give_level(&self, level: usize) -> String {
        let [even, odd] = self.both(level);
        format!("{},{}", self.give(odd), self.give(even))
    }
}
