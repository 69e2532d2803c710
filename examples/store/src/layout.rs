// SPDX-License-Identifier: Apache-2.0
//! Where pages lie: regions of page numbers, each with a class of latches.
//!
//! Latches rise in class. A split wants the old node and the new one latched X at once, and no two
//! pages of one class can be. So each level has two regions, an even one and an odd one: the new
//! node of an even one is odd, and the other way round. The number of a region is its class and its
//! place in the settings.

use std::ops::Range;

/// The most levels below a root.
pub const MOST_LEVELS: usize = 5;

/// How many trees a file may have.
pub const ROOTS: u32 = 64;

/// The region of the roots.
pub const ROOT: u32 = 0;

/// The region of the topmost even nodes.
pub const FIRST_OF_NODES: u32 = 1;

/// The pages before the first region: two places for the header.
pub const HEADER_PAGES: u32 = 2;

/// The bytes of a page in the file that aren't the body's: the head of the pool's image, and the
/// sum behind it.
pub const AROUND_A_BODY: usize = 12 + SUM_BYTES;

/// The bytes of the sum behind an image.
pub const SUM_BYTES: usize = 4;

/// A region of pages.
#[derive(Clone, Debug, PartialEq, Eq)]
pub struct Region {
    /// Its name in the plans.
    pub name: String,
    /// Its first page.
    pub first: u32,
    /// How many pages it has.
    pub count: u32,
}

/// How the pages of a file are laid out. It stays as it is from the file's making on.
#[derive(Clone, Debug, PartialEq, Eq)]
pub struct Layout {
    /// How many bytes a page has in the file.
    pub page_bytes: usize,
    /// How many leaves there may be.
    pub leaves: u32,
    /// How many levels there may be below a root, 2 to [`MOST_LEVELS`].
    pub levels: usize,
    regions: Vec<Region>,
}

impl Layout {
    /// The layout of these sizes; none where they aren't sizes of a file: pages of 1,024 to 32,768
    /// bytes, 64 leaves to 2^30, 2 to [`MOST_LEVELS`] levels.
    pub fn new(page_bytes: usize, leaves: u32, levels: usize) -> Option<Layout> {
        let sizes_are_right = (1024..=32_768).contains(&page_bytes)
            && (64..=1 << 30).contains(&leaves)
            && (2..=MOST_LEVELS).contains(&levels);
        sizes_are_right.then(|| Layout {
            page_bytes,
            leaves,
            levels,
            regions: regions_of(leaves, levels),
        })
    }

    /// The regions, by rising classes.
    pub fn regions(&self) -> &[Region] {
        &self.regions
    }

    /// The number of the even region of a level; the leaves are level 0. That of the odd one follows
    /// it.
    pub fn even_of(&self, level: usize) -> u32 {
        FIRST_OF_NODES + 2 * (self.levels - 1 - level) as u32
    }

    /// The level of a page of the nodes below a root; none where it isn't one.
    pub fn level_of(&self, page: u32) -> Option<usize> {
        let region = self.region_of(page)?.checked_sub(FIRST_OF_NODES)?;
        Some(self.levels - 1 - region as usize / 2)
    }

    /// The regions of the nodes below the roots.
    pub fn node_regions(&self) -> Range<u32> {
        FIRST_OF_NODES..self.names()
    }

    /// The region of the page of the trees' names, the last one.
    pub fn names(&self) -> u32 {
        self.regions.len() as u32 - 1
    }

    /// The page of the trees' names.
    pub fn names_page(&self) -> u32 {
        HEADER_PAGES
    }

    /// The region of a root or of a node; none for other pages.
    pub fn region_of(&self, page: u32) -> Option<u32> {
        let trees = &self.regions[..self.names() as usize];
        let after = trees.partition_point(|it| it.first <= page);
        let region = trees.get(after.checked_sub(1)?)?;
        (page - region.first < region.count).then_some(after as u32 - 1)
    }

    /// The page of this root, which is counted from 0.
    pub fn root(&self, number: u32) -> u32 {
        self.regions[ROOT as usize].first + number
    }

    /// The place of a page in the file, in bytes.
    pub fn place(&self, page: u32) -> u64 {
        u64::from(page) * self.page_bytes as u64
    }

    /// How many bytes the pool's image of a page has.
    pub fn image_bytes(&self) -> usize {
        self.page_bytes - SUM_BYTES
    }

    /// How many bytes the body of a page has.
    pub fn body_bytes(&self) -> usize {
        self.page_bytes - AROUND_A_BODY
    }

    /// How many bytes a key may have: an eighth of a page. So an inner node has seven children at
    /// least before it is split, and three behind that, whatever the keys are.
    pub fn longest_key(&self) -> usize {
        self.page_bytes / 8
    }

    /// How many bytes a value may have: a quarter of a page. With its key that is at most 3/8 of a
    /// page, so that both halves of a leaf that is split have room for whatever comes.
    pub fn longest_value(&self) -> usize {
        self.page_bytes / 4
    }

    /// The settings of the pool, with so many frames.
    pub fn settings(&self, frames: u32) -> String {
        let mut text = format!(
            "version = 2\nframes = {frames}\npage_bytes = {}\nworkers = 32\nwaiting = 1\nflushes = {}\n",
            self.image_bytes(),
            1u64 << 59
        );
        for (class, region) in self.regions.iter().enumerate() {
            text += &format!(
                "[[region]]\nname = \"{}\"\nfirst = {}\ncount = {}\nclass = {class}\n",
                region.name, region.first, region.count
            );
        }
        text
    }
}

/// The roots, the levels from the top down, of each the even pages and the odd ones, and the names,
/// whose page is the first one.
fn regions_of(leaves: u32, levels: usize) -> Vec<Region> {
    let mut regions = Vec::new();
    let mut first = HEADER_PAGES + 1;
    let mut add = |name: String, count: u32| {
        regions.push(Region { name, first, count });
        first += count;
    };
    add("roots".into(), ROOTS);
    for level in (0..levels).rev() {
        // (an inner node has three children at least, and mostly a hundred)
        let count = match level {
            0 => leaves / 2,
            1 => leaves / 8,
            _ => leaves / 32,
        };
        add(format!("level{level}_even"), count.max(32));
        add(format!("level{level}_odd"), count.max(32));
    }
    regions.push(Region {
        name: "names".into(),
        first: HEADER_PAGES,
        count: 1,
    });
    regions
}

#[cfg(test)]
mod tests {
    use super::*;

    #[test]
    fn regions_follow_one_another() {
        let layout = Layout::new(4096, 1024, 3).unwrap();
        let names: Vec<_> = layout.regions().iter().map(|it| it.name.as_str()).collect();
        assert_eq!(
            names,
            [
                "roots",
                "level2_even",
                "level2_odd",
                "level1_even",
                "level1_odd",
                "level0_even",
                "level0_odd",
                "names"
            ]
        );
        assert_eq!(
            (layout.even_of(0), layout.even_of(2), layout.names()),
            (5, 1, 7)
        );
        let trees = &layout.regions()[..7];
        for (number, region) in trees.iter().enumerate() {
            let last = region.first + region.count - 1;
            assert_eq!(layout.region_of(region.first), Some(number as u32));
            assert_eq!(layout.region_of(last), Some(number as u32));
        }
        let end = trees[6].first + trees[6].count;
        assert_eq!(
            (layout.region_of(end), layout.region_of(layout.names_page())),
            (None, None)
        );
        let levels =
            [trees[0].first, trees[1].first, trees[6].first, end].map(|page| layout.level_of(page));
        assert_eq!(levels, [None, Some(2), Some(0), None]);
    }
}
