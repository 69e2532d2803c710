// SPDX-License-Identifier: Apache-2.0
//! The texts of the plans that stand in the folders plans and plans-refused.

use pinpool::{Device, Error, Policy, Pool};
use std::io;
use store::{plan_text, Job, Layout, Options};

/// A device of which each page is blank. No plan is run on it.
struct Blank;

impl Device for Blank {
    fn read(&self, page: u32, image: &mut [u8]) -> io::Result<()> {
        image.fill(0);
        image[..4].copy_from_slice(&page.to_be_bytes());
        Ok(())
    }

    fn write(&self, _page: u32, _image: &[u8]) -> io::Result<()> {
        Err(io::ErrorKind::Unsupported.into())
    }
}

fn pool() -> Pool<Blank> {
    let settings = include_str!("../plans/settings.toml");
    Pool::open(settings, Policy::default(), Blank).unwrap()
}

#[test]
fn those_that_are_shown_are_those_that_run() {
    let Options {
        page_bytes,
        leaves,
        levels,
        frames,
        ..
    } = Options::default();
    let layout = Layout::new(page_bytes, leaves, levels).unwrap();
    assert_eq!(
        layout.settings(frames),
        include_str!("../plans/settings.toml")
    );
    let pool = pool();
    let peaks = Job::ALL.map(|job| {
        let path = format!("plans/{}.json", job.name());
        let text = std::fs::read_to_string(path).unwrap();
        assert_eq!(text, plan_text(&layout, job));
        pool.prepare(&text).unwrap().peak()
    });
    assert_eq!(peaks, [2, 2, 3, 11, 3, 3, 2]);
}

#[test]
fn two_leaves_of_one_region_are_refused() {
    let merge = include_str!("../plans-refused/merge.json");
    let refused = Error::Refused {
        number: 38,
        place: Some(5),
    };
    assert_eq!(pool().prepare(merge).unwrap_err(), refused);
}
