// SPDX-License-Identifier: Apache-2.0
//! What stands in a file is looked at once, before its pool is opened: the names of the trees, how
//! high each is, and which pages are taken.

use crate::device::PageStore;
use crate::error::Error;
use crate::layout::ROOTS;
use crate::node;
use crate::space::Space;
use std::collections::BTreeMap;

/// What was found.
pub struct Found {
    /// The page of the root of each tree.
    pub names: BTreeMap<String, u32>,
    /// How high each root is; 0: there is no such tree.
    pub heights: Vec<usize>,
    /// The pages that are free.
    pub space: Space,
}

/// Looks at the names, the roots, and the inner nodes. (What leaves there are, their parents say.)
///
/// # Errors
///
/// [`Error::Damaged`] where a page can't be read, or is newer than the log's end, which is `next`.
pub fn look(pages: &PageStore, next: u64) -> Result<Found, Error> {
    let layout = pages.layout();
    let mut found = Found {
        names: BTreeMap::new(),
        heights: vec![0; ROOTS as usize],
        space: Space::new(layout),
    };
    let names = read(pages, layout.names_page(), next)?;
    for index in 0..node::count(&names) {
        let name = String::from_utf8_lossy(node::key(&names, index)).into_owned();
        let root = node::child(&names, index);
        let body = read(pages, root, next)?;
        let number = root.wrapping_sub(layout.root(0)) as usize;
        let height = found.heights.get_mut(number).ok_or_else(|| damaged(root))?;
        *height = node::height(&body);
        take_below(pages, next, &found.space, &body)?;
        found.names.insert(name, root);
    }
    Ok(found)
}

fn take_below(pages: &PageStore, next: u64, space: &Space, body: &[u8]) -> Result<(), Error> {
    let height = node::height(body);
    for index in 0..node::count(body) {
        let child = node::child(body, index);
        if pages.layout().level_of(child) != Some(height - 1) || !space.take_this(child) {
            return Err(damaged(child));
        }
        if height > 1 {
            take_below(pages, next, space, &read(pages, child, next)?)?;
        }
    }
    Ok(())
}

/// The body of a page.
pub fn read(pages: &PageStore, page: u32, next: u64) -> Result<Vec<u8>, Error> {
    let body = pages.read_body(page).map_err(|error| match error.kind() {
        std::io::ErrorKind::InvalidData => damaged(page),
        _ => Error::File("a page", error),
    })?;
    match node::log_end(&body) <= next {
        true => Ok(body),
        false => Err(Error::Damaged(format!("page {page} is newer than the log"))),
    }
}

fn damaged(page: u32) -> Error {
    Error::Damaged(format!("page {page}"))
}
