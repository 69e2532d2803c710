// SPDX-License-Identifier: Apache-2.0
//! The pool's device: pages in the file, each with its sum, and none before its records of the log.

use crate::layout::{Layout, AROUND_A_BODY, SUM_BYTES};
use crate::log::Log;
use crate::medium::StoreFile;
use crate::node;
use crate::sum::sum_of;
use pinpool::Device;
use std::collections::HashMap;
use std::io;
use std::sync::atomic::{AtomicBool, AtomicU64, Ordering};
use std::sync::{Arc, Mutex, MutexGuard};

/// The head of the pool's image: the page's number, and its mark.
const HEAD: usize = AROUND_A_BODY - SUM_BYTES;

/// The pages of a file. A page that was never written is one of zeros.
pub struct PageStore {
    file: Box<dyn StoreFile>,
    layout: Layout,
}

impl PageStore {
    /// The pages in this file.
    pub fn new(file: Box<dyn StoreFile>, layout: &Layout) -> PageStore {
        PageStore {
            file,
            layout: layout.clone(),
        }
    }

    /// The file.
    pub fn file(&self) -> &dyn StoreFile {
        &*self.file
    }

    /// How the pages are laid out.
    pub fn layout(&self) -> &Layout {
        &self.layout
    }

    /// Fills the image of a page.
    ///
    /// # Errors
    ///
    /// `InvalidData` where the page doesn't fit its sum or is another one, and those of the file.
    pub fn read(&self, page: u32, image: &mut [u8]) -> io::Result<()> {
        let mut bytes = vec![0; self.layout.page_bytes];
        self.file.read(self.layout.place(page), &mut bytes)?;
        let (written, sum) = bytes.split_at(self.layout.image_bytes());
        image.copy_from_slice(written);
        if sum == sum_of(written).to_le_bytes() && image[..4] == page.to_be_bytes() {
            return Ok(());
        }
        if bytes.iter().all(|byte| *byte == 0) {
            image[..4].copy_from_slice(&page.to_be_bytes());
            return Ok(());
        }
        Err(io::ErrorKind::InvalidData.into())
    }

    /// Writes the image of a page, and its sum.
    pub fn write(&self, page: u32, image: &[u8]) -> io::Result<()> {
        let mut bytes = Vec::with_capacity(self.layout.page_bytes);
        bytes.extend(image);
        bytes.extend(sum_of(image).to_le_bytes());
        self.file.write(self.layout.place(page), &bytes)
    }

    /// The body of a page, read past the pool.
    pub fn read_body(&self, page: u32) -> io::Result<Vec<u8>> {
        let mut image = vec![0; self.layout.image_bytes()];
        self.read(page, &mut image)?;
        Ok(image.split_off(HEAD))
    }

    /// Writes the body of a page past the pool, with a new head.
    pub fn write_body(&self, page: u32, body: &[u8]) -> io::Result<()> {
        let mut image = vec![0; HEAD];
        image[..4].copy_from_slice(&page.to_be_bytes());
        image.extend(body);
        self.write(page, &image)
    }
}

/// The pages, behind the log.
///
/// **Latches in vain.** A page counts as changed where a latch X was taken off it, though nothing was
/// changed: its mark has risen. That is so where a plan turns out to need more pages, or was given
/// up. Such a page has no record in the log; so if it were written, a crash could tear it, and nothing
/// could mend it. It isn't written: the file has its body already, and its mark is kept here.
pub struct PageDevice {
    /// The pages.
    pub pages: PageStore,
    /// The log.
    pub log: Arc<Log>,
    /// Where in the log the last checkpoint was. A page whose last change ends there or before is in
    /// the file as it is.
    checkpoint: AtomicU64,
    /// The marks of pages that were latched in vain.
    marks: Mutex<HashMap<u32, [u8; 8]>>,
    has_failed: AtomicBool,
}

/// Where the mark stands in an image.
const MARK: std::ops::Range<usize> = 4..12;

impl PageDevice {
    /// The pages behind this log, whose last checkpoint was at this place.
    pub fn new(pages: PageStore, log: Arc<Log>, checkpoint: u64) -> PageDevice {
        PageDevice {
            pages,
            log,
            checkpoint: AtomicU64::new(checkpoint),
            marks: Mutex::new(HashMap::new()),
            has_failed: AtomicBool::new(false),
        }
    }

    /// Whether a write has failed.
    pub fn has_failed(&self) -> bool {
        self.has_failed.load(Ordering::Acquire)
    }

    /// All pages are in the file as they are at this place in the log. Nobody has a page latched X.
    pub fn checkpoint_at(&self, place: u64) {
        self.checkpoint.store(place, Ordering::Release);
    }

    fn marks(&self) -> MutexGuard<'_, HashMap<u32, [u8; 8]>> {
        self.marks.lock().expect("nobody panics here")
    }

    /// Has the log on the medium up to the page's last change, and then writes the page.
    fn write_behind_the_log(&self, page: u32, image: &[u8], end: u64) -> io::Result<()> {
        self.log.force(end).map_err(|_| io::ErrorKind::Other)?;
        self.pages.write(page, image)?;
        self.marks().remove(&page);
        Ok(())
    }
}

/// The device as the pool has it. (A pool doesn't show its device, so the store keeps it, too.)
pub struct Shown(pub Arc<PageDevice>);

impl Device for Shown {
    fn read(&self, page: u32, image: &mut [u8]) -> io::Result<()> {
        self.0.pages.read(page, image)?;
        if let Some(mark) = self.0.marks().get(&page) {
            image[MARK].copy_from_slice(mark);
        }
        Ok(())
    }

    fn write(&self, page: u32, image: &[u8]) -> io::Result<()> {
        let (device, end) = (&self.0, node::log_end(&image[HEAD..]));
        if end <= device.checkpoint.load(Ordering::Acquire) {
            let mark = image[MARK].try_into().expect("eight bytes");
            device.marks().insert(page, mark);
            return Ok(());
        }
        let written = device.write_behind_the_log(page, image, end);
        if written.is_err() {
            device.has_failed.store(true, Ordering::Release);
        }
        written
    }

    /// Nothing: a checkpoint syncs the file itself, once writers may go on.
    fn sync(&self) -> io::Result<()> {
        Ok(())
    }
}
