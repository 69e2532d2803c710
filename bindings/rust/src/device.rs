// SPDX-License-Identifier: Apache-2.0
//! Where images of pages are kept.

use crate::pages::HEAD;
use std::fs::File;
use std::io;
use std::os::unix::fs::FileExt;
use std::path::Path;
use std::sync::Mutex;

/// Keeps the images of pages. Threads call it at once, outside the pool's lock, but no two for one
/// page.
///
/// An image is a head of 12 bytes, the page's number and its mark, and a body. A new one has the
/// page's number, the mark 0 and zeros.
pub trait Device: Send + Sync {
    /// Fills the image of the page.
    fn read(&self, page: u32, image: &mut [u8]) -> io::Result<()>;

    /// Keeps the image of the page.
    fn write(&self, page: u32, image: &[u8]) -> io::Result<()>;

    /// What was written stays, whatever happens to the machine.
    fn sync(&self) -> io::Result<()> {
        Ok(())
    }
}

impl<D: Device + ?Sized> Device for &D {
    fn read(&self, page: u32, image: &mut [u8]) -> io::Result<()> {
        (**self).read(page, image)
    }

    fn write(&self, page: u32, image: &[u8]) -> io::Result<()> {
        (**self).write(page, image)
    }

    fn sync(&self) -> io::Result<()> {
        (**self).sync()
    }
}

/// The image of a new page.
fn blank(page: u32, page_bytes: usize) -> Vec<u8> {
    let mut image = vec![0; page_bytes];
    image[..4].copy_from_slice(&page.to_be_bytes());
    image
}

/// Pages in a file: the image of page p begins at byte p times the bytes of a page.
#[derive(Debug)]
pub struct PageFile {
    file: File,
    page_bytes: u64,
}

impl PageFile {
    /// Makes a new file of so many pages. A file that is there already stays as it is.
    pub fn create(path: impl AsRef<Path>, pages: u32, page_bytes: usize) -> io::Result<PageFile> {
        let file = File::options()
            .read(true)
            .write(true)
            .create_new(true)
            .open(path)?;
        let made = PageFile {
            file,
            page_bytes: page_bytes as u64,
        };
        for page in 0..pages {
            made.write(page, &blank(page, page_bytes))?;
        }
        made.file.sync_all()?;
        Ok(made)
    }

    /// Opens such a file.
    pub fn open(path: impl AsRef<Path>, page_bytes: usize) -> io::Result<PageFile> {
        let file = File::options().read(true).write(true).open(path)?;
        Ok(PageFile {
            file,
            page_bytes: page_bytes as u64,
        })
    }

    fn place(&self, page: u32) -> u64 {
        u64::from(page) * self.page_bytes
    }
}

impl Device for PageFile {
    fn read(&self, page: u32, image: &mut [u8]) -> io::Result<()> {
        self.file.read_exact_at(image, self.place(page))
    }

    fn write(&self, page: u32, image: &[u8]) -> io::Result<()> {
        self.file.write_all_at(image, self.place(page))
    }

    fn sync(&self) -> io::Result<()> {
        self.file.sync_data()
    }
}

/// Pages in memory, for tests.
#[derive(Debug)]
pub struct MemoryPages(Vec<Mutex<Vec<u8>>>);

impl MemoryPages {
    /// So many new pages.
    pub fn new(pages: u32, page_bytes: usize) -> MemoryPages {
        MemoryPages(
            (0..pages)
                .map(|page| Mutex::new(blank(page, page_bytes)))
                .collect(),
        )
    }

    /// A copy of the body of a page.
    ///
    /// # Panics
    ///
    /// Where there is no such page.
    pub fn body(&self, page: u32) -> Vec<u8> {
        self.with(page, |image| image[HEAD..].to_vec())
            .expect("there is such a page")
    }

    fn with<T>(&self, page: u32, f: impl FnOnce(&mut Vec<u8>) -> T) -> io::Result<T> {
        match self.0.get(page as usize) {
            Some(image) => Ok(f(&mut image.lock().unwrap_or_else(|e| e.into_inner()))),
            None => Err(io::ErrorKind::NotFound.into()),
        }
    }
}

impl Device for MemoryPages {
    fn read(&self, page: u32, image: &mut [u8]) -> io::Result<()> {
        self.with(page, |kept| image.copy_from_slice(kept))
    }

    fn write(&self, page: u32, image: &[u8]) -> io::Result<()> {
        self.with(page, |kept| kept.copy_from_slice(image))
    }
}
