// SPDX-License-Identifier: Apache-2.0
//! Where the files of a store are: on a disk, or in a test's memory that loses what wasn't synced.

use std::fs::{File, OpenOptions};
use std::io;
use std::os::unix::fs::FileExt;
use std::path::{Path, PathBuf};

/// The files of a store.
#[derive(Clone, Copy, Debug, PartialEq, Eq)]
pub enum Part {
    /// The pages, and before them the header.
    Pages,
    /// One of the two halves of the log, 0 or 1.
    Log(usize),
}

/// A file of a store. Any thread may call it at any time.
pub trait StoreFile: Send + Sync {
    /// Reads bytes from this place on. Answers how many there were before the file's end.
    fn read(&self, at: u64, bytes: &mut [u8]) -> io::Result<usize>;
    /// Writes bytes from this place on. They stay for certain only behind a sync.
    fn write(&self, at: u64, bytes: &[u8]) -> io::Result<()>;
    /// What was written or cut before stays, whatever happens to the machine.
    fn sync(&self) -> io::Result<()>;
    /// Cuts the file off at this length, where it is longer.
    fn cut(&self, length: u64) -> io::Result<()>;
    /// How many bytes it has.
    fn length(&self) -> io::Result<u64>;
}

/// Where the files of one store are.
pub trait Medium {
    /// Opens a file of the store. Where it isn't there it is made, and stays.
    ///
    /// # Errors
    ///
    /// `ResourceBusy` where somebody else has the store open.
    fn open(&self, part: Part) -> io::Result<Box<dyn StoreFile>>;
}

/// The files FILE, FILE-log0 and FILE-log1.
pub struct Disk {
    path: PathBuf,
    may_make: bool,
}

impl Disk {
    /// The files beside this path. Where they aren't there, they are made or, if they may not be,
    /// not opened.
    pub fn new(path: impl AsRef<Path>, may_make: bool) -> Disk {
        Disk {
            path: path.as_ref().to_path_buf(),
            may_make,
        }
    }

    fn path_of(&self, part: Part) -> PathBuf {
        let mut name = self.path.clone().into_os_string();
        if let Part::Log(half) = part {
            name.push(format!("-log{half}"));
        }
        name.into()
    }
}

impl Medium for Disk {
    fn open(&self, part: Part) -> io::Result<Box<dyn StoreFile>> {
        let path = self.path_of(part);
        let is_new = !path.exists();
        let file = OpenOptions::new()
            .read(true)
            .write(true)
            .create(self.may_make || part != Part::Pages)
            .truncate(false)
            .open(&path)?;
        file.try_lock()
            .map_err(|_| io::Error::from(io::ErrorKind::ResourceBusy))?;
        if is_new {
            sync_folder_of(&path)?;
        }
        Ok(Box::new(DiskFile(file)))
    }
}

/// The name of a new file stays, whatever happens to the machine.
fn sync_folder_of(path: &Path) -> io::Result<()> {
    let folder = match path.parent() {
        Some(folder) if !folder.as_os_str().is_empty() => folder,
        _ => Path::new("."),
    };
    File::open(folder)?.sync_all()
}

struct DiskFile(File);

impl StoreFile for DiskFile {
    fn read(&self, at: u64, bytes: &mut [u8]) -> io::Result<usize> {
        let mut done = 0;
        while done < bytes.len() {
            match self.0.read_at(&mut bytes[done..], at + done as u64) {
                Ok(0) => break,
                Ok(count) => done += count,
                Err(error) if error.kind() == io::ErrorKind::Interrupted => {}
                Err(error) => return Err(error),
            }
        }
        Ok(done)
    }

    fn write(&self, at: u64, bytes: &[u8]) -> io::Result<()> {
        self.0.write_all_at(bytes, at)
    }

    fn sync(&self) -> io::Result<()> {
        self.0.sync_data()
    }

    fn cut(&self, length: u64) -> io::Result<()> {
        if self.length()? > length {
            self.0.set_len(length)?;
        }
        Ok(())
    }

    fn length(&self) -> io::Result<u64> {
        Ok(self.0.metadata()?.len())
    }
}
