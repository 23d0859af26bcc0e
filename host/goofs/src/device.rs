//! What a volume can stand on: a `Device` reads and writes sectors and completes a barrier. Here are an
//! image in memory and a file or block device.

use std::fmt;
use std::fs::{File, TryLockError};
use std::io::{self, Seek, SeekFrom};
use std::os::unix::fs::FileExt;
use std::sync::Arc;

use crate::system;

/// Bytes of a sector.
pub const SECTOR: usize = 512;

pub trait Device {
    /// The device's length in bytes. A volume lies on whole sectors only.
    fn length(&self) -> u64;

    /// Fills whole sectors from this one on.
    fn read(&self, first: u64, into: &mut [u8]) -> io::Result<()>;

    /// Writes whole sectors from this one on. Each may reach the medium at any time, or only with the
    /// next barrier.
    fn write(&mut self, first: u64, contents: &[u8]) -> io::Result<()>;

    /// Comes back when all writes before it are on the medium. If it fails, each of them is on it or
    /// not, and a later barrier that succeeds says nothing of those that are not.
    fn barrier(&mut self) -> io::Result<()>;

    /// Forgets, as far as that can be had, what is kept of the medium elsewhere, so that reads from
    /// now on show the medium itself.
    fn forget(&mut self) {}

    /// What reads the device beside it. A volume on a device with a reader may be far longer than the
    /// memory: its data sectors are read as they are asked for. One on a device without is held whole.
    fn reader(&self) -> Option<Box<dyn Reader>> {
        None
    }
}

/// Reads a device that others write to.
pub trait Reader: fmt::Debug + Send + Sync {
    /// Fills whole sectors from this one on.
    fn read(&self, first: u64, into: &mut [u8]) -> io::Result<()>;
}

/// A lent device: what is opened on it gives it back, also where the opening fails.
impl<D: Device> Device for &mut D {
    fn length(&self) -> u64 {
        D::length(self)
    }

    fn read(&self, first: u64, into: &mut [u8]) -> io::Result<()> {
        D::read(self, first, into)
    }

    fn write(&mut self, first: u64, contents: &[u8]) -> io::Result<()> {
        D::write(self, first, contents)
    }

    fn barrier(&mut self) -> io::Result<()> {
        D::barrier(self)
    }

    fn forget(&mut self) {
        D::forget(self)
    }

    fn reader(&self) -> Option<Box<dyn Reader>> {
        D::reader(self)
    }
}

/// An image in memory.
#[derive(Clone, Debug, Default)]
pub struct Memory {
    pub bytes: Vec<u8>,
}

impl Memory {
    /// A medium of so many zero sectors.
    pub fn of_sectors(sectors: usize) -> Memory {
        Memory {
            bytes: vec![0; sectors * SECTOR],
        }
    }
}

fn past_the_end() -> io::Error {
    io::Error::new(io::ErrorKind::UnexpectedEof, "a sector past the end")
}

/// Where these bytes stand, if they lie within the length.
fn span(first: u64, count: usize, length: u64) -> io::Result<(u64, u64)> {
    let start = first.checked_mul(SECTOR as u64).ok_or_else(past_the_end)?;
    match start.checked_add(count as u64) {
        Some(end) if end <= length => Ok((start, end)),
        _ => Err(past_the_end()),
    }
}

impl Device for Memory {
    fn length(&self) -> u64 {
        self.bytes.len() as u64
    }

    fn read(&self, first: u64, into: &mut [u8]) -> io::Result<()> {
        let (start, end) = span(first, into.len(), self.length())?;
        into.copy_from_slice(&self.bytes[start as usize..end as usize]);
        Ok(())
    }

    fn write(&mut self, first: u64, contents: &[u8]) -> io::Result<()> {
        let (start, end) = span(first, contents.len(), self.length())?;
        self.bytes[start as usize..end as usize].copy_from_slice(contents);
        Ok(())
    }

    fn barrier(&mut self) -> io::Result<()> {
        Ok(())
    }
}

/// A file or block device. It is locked as long as this value lives, or a reader of it, so that no second
/// program changes the volume between the reading of its image and the writing of a list.
#[derive(Debug)]
pub struct Disk {
    file: Arc<File>,
    length: u64,
}

impl Disk {
    /// For reading only: others may read at the same time.
    pub fn shared(file: File) -> io::Result<Disk> {
        unlocked(file.try_lock_shared())?;
        Disk::locked(file)
    }

    /// For changes: no one else has it. The file must be open for reading and writing.
    pub fn exclusive(file: File) -> io::Result<Disk> {
        unlocked(file.try_lock())?;
        Disk::locked(file)
    }

    fn locked(mut file: File) -> io::Result<Disk> {
        // The metadata of a block device give the length 0; its end is found by seeking.
        let length = file.seek(SeekFrom::End(0))?;
        let file = Arc::new(file);
        Ok(Disk { file, length })
    }

    /// Makes a file as long as this if it is shorter. A block device stays as it is.
    pub fn lengthen(&mut self, length: u64) -> io::Result<()> {
        if self.length < length && self.file.metadata()?.is_file() {
            self.file.set_len(length)?;
            self.length = length;
        }
        Ok(())
    }

    /// Gives the first bytes of a file their blocks on the disk, so that no write into them can fail
    /// for want of room; a shorter file becomes so long. If there is no room, the file has its old
    /// length. A block device stays as it is.
    pub fn allocate(&mut self, length: u64) -> io::Result<()> {
        self.allocate_telling(length, &mut |_| ())
    }

    /// As `allocate`. Where the file system can't be asked for blocks, zeros are written, and `progress` is
    /// given where that has come to.
    pub fn allocate_telling(
        &mut self,
        length: u64,
        progress: &mut dyn FnMut(u64),
    ) -> io::Result<()> {
        if !self.file.metadata()?.is_file() {
            return Ok(());
        }
        let before = self.length;
        let allocated = system::allocate(&self.file, length).and_then(|asked| match asked {
            true => Ok(()),
            false => self.fill(before, length, progress),
        });
        if let Err(error) = allocated {
            // Best effort; the failure is told anyway.
            let _ = self.file.set_len(before);
            return Err(error);
        }
        self.length = self.length.max(length);
        Ok(())
    }

    /// Writes zeros there. What a file has before them keeps its holes.
    fn fill(&self, start: u64, end: u64, progress: &mut dyn FnMut(u64)) -> io::Result<()> {
        const PIECE: usize = 1 << 20;
        let zeros = vec![0; PIECE];
        let mut at = start;
        while at < end {
            let count = (end - at).min(PIECE as u64) as usize;
            self.file.write_all_at(&zeros[..count], at)?;
            at += count as u64;
            progress(at);
        }
        Ok(())
    }
}

impl Disk {
    /// The first byte from this one on that may not be zero, or the length if there is none.
    pub fn next_data(&self, from: u64) -> u64 {
        let found = system::next_data(&self.file, from).unwrap_or(self.length);
        found.min(self.length)
    }
}

fn unlocked(attempt: Result<(), TryLockError>) -> io::Result<()> {
    attempt.map_err(|error| match error {
        TryLockError::WouldBlock => io::Error::new(
            io::ErrorKind::WouldBlock,
            "another program has it open; try again when that has ended",
        ),
        TryLockError::Error(error) => error,
    })
}

impl Device for Disk {
    fn length(&self) -> u64 {
        self.length
    }

    fn read(&self, first: u64, into: &mut [u8]) -> io::Result<()> {
        read_sectors(&self.file, self.length, first, into)
    }

    /// One positioned write. One that a signal interrupts is taken up again.
    fn write(&mut self, first: u64, contents: &[u8]) -> io::Result<()> {
        let (start, _) = span(first, contents.len(), self.length)?;
        self.file.write_all_at(contents, start)
    }

    /// An fdatasync.
    fn barrier(&mut self) -> io::Result<()> {
        self.file.sync_data()
    }

    /// The system's pages of the file. Those of a device below it, as of a loop device's file, stay.
    fn forget(&mut self) {
        system::forget_pages(&self.file);
    }

    fn reader(&self) -> Option<Box<dyn Reader>> {
        let (file, length) = (self.file.clone(), self.length);
        Some(Box::new(DiskReader { file, length }))
    }
}

/// Reads the file or block device of a `Disk`.
#[derive(Debug)]
struct DiskReader {
    file: Arc<File>,
    length: u64,
}

impl Reader for DiskReader {
    fn read(&self, first: u64, into: &mut [u8]) -> io::Result<()> {
        read_sectors(&self.file, self.length, first, into)
    }
}

/// Positioned reads until all of it is there. One that a signal interrupts is taken up again; a file
/// that was made shorter since it was opened gives an error.
fn read_sectors(file: &File, length: u64, first: u64, into: &mut [u8]) -> io::Result<()> {
    let (start, _) = span(first, into.len(), length)?;
    file.read_exact_at(into, start)
        .map_err(|error| match error.kind() {
            io::ErrorKind::UnexpectedEof => past_the_end(),
            _ => error,
        })
}
