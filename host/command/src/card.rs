//! Opening cards under their lock.

use std::ffi::OsStr;
use std::fs::{self, File, Metadata, OpenOptions};
use std::io::{self, ErrorKind};
use std::os::unix::fs::{FileTypeExt, MetadataExt, OpenOptionsExt};
use std::path::Path;
use std::thread;
use std::time::{Duration, Instant};

use goofs::device::Disk;
use goofs::image::Image;
use goofs::volume::Volume;

use crate::failure::{of_card, of_opening, Failure};
use crate::progress::Progress;

/// On a block device this keeps a mounted one from being opened. Linux has this number on most
/// machines; where it has another, nothing is asked for.
const O_EXCL: i32 = match cfg!(all(
    target_os = "linux",
    any(
        target_arch = "x86_64",
        target_arch = "aarch64",
        target_arch = "riscv64"
    )
)) {
    true => 0o200,
    false => 0,
};

/// How long to wait before a lock is tried again.
const PAUSE: Duration = Duration::from_millis(20);

/// Whether it is a block device. Anything but that and a file is refused before it is opened, as
/// opening a pipe would wait for ever.
fn is_block_device(card: &OsStr) -> io::Result<bool> {
    let kind = fs::metadata(card)?.file_type();
    if !kind.is_file() && !kind.is_block_device() {
        return Err(io::Error::new(
            ErrorKind::InvalidInput,
            "it is neither an image file nor a block device",
        ));
    }
    Ok(kind.is_block_device())
}

/// Whether the name can only be that of a device.
pub fn is_device_name(card: &OsStr) -> bool {
    let path = Path::new(card);
    path.starts_with("/dev") && !path.starts_with("/dev/shm")
}

/// The volume, under a lock that other readers share.
pub fn read(card: &OsStr, wait: Duration) -> Result<Image, Failure> {
    let disk = shared(card, wait)?;
    let mut progress = loading();
    Image::load_telling(&disk, &mut |done, all| progress.of(done, all)).map_err(of_card(card))
}

/// All of the volume in memory, for the second program, which takes whole images.
pub fn whole(card: &OsStr, wait: Duration) -> Result<Image, Failure> {
    let disk = shared(card, wait)?;
    let mut progress = loading();
    Image::load_whole(&disk, &mut |done, all| progress.of(done, all)).map_err(of_card(card))
}

fn shared(card: &OsStr, wait: Duration) -> Result<Disk, Failure> {
    let open = || {
        is_block_device(card)?;
        File::open(card)
    };
    locked(card, wait, &open, Disk::shared)
}

/// Whether the system says that a block device can't be written to. It may be opened all the same,
/// and then the first write would fail.
fn is_write_protected(device: &OsStr) -> bool {
    let number = fs::metadata(device).map_or(0, |metadata| metadata.rdev());
    let major = number >> 8 & 0xfff | number >> 32 & !0xfff;
    let minor = number & 0xff | number >> 12 & !0xff;
    fs::read_to_string(format!("/sys/dev/block/{major}:{minor}/ro"))
        .is_ok_and(|text| text.trim() == "1")
}

/// The card for changes; no one else has it then.
pub fn exclusive(card: &OsStr, wait: Duration) -> Result<Disk, Failure> {
    let open = || {
        let is_device = is_block_device(card)?;
        if is_device && is_write_protected(card) {
            return Err(io::Error::new(
                ErrorKind::ReadOnlyFilesystem,
                "it is write-protected",
            ));
        }
        let flags = if is_device { O_EXCL } else { 0 };
        OpenOptions::new()
            .read(true)
            .write(true)
            .custom_flags(flags)
            .open(card)
    };
    locked(card, wait, &open, Disk::exclusive)
}

/// Opens the card and locks it. While another program has it, this is tried again for so long.
fn locked(
    card: &OsStr,
    wait: Duration,
    open: &dyn Fn() -> io::Result<File>,
    lock: fn(File) -> io::Result<Disk>,
) -> Result<Disk, Failure> {
    let start = Instant::now();
    let mut progress = Progress::new("seconds waited for another program", wait.as_secs());
    loop {
        let attempt = open().and_then(|file| {
            let opened = file.metadata()?;
            let disk = lock(file)?;
            // The file may have been replaced or removed before the lock was free.
            match is_same(&opened, &fs::metadata(card)?) {
                true => Ok(disk),
                false => Err(ErrorKind::WouldBlock.into()),
            }
        });
        let waited = start.elapsed();
        match attempt {
            Err(error) if is_in_use(&error) && waited < wait => {
                progress.at(waited.as_secs());
                thread::sleep(PAUSE);
            }
            other => return other.map_err(of_opening(card)),
        }
    }
}

/// A block device that is open for changes elsewhere can't even be opened.
fn is_in_use(error: &io::Error) -> bool {
    matches!(
        error.kind(),
        ErrorKind::WouldBlock | ErrorKind::ResourceBusy
    )
}

/// Whether both are of one file.
pub fn is_same(one: &Metadata, other: &Metadata) -> bool {
    (one.dev(), one.ino()) == (other.dev(), other.ino())
}

/// How much of a volume is read when it is opened, from a slow card.
fn loading() -> Progress {
    Progress::new("bytes of the volume read", 0)
}

/// The volume for changes.
pub fn volume(card: &OsStr, wait: Duration) -> Result<Volume<Disk>, Failure> {
    let disk = exclusive(card, wait)?;
    let mut progress = loading();
    Volume::open_telling(disk, &mut |done, all| progress.of(done, all)).map_err(of_card(card))
}
