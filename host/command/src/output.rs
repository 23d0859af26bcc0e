//! What a command writes beside the card: the standard output, and files, which are on the medium with
//! their entry in the folder when the command has ended.

use std::ffi::OsStr;
use std::fs::{self, File, FileTimes, Metadata, OpenOptions, Permissions};
use std::io::{self, ErrorKind, Seek, SeekFrom, Write};
use std::os::unix::fs::{fchown, MetadataExt, PermissionsExt};
use std::path::{Path, PathBuf};
use std::process;
use std::time::{Duration, UNIX_EPOCH};

use goofs::image::Entry;

use crate::failure::{of_file, Failure};
use crate::text::time;

/// As many links in a row as the system follows.
const LINKS: usize = 40;

/// Prints to the standard output, which may be closed or full.
pub fn print(text: &str) -> Result<(), Failure> {
    print_bytes(text.as_bytes())
}

pub fn print_bytes(bytes: &[u8]) -> Result<(), Failure> {
    let mut out = io::stdout().lock();
    out.write_all(bytes)
        .and_then(|()| out.flush())
        .map_err(Failure::Output)
}

/// To the standard error, if that can be written: there is no other place to say that it can't.
pub fn print_error(text: &str) {
    let _ = io::stderr().write_all(text.as_bytes());
}

/// What a copy keeps of a file on the card.
#[derive(Clone, Copy)]
pub struct Kept {
    change_time: u64,
    access_time: u64,
    mode: u32,
}

impl Kept {
    pub fn of(file: &Entry) -> Kept {
        Kept {
            change_time: file.change_time,
            access_time: file.access_time,
            // Who may read, write and run it; what else a mode may say has no meaning on a card.
            mode: file.mode & 0o777,
        }
    }

    /// Sets it, and makes sure of the time: some disks store another than they are given.
    fn set(self, file: &File) -> io::Result<()> {
        file.set_permissions(Permissions::from_mode(self.mode))?;
        let at = |seconds| UNIX_EPOCH.checked_add(Duration::from_secs(seconds));
        let set =
            at(self.change_time)
                .zip(at(self.access_time))
                .is_some_and(|(changed, accessed)| {
                    let times = FileTimes::new()
                        .set_modified(changed)
                        .set_accessed(accessed);
                    let now = file.set_times(times).and_then(|()| file.metadata());
                    now.and_then(|now| now.modified())
                        .is_ok_and(|now| now == changed)
                });
        match set {
            true => Ok(()),
            false => Err(io::Error::new(
                NOT_KEPT,
                format!(
                    "its disk does not store the time {}",
                    time(self.change_time)
                ),
            )),
        }
    }
}

/// A time that can't be kept.
pub const NOT_KEPT: ErrorKind = ErrorKind::InvalidData;

/// As `save`, but nothing may stand there, and the caller syncs the folder when all files are in it.
pub fn save_new(path: &OsStr, contents: &[u8], kept: Option<Kept>) -> Result<(), Failure> {
    replace(Path::new(path), None, contents, kept).map_err(of_file(path))
}

/// Writes the contents to a file. They are written beside it first and take its name when they are
/// on the medium: until then, what stood there stays.
pub fn save(path: &OsStr, contents: &[u8], kept: Option<Kept>) -> Result<(), Failure> {
    let old = match fs::metadata(path) {
        Err(error) if error.kind() == ErrorKind::NotFound => None,
        old => Some(old.map_err(of_file(path))?),
    };
    if old.as_ref().is_none_or(Metadata::is_file) {
        return linked(path)
            .and_then(|file| {
                replace(&file, old.as_ref(), contents, kept)?;
                sync_folder(&file)
            })
            .map_err(of_file(path));
    }
    // A terminal, a pipe or a device.
    if kept.is_some() {
        let error = io::Error::new(NOT_KEPT, "it is no file, and keeps no time");
        return Err(of_file(path)(error));
    }
    let mut file = OpenOptions::new()
        .write(true)
        .open(path)
        .map_err(of_file(path))?;
    file.write_all(contents)
        .map_err(|error| Failure::Incomplete {
            file: path.to_owned(),
            error,
        })
}

/// The file itself if this is a link, also a link to a file that isn't there yet.
fn linked(path: &OsStr) -> io::Result<PathBuf> {
    let mut path = PathBuf::from(path);
    for _ in 0..LINKS {
        match fs::symlink_metadata(&path) {
            Ok(metadata) if metadata.is_symlink() => {
                let target = fs::read_link(&path)?;
                path = folder_of(&path).join(target);
            }
            _ => return Ok(path),
        }
    }
    Err(io::Error::other("too many links one after the other"))
}

fn replace(
    path: &Path,
    old: Option<&Metadata>,
    contents: &[u8],
    kept: Option<Kept>,
) -> io::Result<()> {
    if old.is_some() {
        // A file that may not be written to must not be replaced either.
        OpenOptions::new().write(true).open(path)?;
    }
    let (mut file, beside) = new_beside(path)?;
    let written = file
        .write_all(contents)
        .and_then(|()| old.map_or(Ok(()), |old| like(&file, old)))
        .and_then(|()| kept.map_or(Ok(()), |kept| kept.set(&file)))
        .and_then(|()| file.sync_all())
        .and_then(
            |()| match old.is_none() && fs::symlink_metadata(path).is_ok() {
                // It came there meanwhile, or is the same name for this file system.
                true => Err(ErrorKind::AlreadyExists.into()),
                false => fs::rename(&beside, path),
            },
        );
    if written.is_err() {
        // Best effort; the failure is reported anyway.
        let _ = fs::remove_file(&beside);
    }
    written
}

/// A new file in the same folder, so that it can take the other's name.
fn new_beside(path: &Path) -> io::Result<(File, PathBuf)> {
    let mut number = 0;
    loop {
        let name = format!(".goofs-{}-{number}", process::id());
        let beside = folder_of(path).join(name);
        match File::create_new(&beside) {
            // One that a program with this number has left behind.
            Err(error) if error.kind() == ErrorKind::AlreadyExists => number += 1,
            other => return Ok((other?, beside)),
        }
    }
}

/// Who may use the new file is as it was for the old one.
fn like(file: &File, old: &Metadata) -> io::Result<()> {
    let new = file.metadata()?;
    if (new.uid(), new.gid()) != (old.uid(), old.gid()) {
        // Only root may do this; for others the file becomes their own.
        let _ = fchown(file, Some(old.uid()), Some(old.gid()));
    }
    match new.mode() == old.mode() {
        true => Ok(()),
        false => file.set_permissions(old.permissions()),
    }
}

/// Writes an image of this length, which is read piece by piece, to a file that must be new. Runs of zeros
/// become holes. If it fails, the file is removed.
pub fn save_image(
    path: &OsStr,
    length: u64,
    read: impl Fn(u64, &mut [u8]) -> Result<(), Failure>,
    progress: &mut dyn FnMut(u64),
) -> Result<(), Failure> {
    const PIECE: u64 = 1 << 20;
    let of_path = of_file(path);
    let mut file = File::create_new(path).map_err(&of_path)?;
    let mut piece = vec![0; length.min(PIECE) as usize];
    let mut fill = || {
        let mut start = 0;
        while start < length {
            let piece = &mut piece[..(length - start).min(PIECE) as usize];
            read(start, piece)?;
            if piece.iter().any(|byte| *byte != 0) {
                file.seek(SeekFrom::Start(start)).map_err(&of_path)?;
                file.write_all(piece).map_err(&of_path)?;
            }
            start += piece.len() as u64;
            progress(start);
        }
        file.set_len(length)
            .and_then(|()| file.sync_all())
            .and_then(|()| sync_folder(Path::new(path)))
            .map_err(&of_path)
    };
    let filled = fill();
    if filled.is_err() {
        // Best effort; the failure is reported anyway.
        let _ = fs::remove_file(path);
    }
    filled
}

/// Without this, a power failure could take away a new file whose bytes are on the medium.
pub fn sync_folder(path: &Path) -> io::Result<()> {
    File::open(folder_of(path))?.sync_all()
}

/// The folder that a file stands in.
pub fn folder_of(path: &Path) -> &Path {
    match path.parent() {
        Some(folder) if folder != Path::new("") => folder,
        Some(_) => Path::new("."),
        None => Path::new("/"),
    }
}
