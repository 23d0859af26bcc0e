//! What is asked of the system and the standard library has no function for: to forget what it keeps
//! of a file in memory, to give a file its blocks, where its holes end, and what a signal does. The numbers are those of the
//! systems in `KNOWN`; elsewhere nothing is asked.

use std::ffi::c_int;
use std::fs::File;
use std::io;
use std::os::fd::AsRawFd;
use std::os::unix::fs::MetadataExt;
use std::ptr::null_mut;
use std::sync::atomic::{AtomicI32, Ordering};

const KNOWN: bool = cfg!(all(
    target_os = "linux",
    any(
        target_arch = "x86_64",
        target_arch = "aarch64",
        target_arch = "riscv64"
    )
));
const POSIX_FADV_DONTNEED: c_int = 4;
const SEEK_DATA: c_int = 3;
const EINTR: c_int = 4;
/// There is no byte behind this place that is not in a hole.
const ENXIO: i32 = 6;
const ENOSPC: c_int = 28;
const EOPNOTSUPP: c_int = 95;
const SIGHUP: c_int = 1;
const SIGINT: c_int = 2;
const SIGTERM: c_int = 15;
const SIGXFSZ: c_int = 25;
/// Handlers that are no functions: what the system does by itself, and nothing.
const SIG_DFL: usize = 0;
const SIG_IGN: usize = 1;

extern "C" {
    fn posix_fadvise(file: c_int, offset: i64, length: i64, advice: c_int) -> c_int;
    fn posix_fallocate(file: c_int, offset: i64, length: i64) -> c_int;
    fn lseek(file: c_int, offset: i64, whence: c_int) -> i64;
    fn fstatvfs(file: c_int, about: *mut FileSystem) -> c_int;
    fn signal(number: c_int, handler: usize) -> usize;
    fn raise(number: c_int) -> c_int;
    fn pthread_sigmask(how: c_int, set: *const SignalSet, before: *mut SignalSet) -> c_int;
}

/// A bit for each signal, as the C libraries have it.
type SignalSet = [u64; 16];
const SIG_BLOCK: c_int = 0;
const SIG_UNBLOCK: c_int = 1;

/// Asks the system to forget the pages of this file that it has no more to write, so that they are
/// read from the medium again. It need not do so.
pub(crate) fn forget_pages(file: &File) {
    if KNOWN {
        // An advice: whether it was taken can't be told, and nothing may rest on it.
        unsafe { posix_fadvise(file.as_raw_fd(), 0, 0, POSIX_FADV_DONTNEED) };
    }
}

/// What the system says of the file system that a file is on. The C libraries have more behind it.
#[repr(C)]
struct FileSystem {
    block_bytes: u64,
    fragment_bytes: u64,
    /// These are counted in fragments.
    blocks: u64,
    free: u64,
    free_for_users: u64,
    more: [u64; 16],
}

/// How many bytes the file's disk has left for it, if the system knows.
fn free_bytes(file: &File) -> Option<u64> {
    let mut about = FileSystem {
        block_bytes: 0,
        fragment_bytes: 0,
        blocks: 0,
        free: 0,
        free_for_users: 0,
        more: [0; 16],
    };
    let told = unsafe { fstatvfs(file.as_raw_fd(), &mut about) } == 0;
    // A file system without a bound has no blocks.
    (told && about.blocks > 0).then(|| about.free_for_users.saturating_mul(about.fragment_bytes))
}

/// Gives the first bytes of a file their blocks on the disk; a shorter file becomes so long. Gives
/// whether the system could be asked for it. It is not asked for more than there is: it would take all
/// there is before it fails.
pub(crate) fn allocate(file: &File, length: u64) -> io::Result<bool> {
    let Ok(length) = i64::try_from(length) else {
        return Err(io::ErrorKind::FileTooLarge.into());
    };
    if !KNOWN {
        return Ok(false);
    }
    let missing = (length as u64).saturating_sub(file.metadata()?.blocks() * 512);
    if free_bytes(file).is_some_and(|free| free < missing) {
        return Err(io::Error::from_raw_os_error(ENOSPC));
    }
    loop {
        match unsafe { posix_fallocate(file.as_raw_fd(), 0, length) } {
            0 => return Ok(true),
            EINTR => {}
            EOPNOTSUPP => return Ok(false),
            error => return Err(io::Error::from_raw_os_error(error)),
        }
    }
}

/// Where the next byte of a file stands that is not in a hole; none if there is no such byte. Where the
/// system does not say, every byte counts. The file's position changes.
pub(crate) fn next_data(file: &File, from: u64) -> Option<u64> {
    if !KNOWN {
        return Some(from);
    }
    let offset = i64::try_from(from).ok()?;
    let found = unsafe { lseek(file.as_raw_fd(), offset, SEEK_DATA) };
    match u64::try_from(found) {
        Ok(found) => Some(found),
        Err(_) if io::Error::last_os_error().raw_os_error() == Some(ENXIO) => None,
        Err(_) => Some(from),
    }
}

/// From now on a write past the length that files may have here is an error of that write. Otherwise
/// it would end the program by a signal.
pub fn report_long_files() {
    if KNOWN {
        unsafe { signal(SIGXFSZ, SIG_IGN) };
    }
}

/// The signals by which programs are asked to end: the terminal is gone, Ctrl-C, `kill`.
const ENDING: [c_int; 3] = [SIGHUP, SIGINT, SIGTERM];

/// The last of these signals that came while they were held; 0 for none.
static CAME: AtomicI32 = AtomicI32::new(0);

/// Only what is allowed in a signal's handler: an atomic store.
extern "C" fn note(number: c_int) {
    CAME.store(number, Ordering::SeqCst);
}

/// While it lives, the signals that ask the program to end are noted only, so that a list that was
/// begun is carried out to its end. One that the program was started to ignore stays ignored.
pub struct Held {
    before: [usize; ENDING.len()],
}

impl Held {
    #[allow(clippy::new_without_default)] // it acts
    pub fn new() -> Held {
        Held {
            before: ENDING.map(|number| {
                if !KNOWN {
                    return SIG_DFL;
                }
                let before = unsafe { signal(number, note as *const () as usize) };
                if before == SIG_IGN {
                    unsafe { signal(number, SIG_IGN) };
                }
                before
            }),
        }
    }
}

impl Drop for Held {
    fn drop(&mut self) {
        for (number, before) in ENDING.into_iter().zip(self.before) {
            if KNOWN {
                unsafe { signal(number, before) };
            }
        }
    }
}

fn mask(how: c_int) {
    let mut set: SignalSet = [0; 16];
    for number in ENDING {
        set[0] |= 1 << (number - 1);
    }
    if KNOWN {
        // It can't fail with these arguments.
        unsafe { pthread_sigmask(how, &set, null_mut()) };
    }
}

/// From now on the signals that ask the program to end come to the other threads, so that one who
/// works gets a signal at once. For a thread that only waits for them; those that it starts afterwards
/// take them by `take_signals`.
pub fn leave_signals_to_others() {
    mask(SIG_BLOCK);
}

/// From now on this thread gets the signals that ask the program to end.
pub fn take_signals() {
    mask(SIG_UNBLOCK);
}

/// Whether a signal that was held asked the program to end.
pub fn asked_to_end() -> bool {
    CAME.load(Ordering::SeqCst) != 0
}

/// Ends the program by the signal that was held, as it would have ended it; if none came, goes on.
pub fn end_as_asked() {
    take_signals();
    let number = CAME.swap(0, Ordering::SeqCst);
    if number != 0 {
        unsafe {
            signal(number, SIG_DFL);
            raise(number);
        }
    }
}
