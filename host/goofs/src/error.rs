//! Why a call was refused or a change did not go through: the numbers 1 to 14 and the faults 21 to
//! 26 as enums, with a sentence for each, and the errors of a volume on a device.

use std::fmt;
use std::io;

use crate::names::SAVING;

/// A refusal of the volume code. It never comes with a changed byte.
#[derive(Clone, Copy, Debug, PartialEq, Eq)]
pub enum Refusal {
    NotWholeSectors,
    NotAVolume,
    OutOfBounds,
    Unfinished,
    Waiting,
    Damaged,
    NotSound(Fault),
    BadArgument,
    NotThere,
    AlreadyThere,
    DirectoryFull,
    PastTheEnd,
    /// An extent is needed, and no more are free than must stay free; or fewer are free than must stay
    /// free (see `Image::is_frozen`), and there is something to change.
    NoRoom,
    BufferTooShort,
}

impl Refusal {
    /// The refusal that a call's numbers stand for; none for 0.
    pub(crate) fn judge(code: u64, fault: u64, place: u64) -> Result<(), Refusal> {
        Err(match code {
            0 => return Ok(()),
            1 => Refusal::NotWholeSectors,
            2 => Refusal::NotAVolume,
            3 => Refusal::OutOfBounds,
            4 => Refusal::Unfinished,
            5 => Refusal::Waiting,
            6 => Refusal::Damaged,
            7 => Refusal::NotSound(Fault::new(fault, place)),
            8 => Refusal::BadArgument,
            9 => Refusal::NotThere,
            10 => Refusal::AlreadyThere,
            11 => Refusal::DirectoryFull,
            12 => Refusal::PastTheEnd,
            13 => Refusal::NoRoom,
            14 => Refusal::BufferTooShort,
            _ => unreachable!("the volume code is proved to give 0 to 14"),
        })
    }

    /// The number of the refusal, 1 to 14.
    pub fn number(self) -> u64 {
        match self {
            Refusal::NotWholeSectors => 1,
            Refusal::NotAVolume => 2,
            Refusal::OutOfBounds => 3,
            Refusal::Unfinished => 4,
            Refusal::Waiting => 5,
            Refusal::Damaged => 6,
            Refusal::NotSound(_) => 7,
            Refusal::BadArgument => 8,
            Refusal::NotThere => 9,
            Refusal::AlreadyThere => 10,
            Refusal::DirectoryFull => 11,
            Refusal::PastTheEnd => 12,
            Refusal::NoRoom => 13,
            Refusal::BufferTooShort => 14,
        }
    }
}

impl fmt::Display for Refusal {
    fn fmt(&self, f: &mut fmt::Formatter) -> fmt::Result {
        f.write_str(match self {
            Refusal::NotWholeSectors => "the image is empty or not whole sectors of 512 bytes",
            Refusal::NotAVolume => "there is no volume of this format and version",
            Refusal::OutOfBounds => {
                "the volume's geometry is out of bounds, or the volume is longer than its medium"
            }
            Refusal::Unfinished => "a format was cut short and the volume is unfinished",
            Refusal::Waiting => "a change was cut short and waits to be finished",
            Refusal::Damaged => "the volume's journal is damaged",
            Refusal::NotSound(fault) => return write!(f, "the volume is not sound: {fault}"),
            Refusal::BadArgument => "an argument is out of its bounds",
            Refusal::NotThere => "there is no file of this name",
            Refusal::AlreadyThere => "the name or the id is already in use",
            Refusal::DirectoryFull => "the directory has no free entry",
            Refusal::PastTheEnd => "the offset is greater than the file's size",
            Refusal::NoRoom => "too few extents are free",
            Refusal::BufferTooShort => "the lent buffer is too short for the answer",
        })
    }
}

impl std::error::Error for Refusal {}

/// A fault of a volume that is not sound, and where it is.
#[derive(Clone, Copy, Debug, PartialEq, Eq)]
pub struct Fault {
    pub kind: FaultKind,
    /// An extent for `TableEntry`, else the index of a directory entry.
    pub place: u64,
}

#[derive(Clone, Copy, Debug, PartialEq, Eq)]
pub enum FaultKind {
    Mark,
    NameOrSize,
    SameName,
    Id,
    TableEntry,
    Extents,
}

impl Fault {
    fn new(number: u64, place: u64) -> Fault {
        let kind = match number {
            21 => FaultKind::Mark,
            22 => FaultKind::NameOrSize,
            23 => FaultKind::SameName,
            24 => FaultKind::Id,
            25 => FaultKind::TableEntry,
            26 => FaultKind::Extents,
            _ => unreachable!("the volume code is proved to give faults 21 to 26"),
        };
        Fault { kind, place }
    }

    /// What a repair leaves: none if the number is 0.
    pub(crate) fn remaining(number: u64, place: u64) -> Option<Fault> {
        (number != 0).then(|| Fault::new(number, place))
    }

    /// The number of the fault, 21 to 26.
    pub fn number(self) -> u64 {
        match self.kind {
            FaultKind::Mark => 21,
            FaultKind::NameOrSize => 22,
            FaultKind::SameName => 23,
            FaultKind::Id => 24,
            FaultKind::TableEntry => 25,
            FaultKind::Extents => 26,
        }
    }
}

impl fmt::Display for Fault {
    fn fmt(&self, f: &mut fmt::Formatter) -> fmt::Result {
        let (number, place) = (self.number(), self.place);
        match self.kind {
            FaultKind::Mark => write!(
                f,
                "fault {number}, directory entry {place} is marked neither free nor occupied"
            ),
            FaultKind::NameOrSize => write!(
                f,
                "fault {number}, directory entry {place} has a bad name or a size greater than the volume's data area"
            ),
            FaultKind::SameName => write!(
                f,
                "fault {number}, directory entry {place} has the name of an earlier entry"
            ),
            FaultKind::Id => write!(
                f,
                "fault {number}, directory entry {place} has id 0, the root's id or that of an earlier entry"
            ),
            FaultKind::TableEntry => write!(
                f,
                "fault {number}, the allocation table gives extent {place} to a file that is not there"
            ),
            FaultKind::Extents => write!(
                f,
                "fault {number}, the file in directory entry {place} has too few, too many or doubled extents"
            ),
        }
    }
}

/// What can go wrong with a volume on a device.
#[derive(Debug)]
pub enum Error {
    /// The volume code refused. Nothing was written.
    Refused(Refusal),
    /// What is to be held does not go into memory: a file, or a volume of a device that has no reader, or
    /// of one that has the sectors before its data area. Nothing was written. The longest format has some
    /// 2^56 bytes, more than a process has addresses.
    TooLarge { bytes: u64 },
    /// The device has fewer bytes than the format asks for. Nothing was written.
    DeviceTooShort { needed: u64, present: u64 },
    /// The device could not be read. The changes before are done; nothing was written of others.
    Unreadable {
        changes_done: usize,
        cause: io::Error,
    },
    /// A write or barrier failed when the volume was opened, so it isn't known whether what the device
    /// shows is on the medium. No byte was changed.
    Unsettled(io::Error),
    /// A name that a file has only while it is saved (see `names`). Nothing was written.
    NameBeside,
    /// The caller stopped between two changes. These are done; nothing was written of the others.
    Stopped { changes_done: usize },
    /// The log could not be written, so the call was not begun. The changes before it are done.
    Unlogged {
        changes_done: usize,
        cause: io::Error,
    },
    /// A write or a barrier failed in the middle of a list.
    Interrupted(Interrupted),
    /// An earlier change was interrupted, so what stands on the device isn't known here any more.
    OpenAgain,
}

/// How far a list came before its device failed. What the volume is then, recovery decides.
#[derive(Debug)]
pub struct Interrupted {
    /// Sector writes of the list.
    pub writes: u64,
    /// Sector writes that passed a barrier: they are on the medium.
    pub landed: u64,
    /// Sector writes after those that were sent to the device, the one that failed among them. Each
    /// may be on the medium or not.
    pub sent: u64,
    /// The changes before this one that went through whole.
    pub changes_done: usize,
    pub cause: io::Error,
}

impl Error {
    /// Of a device that could not be read, before any change.
    pub fn unreadable(cause: io::Error) -> Error {
        Error::Unreadable {
            changes_done: 0,
            cause,
        }
    }

    /// The refusal, if it is one.
    pub fn refusal(&self) -> Option<Refusal> {
        match self {
            Error::Refused(refusal) => Some(*refusal),
            _ => None,
        }
    }

    /// The same when so many changes are done.
    pub(crate) fn after(self, changes_done: usize) -> Error {
        match self {
            Error::Unreadable { cause, .. } => Error::Unreadable {
                changes_done,
                cause,
            },
            other => other,
        }
    }
}

impl fmt::Display for Error {
    fn fmt(&self, f: &mut fmt::Formatter) -> fmt::Result {
        match self {
            Error::Refused(refusal) => refusal.fmt(f),
            Error::TooLarge { bytes } => write!(
                f,
                "{bytes} bytes are to be held, and this system has no memory or addresses for so many"
            ),
            Error::DeviceTooShort { needed, present } => write!(
                f,
                "the medium has {present} bytes and the format needs {needed}"
            ),
            Error::Unreadable {
                changes_done: 0,
                cause,
            } => write!(f, "the medium could not be read: {cause}"),
            Error::Unreadable {
                changes_done,
                cause,
            } => write!(
                f,
                "the medium could not be read: {cause}; {changes_done} changes before went through whole"
            ),
            Error::Unsettled(cause) => write!(
                f,
                "the medium failed at the opening ({cause}), so it is not known what stands on it"
            ),
            Error::NameBeside => write!(
                f,
                "names that end in {SAVING} are for files while they are saved"
            ),
            Error::Stopped { changes_done } => {
                write!(f, "stopped after {changes_done} changes, each done whole")
            }
            Error::Unlogged {
                changes_done,
                cause,
            } => write!(
                f,
                "the log could not be written ({cause}), so the change was not begun; \
                 {changes_done} changes before went through whole"
            ),
            Error::Interrupted(cut) => write!(
                f,
                "the medium failed ({}): of {} sector writes {} are on it, {} more may be; \
                 {} changes before went through whole",
                cut.cause, cut.writes, cut.landed, cut.sent, cut.changes_done
            ),
            Error::OpenAgain => f.write_str("a change was interrupted: open the volume again"),
        }
    }
}

impl std::error::Error for Error {
    fn source(&self) -> Option<&(dyn std::error::Error + 'static)> {
        match self {
            Error::Refused(refusal) => Some(refusal),
            Error::Unsettled(cause) => Some(cause),
            Error::Unreadable { cause, .. } | Error::Unlogged { cause, .. } => Some(cause),
            Error::Interrupted(cut) => Some(&cut.cause),
            _ => None,
        }
    }
}

impl From<Refusal> for Error {
    fn from(refusal: Refusal) -> Error {
        Error::Refused(refusal)
    }
}
