//! How a command fails: what happened, with the number of a refusal, and what to do next.

use std::ffi::{OsStr, OsString};
use std::fmt;
use std::io::{self, ErrorKind};
use std::os::unix::ffi::OsStrExt;

use goofs::change::Rename;
use goofs::error::{Error, Fault, FaultKind, Refusal};
use goofs::image::{Edition, Image, Summary};
use goofs::names;

use crate::card::is_device_name;
use crate::output::NOT_KEPT;
use crate::space::Space;
use crate::text::word;

#[derive(Debug)]
pub enum Failure {
    /// The words were not understood.
    Usage(String),
    /// The card could not be opened.
    Open { card: OsString, error: io::Error },
    /// The volume code or the medium, for this card.
    Card {
        card: OsString,
        error: Error,
        detail: Option<Detail>,
    },
    /// What a volume was found to be after a recovery, which may have changed it.
    Judged { card: OsString, refusal: Refusal },
    /// What remains after a repair, which may have changed it.
    NotMended { card: OsString, fault: Fault },
    /// A file beside the card.
    File { file: OsString, error: io::Error },
    /// A device, pipe or terminal that could not be written to the end.
    Incomplete { file: OsString, error: io::Error },
    /// The standard output.
    Output(io::Error),
    /// One of several, and a sentence or more on what became of the others.
    Partly {
        failure: Box<Failure>,
        others: String,
    },
    /// Anything else, as a sentence.
    Other(String),
}

/// More than a refusal itself says.
#[derive(Debug)]
pub struct Detail {
    pub what: String,
    /// In the place of the refusal's own advice.
    pub next: Option<String>,
}

impl Detail {
    fn new(what: String) -> Detail {
        Detail { what, next: None }
    }

    pub fn with_next(what: String, next: &str) -> Detail {
        Detail {
            what,
            next: Some(next.to_string()),
        }
    }
}

impl Failure {
    pub fn status(&self) -> u8 {
        match self {
            Failure::Usage(_) => 2,
            Failure::Partly { failure, .. } => failure.status(),
            _ => 1,
        }
    }

    /// The failure of a command that has set access times before.
    pub fn after_touch(self) -> Failure {
        const NOTHING: &str = "Nothing was changed on the card.";
        let text = self.to_string();
        match text.contains(NOTHING) {
            true => Failure::Other(text.replace(
                NOTHING,
                "On the card the access times were set, and nothing else was changed.",
            )),
            false => self,
        }
    }

    /// The failure of one of several.
    pub fn beside_others(self, others: String) -> Failure {
        match others.is_empty() {
            true => self,
            false => Failure::Partly {
                failure: Box::new(self),
                others,
            },
        }
    }

    /// Where a command's words were not understood, the first lines of its help are shown.
    pub fn with_usage(self, command: &str, help: &str) -> Failure {
        match self {
            Failure::Usage(text) => {
                let usage = help.split("\n\n").next().unwrap_or_default();
                Failure::Usage(format!(
                    "{text}. Nothing was changed.\n\n{usage}\n\nNext: goofs {command} --help shows more."
                ))
            }
            other => other,
        }
    }
}

/// Makes failures of a card that can't be opened.
pub fn of_opening(card: &OsStr) -> impl Fn(io::Error) -> Failure + '_ {
    move |error| Failure::Open {
        card: card.to_owned(),
        error,
    }
}

/// Makes failures of a card.
pub fn of_card<E: Into<Error>>(card: &OsStr) -> impl Fn(E) -> Failure + '_ {
    move |error| Failure::Card {
        card: card.to_owned(),
        error: error.into(),
        detail: None,
    }
}

/// Makes failures of a call with the name of a file that is to be there.
pub fn of_call<'c, E: Into<Error>>(
    card: &'c OsStr,
    name: &'c [u8],
    edition: Edition,
) -> impl Fn(E) -> Failure + 'c {
    move |error| {
        let error = error.into();
        let detail = match &error {
            Error::Refused(Refusal::BadArgument) => bad_length("the name", name, edition),
            Error::Refused(Refusal::NotThere) => {
                Some(Detail::new(format!("the name was {}", word(name))))
            }
            _ => None,
        };
        Failure::Card {
            card: card.to_owned(),
            error,
            detail,
        }
    }
}

/// Makes failures of a file that is to be made with this name and, if one is given, this id.
/// `another` is how to give another name.
pub fn of_new<'c, E: Into<Error>>(
    card: &'c OsStr,
    name: &'c [u8],
    edition: Edition,
    id: Option<u64>,
    another: &'c str,
) -> impl Fn(E) -> Failure + 'c {
    move |error| {
        let error = error.into();
        let detail = match &error {
            Error::Refused(Refusal::BadArgument) => match id {
                Some(0) => Some(Detail::with_next(
                    "no file may have the id 0".to_string(),
                    "take another id, or leave --id out",
                )),
                _ => bad_new_name("the name", name, edition, another),
            },
            Error::Refused(Refusal::AlreadyThere) => Some(Detail::new(match id {
                Some(id) => format!("name {}, id {id}", word(name)),
                None => format!("name {}", word(name)),
            })),
            _ => None,
        };
        Failure::Card {
            card: card.to_owned(),
            error,
            detail,
        }
    }
}

/// Makes failures of a rename.
pub fn of_rename<'c, E: Into<Error>>(
    card: &'c OsStr,
    old: &'c [u8],
    new: &'c [u8],
    edition: Edition,
) -> impl Fn(E) -> Failure + 'c {
    move |error| match error.into() {
        error @ Error::Refused(Refusal::BadArgument) => Failure::Card {
            card: card.to_owned(),
            error,
            detail: bad_length("the old name", old, edition)
                .or_else(|| bad_new_name("the new name", new, edition, "take another NEW")),
        },
        error => of_call(card, old, edition)(error),
    }
}

/// Makes failures of renames in one change, and says which of them is refused.
pub fn of_renames<'c, E: Into<Error>>(
    card: &'c OsStr,
    image: &'c Image,
    renames: &'c [Rename<'c>],
    time: u64,
) -> impl Fn(E) -> Failure + 'c {
    move |error| match (error.into(), renames) {
        (error, [(old, new)]) => of_rename(card, old, new, image.summary().edition)(error),
        (error @ Error::Refused(Refusal::NoRoom), _) => of_large_set(card, error),
        (error, _) => match image.refused_rename(renames, time) {
            Some(place) if matches!(error, Error::Refused(_)) => {
                of_one_rename(card, image, renames, place, error)
            }
            _ => of_card(card)(error),
        },
    }
}

/// The failure of one of several renames. Those before it count as done.
fn of_one_rename(
    card: &OsStr,
    image: &Image,
    renames: &[Rename],
    place: usize,
    error: Error,
) -> Failure {
    let (old, new) = renames[place];
    let is_taken_away =
        matches!(error, Error::Refused(Refusal::NotThere)) && image.find(old).is_ok();
    let mut failure = of_rename(card, old, new, image.summary().edition)(error);
    if let Failure::Card { detail, .. } = &mut failure {
        let mut what = format!(
            "rename {} of {}, {} to {}",
            place + 1,
            renames.len(),
            word(old),
            word(new)
        );
        let mut next = None;
        if let Some(detail) = detail.take() {
            what = format!("{what}: {}", detail.what);
            next = detail.next;
        }
        if is_taken_away {
            what += "; the renames before it count as done, and take this name away";
            next =
                Some("see that each OLD is the name that its file has at that point".to_string());
        }
        *detail = Some(Detail { what, next });
    }
    failure
}

/// The failure of renames that change more sectors than the extents that must stay free have.
pub fn of_large_set(card: &OsStr, error: Error) -> Failure {
    Failure::Card {
        card: card.to_owned(),
        error,
        detail: Some(Detail::with_next(
            "the renames together change more sectors than the extents that must stay free hold copies of"
                .to_string(),
            "rename fewer files at once, or remove a file that is to be replaced first",
        )),
    }
}

/// How the files of a frozen volume get to another one. A larger card is needed: of an equal one some
/// extents must stay free, too.
pub fn to_a_larger_card(card: &str, old: Summary) -> String {
    let edition = match old.edition {
        Edition::First => "",
        Edition::Second => " --edition 2",
    };
    let files = match old.files {
        255 => String::new(),
        files => format!(" --files {files}"),
    };
    format!(
        "copy the files to a larger card: mkdir FOLDER; goofs get {card} NAME... --as FOLDER; \
         goofs format NEW{edition}{files}; goofs put NEW FOLDER/*"
    )
}

/// Makes the failure of a change of a frozen volume.
fn frozen(card: &OsStr, old: Summary) -> Failure {
    let next = to_a_larger_card(&quoted(card), old);
    Failure::Card {
        card: card.to_owned(),
        error: Refusal::NoRoom.into(),
        detail: Some(Detail::with_next(
            format!(
                "{} must stay free for any change, the removal of a file too; another program has filled \
                 the volume, or an older goofs",
                extents(old.reserve_extents())
            ),
            &format!("its files can still be read; {next}"),
        )),
    }
}

/// Makes failures of changes: of a frozen volume, or by `other`.
pub fn or_frozen<'c, E: Into<Error>>(
    card: &'c OsStr,
    space: Space,
    other: impl Fn(Error) -> Failure + 'c,
) -> impl Fn(E) -> Failure + 'c {
    move |error| match (error.into(), space.frozen) {
        (Error::Refused(Refusal::NoRoom), Some(old)) => frozen(card, old),
        (error, _) => other(error),
    }
}

/// So many extents, in words.
pub fn extents(count: u64) -> String {
    match count {
        1 => "1 extent".to_string(),
        _ => format!("{count} extents"),
    }
}

/// Makes the failure of a file that needs more extents than there are.
pub fn no_room(card: &OsStr, name: &[u8], space: Space) -> Failure {
    if let Some(old) = space.frozen {
        return frozen(card, old);
    }
    Failure::Card {
        card: card.to_owned(),
        error: Refusal::NoRoom.into(),
        detail: Some(Detail::new(format!("{}: {space}", word(name)))),
    }
}

/// How to write over an old file, and what that means. In place it keeps its id and mode.
pub fn in_place_instead(is_given: bool) -> String {
    let options = match is_given {
        true => " and leave --id and --mode out",
        false => "",
    };
    format!(
        "add --in-place{options}, which writes over the old file: then a cut of the power can leave a \
         part of the new bytes among the old ones"
    )
}

/// Makes the failure of a save for which there is no room, or no entry, beside the old file. `instead` is
/// how less is needed.
pub fn no_room_for_both(
    card: &OsStr,
    space: Space,
    refusal: Refusal,
    what: String,
    instead: &str,
) -> Failure {
    if let (Refusal::NoRoom, Some(old)) = (refusal, space.frozen) {
        return frozen(card, old);
    }
    let next = format!(
        "remove a file that is not needed (goofs rm {} NAME) and give the command again; or {instead}",
        quoted(card)
    );
    Failure::Card {
        card: card.to_owned(),
        error: refusal.into(),
        detail: Some(Detail::with_next(
            format!("{what} is saved beside the old file, and there is no room for both"),
            &next,
        )),
    }
}

/// A name that is no file's while nothing is saved.
pub fn not_beside(name: &[u8], next: &str) -> Result<(), Failure> {
    match names::is_beside(name) {
        true => Err(Failure::Other(format!(
            "{}: {}, and what a put that was cut has left so is removed by the next. Nothing was changed.\n\
             Next: {next}.",
            word(name),
            Error::NameBeside
        ))),
        false => Ok(()),
    }
}

/// The name's length, if that is out of bounds.
fn bad_length(what: &str, name: &[u8], edition: Edition) -> Option<Detail> {
    let longest = edition.longest_name();
    let length = match (name.len(), edition) {
        (0, _) => "is empty".to_string(),
        (bytes, _) if bytes <= longest => return None,
        (bytes, Edition::First) => format!("has {bytes} bytes"),
        (bytes, Edition::Second) => format!("has {bytes} bytes, on a volume of edition 2"),
    };
    Some(Detail::with_next(
        format!("{what} {length}"),
        &format!("take a name of 1 to {longest} bytes"),
    ))
}

/// What is wrong with a name that a file is to get.
fn bad_new_name(what: &str, name: &[u8], edition: Edition, next: &str) -> Option<Detail> {
    let untypable = || {
        let at = names::untypable(name)?;
        let byte = match name[at] {
            b' ' => "a space".to_string(),
            b'/' => "a slash".to_string(),
            byte => format!("the byte {byte}"),
        };
        Some(Detail::with_next(
            format!("{what} {} has {byte} at place {}", word(name), at + 1),
            &format!(
                "{next}; a new name has letters, digits and signs of ASCII only, without space and slash"
            ),
        ))
    };
    bad_length(what, name, edition).or_else(untypable)
}

/// Makes failures of a file.
pub fn of_file(file: &OsStr) -> impl Fn(io::Error) -> Failure + '_ {
    move |error| Failure::File {
        file: file.to_owned(),
        error,
    }
}

/// A sentence that names these files, if there are any.
pub fn of_names(what: &str, names: &[OsString]) -> Option<String> {
    let words: Vec<String> = names.iter().map(|name| word(name.as_bytes())).collect();
    (!words.is_empty()).then(|| format!("{what}: {}.", words.join(" ")))
}

/// What became of several files of which so many were done, in sentences that begin with these words.
pub fn of_several(names: &[OsString], done: usize, did: &str, did_not: &str) -> String {
    if names.len() < 2 {
        return String::new();
    }
    let (first, rest) = names.split_at(done.min(names.len()));
    let sentences = [of_names(did, first), of_names(did_not, rest)];
    Vec::from_iter(sentences.into_iter().flatten()).join("\n")
}

/// A path as a word for the shell, which no command takes for an option.
pub fn quoted(path: &OsStr) -> String {
    match path.as_bytes() {
        bytes @ [b'-', _, ..] => word(&[b"./", bytes].concat()),
        bytes => word(bytes),
    }
}

/// What a person can do after a refusal.
fn after_refusal(refusal: Refusal, card: &str) -> String {
    match refusal {
        Refusal::NotWholeSectors => {
            "see whether this is the right file and was copied whole; to make a volume: \
             goofs format --help"
                .to_string()
        }
        Refusal::NotAVolume => format!(
            "see whether this is the right card; to make an empty volume on it: goofs format {card}"
        ),
        Refusal::OutOfBounds => format!(
            "if this is a copy of a card, copy the whole card again; to make an empty volume on it: \
             goofs format {card} --yes"
        ),
        Refusal::Unfinished => format!("format again: goofs format {card} --yes"),
        Refusal::Waiting => format!("recover first: goofs recover {card}"),
        Refusal::Damaged => format!(
            "copy the files that are whole: goofs salvage {card} FOLDER. Keep a copy of the card \
             (dd if={card} of=COPY) if someone is to look at it; then goofs format {card} --yes, and put \
             the files back"
        ),
        Refusal::NotSound(fault) => {
            let next = match fault.kind {
                FaultKind::TableEntry | FaultKind::Extents => format!(
                    "Keep a copy of the card (dd if={card} of=COPY); then goofs repair {card}: it shows \
                     which extents belong to no file, asks, frees them, and says whether the volume is \
                     sound then. It does not bring back what a file lacks"
                ),
                _ => not_mended(card),
            };
            format!("no file is read or changed on a volume that is not sound. {next}")
        }
        Refusal::BadArgument => {
            "keep to the bounds: a new name has 1 to 476 letters, digits and signs of ASCII without \
             space and slash (to 468 on a volume of edition 2), an id is not 0, one write has at most \
             65536 bytes, a time on edition 1 is at most 4294967295; a format has 255 to 65535 files \
             and sectors for at least two extents"
                .to_string()
        }
        Refusal::NotThere => format!("see which names there are: goofs ls {card}"),
        Refusal::AlreadyThere => format!("see names and ids, and take others: goofs ls {card}"),
        Refusal::DirectoryFull => format!("remove a file first: goofs rm {card} NAME"),
        Refusal::PastTheEnd => format!("see the size, and start at or before it: goofs ls {card}"),
        Refusal::NoRoom => format!(
            "see how much is free: goofs info {card}; then remove or shrink a file: \
             goofs rm {card} NAME"
        ),
        Refusal::BufferTooShort => "please report this: it should not happen".to_string(),
    }
}

/// What a person can do about a fault that a repair leaves.
fn not_mended(card: &str) -> String {
    format!(
        "goofs repair does not mend this fault. {}",
        format_anew(card)
    )
}

/// What is left where no command mends a volume.
pub fn format_anew(card: &str) -> String {
    format!(
        "Copy the files that are whole: goofs salvage {card} FOLDER. \
         Keep a copy of the card (dd if={card} of=COPY) if someone is to look at it; then \
         goofs format {card} --yes, and put the files back"
    )
}

/// What happened to a card that can't be opened, and what a person can do.
fn opening(error: &io::Error, card: &OsStr) -> (String, String) {
    let card_word = &quoted(card);
    match error.kind() {
        ErrorKind::NotFound => (
            "there is no such file or device".to_string(),
            match is_device_name(card) {
                true => "see that the card is in the reader and the name is right: lsblk shows the \
                         devices"
                    .to_string(),
                false => format!(
                    "see that the name is right; to make an image file: \
                     goofs format {card_word} --sectors N"
                ),
            },
        ),
        ErrorKind::PermissionDenied | ErrorKind::ReadOnlyFilesystem => (
            format!("it may not be opened: {error}"),
            format!(
                "see who may read and write it: ls -l {card_word}; a card in a reader often needs root \
                 (sudo), and a card with a write-protect switch can't be changed while that is on"
            ),
        ),
        ErrorKind::ResourceBusy => (
            "it is mounted, or another program has it open".to_string(),
            format!("see that this is the right card; if it is mounted: umount {card_word}"),
        ),
        ErrorKind::WouldBlock => (
            "another program has it open".to_string(),
            format!(
                "see which program that is: fuser -v {card_word}; to wait for its end, give the \
                 command again with --wait SECONDS"
            ),
        ),
        _ => (
            error.to_string(),
            "see that the card is in the reader and the name is right".to_string(),
        ),
    }
}

impl fmt::Display for Failure {
    fn fmt(&self, f: &mut fmt::Formatter) -> fmt::Result {
        match self {
            Failure::Usage(text) | Failure::Other(text) => f.write_str(text),
            Failure::Partly { failure, others } => {
                let text = failure.to_string();
                match text.split_once("\nNext: ") {
                    Some((what, next)) => write!(f, "{what}\n{others}\nNext: {next}"),
                    None => write!(f, "{text}\n{others}"),
                }
            }
            Failure::Open { card, error } => {
                let (what, next) = opening(error, card);
                let card = quoted(card);
                write!(f, "{card}: {what}. Nothing was changed.\nNext: {next}.")
            }
            Failure::Judged { card, refusal } => {
                let card = quoted(card);
                let (number, next) = (refusal.number(), after_refusal(*refusal, &card));
                write!(f, "{card}: ({number}) {refusal}.\nNext: {next}.")
            }
            Failure::NotMended { card, fault } => {
                let (card, refusal) = (quoted(card), Refusal::NotSound(*fault));
                let (number, next) = (refusal.number(), not_mended(&card));
                write!(f, "{card}: ({number}) {refusal}.\nNext: {next}.")
            }
            Failure::File { file, error } => write!(
                f,
                "{}: {error}. Nothing was changed on the card.\nNext: {}.",
                quoted(file),
                match error.kind() {
                    ErrorKind::NotFound => "see that the name of this file or its folder is right",
                    ErrorKind::PermissionDenied => {
                        "see who may write to it and to its folder: ls -l shows that"
                    }
                    ErrorKind::AlreadyExists => "name a file that does not exist yet",
                    ErrorKind::IsADirectory => "name a file, not a folder",
                    ErrorKind::NotADirectory => "name a folder, or one that is not there yet",
                    ErrorKind::StorageFull => "make room on its disk, or name a file on another one",
                    ErrorKind::InvalidFilename => {
                        "its disk does not take this name: name a file with another one (--as FILE)"
                    }
                    NOT_KEPT => "leave -p out, or name a file elsewhere",
                    _ => "see that this is the right file, and that its disk takes it",
                }
            ),
            Failure::Incomplete { file, error } => write!(
                f,
                "{}: {error}. What was written there is incomplete. Nothing was changed on the card.\n\
                 Next: see that it has room, and give the command again.",
                quoted(file)
            ),
            Failure::Output(error) if error.kind() == ErrorKind::BrokenPipe => write!(
                f,
                "the standard output was closed before all of it was written.\n\
                 Next: let the program behind the pipe read to the end, or write to a file."
            ),
            Failure::Output(error) => write!(
                f,
                "the standard output could not be written: {error}. What was written is incomplete.\n\
                 Next: see that there is room where it goes, and give the command again."
            ),
            Failure::Card {
                card,
                error,
                detail,
            } => {
                let card = quoted(card);
                match error {
                    Error::Refused(refusal) => {
                        write!(f, "{card}: refused ({}): {refusal}", refusal.number())?;
                        if let Some(detail) = detail {
                            write!(f, " ({})", detail.what)?;
                        }
                        let next = detail.as_ref().and_then(|detail| detail.next.clone());
                        let next = next.unwrap_or_else(|| after_refusal(*refusal, &card));
                        write!(f, ". Nothing was changed.\nNext: {next}.")
                    }
                    Error::Unsettled(_) => write!(
                        f,
                        "{card}: {error}. Nothing was changed.\n\
                         Next: see that the card is in the reader, can be written, and that the disk of an \
                         image file has room; then give the command again. If it fails again, copy what \
                         can be read (goofs get) and take another card."
                    ),
                    Error::Stopped { .. } => write!(
                        f,
                        "{card}: {error}. The volume is clean.\n\
                         Next: see what is done: goofs ls {card}; and give the command again to do the rest."
                    ),
                    Error::Unlogged { changes_done, .. } => write!(
                        f,
                        "{card}: {error}.{}\n\
                         Next: see that the log's disk has room and can be written, or name another log; see \
                         what is done: goofs ls {card}; and give the command again to do the rest.",
                        match changes_done {
                            0 => " Nothing was changed.",
                            _ => "",
                        }
                    ),
                    Error::Unreadable { changes_done, .. } => write!(
                        f,
                        "{card}: {error}. {}see that the card is in the reader, and that an image file was not \
                         made shorter; try another reader, then another card. goofs salvage {card} FOLDER \
                         copies the files that can be read.",
                        match changes_done {
                            0 => "Nothing was changed.\nNext: ".to_string(),
                            _ => format!(
                                "The volume is clean.\nNext: see what is done: goofs ls {card}; "
                            ),
                        }
                    ),
                    Error::Interrupted(_) => write!(
                        f,
                        "{card}: {error}.\nNext: when the medium can be written again, \
                         goofs recover {card}; see what is done: goofs ls {card}; and give the \
                         command again if it is not."
                    ),
                    Error::DeviceTooShort { present, .. } => write!(
                        f,
                        "{card}: {error}. Nothing was changed.\n\
                         Next: give at most --sectors {}, or leave it out to take the whole card.",
                        present / goofs::device::SECTOR as u64
                    ),
                    Error::TooLarge { .. } => write!(
                        f,
                        "{card}: {error}. Nothing was changed.\n\
                         Next: see whether the memory is limited here (ulimit -v), or use another computer."
                    ),
                    _ => write!(
                        f,
                        "{card}: {error}. Nothing was changed.\n\
                         Next: see that the card is in the reader; try another reader, then another card."
                    ),
                }
            }
        }
    }
}

#[cfg(test)]
mod tests {
    use super::*;
    use goofs::error::Interrupted;
    use goofs::image::State;

    const REFUSALS: [Refusal; 14] = [
        Refusal::NotWholeSectors,
        Refusal::NotAVolume,
        Refusal::OutOfBounds,
        Refusal::Unfinished,
        Refusal::Waiting,
        Refusal::Damaged,
        Refusal::NotSound(Fault {
            kind: FaultKind::Id,
            place: 3,
        }),
        Refusal::BadArgument,
        Refusal::NotThere,
        Refusal::AlreadyThere,
        Refusal::DirectoryFull,
        Refusal::PastTheEnd,
        Refusal::NoRoom,
        Refusal::BufferTooShort,
    ];

    /// Every refusal has its number, and every error an advice.
    #[test]
    fn refusals_have_number_and_advice() {
        for (i, refusal) in REFUSALS.into_iter().enumerate() {
            let text = of_card(OsStr::new("card"))(refusal).to_string();
            assert!(
                text.starts_with(&format!("card: refused ({}): ", i + 1)),
                "{text}"
            );
            assert!(text.contains(". Nothing was changed.\nNext: "), "{text}");
            assert!(text.ends_with('.'), "{text}");
        }
    }

    /// What to do about a frozen volume names a format that takes all of its files.
    #[test]
    fn frozen_volumes() {
        for (edition, files, format) in [
            (Edition::First, 255, "goofs format NEW; "),
            (Edition::Second, 255, "goofs format NEW --edition 2; "),
            (Edition::First, 4_096, "goofs format NEW --files 4096; "),
        ] {
            let old = Summary {
                edition,
                files,
                extents: 16_128,
                extent_sectors: 128,
                state: State::Clean,
            };
            let text = frozen(OsStr::new("a card"), old).to_string();
            assert!(text.starts_with("'a card': refused (13): "), "{text}");
            assert!(text.contains("(2 extents must stay free"), "{text}");
            assert!(text.contains("goofs get 'a card' NAME"), "{text}");
            assert!(text.contains(format), "{text}");
        }
    }

    #[test]
    fn errors_of_the_medium_have_advice() {
        let cause = || io::Error::other("it is gone");
        let errors = [
            (Error::TooLarge { bytes: 9 }, "ulimit"),
            (
                Error::DeviceTooShort {
                    needed: 2_048,
                    present: 1_024,
                },
                "--sectors 2,",
            ),
            (Error::unreadable(cause()), "reader"),
            (
                Error::Unreadable {
                    changes_done: 2,
                    cause: cause(),
                },
                "goofs ls 'a card'",
            ),
            (Error::Unsettled(cause()), "give the command again"),
            (Error::Stopped { changes_done: 0 }, "goofs ls 'a card'"),
            (
                Error::Unlogged {
                    changes_done: 0,
                    cause: cause(),
                },
                "another log",
            ),
            (
                Error::Interrupted(Interrupted {
                    writes: 7,
                    landed: 3,
                    sent: 1,
                    changes_done: 0,
                    cause: cause(),
                }),
                "goofs recover 'a card'",
            ),
        ];
        for (error, next) in errors {
            // A change that was interrupted may have changed something, and so may those before a stop.
            let may_change = matches!(
                error,
                Error::Interrupted(_)
                    | Error::Stopped { .. }
                    | Error::Unreadable {
                        changes_done: 1..,
                        ..
                    }
            );
            let text = of_card(OsStr::new("a card"))(error).to_string();
            let (happened, advice) = text.split_once("\nNext: ").expect("there is an advice");
            assert!(happened.starts_with("'a card': "), "{text}");
            assert_eq!(
                happened.contains("Nothing was changed"),
                !may_change,
                "{text}"
            );
            assert!(advice.contains(next), "{text}");
        }
    }

    /// A user who may do everything can't be refused, so the text is made here.
    #[test]
    fn cards_that_can_not_be_opened() {
        for (kind, what, next) in [
            (ErrorKind::NotFound, "no such file or device", "lsblk"),
            (
                ErrorKind::PermissionDenied,
                "may not be opened",
                "ls -l /dev/x",
            ),
            (
                ErrorKind::ReadOnlyFilesystem,
                "may not be opened",
                "write-protect",
            ),
            (ErrorKind::ResourceBusy, "it is mounted", "umount /dev/x"),
            (ErrorKind::WouldBlock, "", "fuser -v /dev/x"),
        ] {
            let text = of_opening(OsStr::new("/dev/x"))(kind.into()).to_string();
            let (happened, advice) = text.split_once(". Nothing was changed.\nNext: ").unwrap();
            assert!(happened.contains(what) && advice.contains(next), "{text}");
        }
    }
}
