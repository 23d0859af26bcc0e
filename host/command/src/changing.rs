//! Commands that change a volume: format, rm, mv and recover, and what they share with put and resize.

use std::ffi::{OsStr, OsString};
use std::fs::{self, File};
use std::io::ErrorKind;
use std::ops::ControlFlow;
use std::os::unix::ffi::OsStrExt;
use std::path::Path;
use std::time::{SystemTime, UNIX_EPOCH};

use goofs::change::{Change, Format, Rename, MOST_RENAMES};
use goofs::device::{Device, Disk, SECTOR};
use goofs::error::{Error, Refusal};
use goofs::image::{Edition, Image, State};
use goofs::log::Line;
use goofs::save::MODE;
use goofs::system::{self, Held};
use goofs::volume::{self, Stage, Volume};

use crate::arguments::Arguments;
use crate::card;
use crate::failure::{
    not_beside, of_card, of_file, of_names, of_opening, of_renames, of_several, or_frozen, quoted,
    Detail, Failure,
};
use crate::logging;
use crate::output::{print, sync_folder};
use crate::progress::Progress;
use crate::reading::{all_there, leftovers};
use crate::space::Space;
use crate::text;

const LARGEST_32: u64 = u32::MAX as u64;
/// Sectors that a format takes off for what stands before the data, besides one for each file.
const TAKEN_OFF: u64 = 546;
/// Sectors of the smallest extent.
const LEAST_EXTENT: u64 = 128;

/// The time of a change: the one given, or now.
pub fn time(arguments: &Arguments) -> Result<u64, Failure> {
    let now = SystemTime::now()
        .duration_since(UNIX_EPOCH)
        .map_or(0, |since| since.as_secs());
    let given = arguments.number("time", 10, u64::MAX)?;
    Ok(given.unwrap_or(now))
}

/// The volume's edition, if it stores the time. What is wrong with the volume itself is told first, as
/// the volume code does.
pub fn edition_for(card: &OsStr, image: &Image, time: u64) -> Result<Edition, Failure> {
    let edition = image.summary().edition;
    if time > edition.latest_time() {
        image.check().map_err(of_card(card))?;
        return Err(late(
            card,
            time,
            "copy the files to a card made with goofs format --edition 2, which stores any time",
        ));
    }
    Ok(edition)
}

/// Makes the failure of a time that edition 1 can't store. `instead` says how it could be.
fn late(card: &OsStr, time: u64, instead: &str) -> Failure {
    let latest = Edition::First.latest_time();
    Failure::Card {
        card: card.to_owned(),
        error: Refusal::BadArgument.into(),
        detail: Some(Detail::with_next(
            format!(
                "the time {time}, {}, is later than edition 1 can store, {}",
                text::time(time),
                text::time(latest)
            ),
            &format!(
                "see that the clock is right, or give another time, up to --time {latest}; or {instead}"
            ),
        )),
    }
}

fn edition(arguments: &Arguments) -> Result<Edition, Failure> {
    match arguments.number("edition", 10, u64::MAX)? {
        None | Some(1) => Ok(Edition::First),
        Some(2) => Ok(Edition::Second),
        Some(other) => Err(Failure::Usage(format!(
            "--edition: there are the editions 1 and 2, and no {other}"
        ))),
    }
}

fn mode(arguments: &Arguments) -> Result<Option<u32>, Failure> {
    let given = arguments.number("mode", 8, LARGEST_32)?;
    Ok(given.map(|mode| mode as u32))
}

/// The sectors of a format, if they are given, as such or in bytes.
fn sectors(arguments: &Arguments) -> Result<Option<u64>, Failure> {
    let usage = |text: &str| Err(Failure::Usage(text.to_string()));
    match (arguments.count("sectors")?, arguments.count("size")?) {
        (Some(_), Some(_)) => usage("--sectors and --size say the same; give one of them"),
        (None, Some(bytes)) if !bytes.is_multiple_of(SECTOR as u64) => usage(
            "--size: it is no whole number of sectors of 512 bytes; give it as in 4M, or with --sectors",
        ),
        (None, Some(bytes)) => Ok(Some(bytes / SECTOR as u64)),
        (sectors, None) => Ok(sectors),
    }
}

pub fn format(arguments: &Arguments) -> Result<(), Failure> {
    let card = &arguments.places(&["CARD"])?[0];
    let sectors = sectors(arguments)?;
    let wait = arguments.wait()?;
    let mut request = Format {
        sectors: 0,
        files: arguments.count("files")?.unwrap_or(255),
        edition: edition(arguments)?,
        id: arguments.number("id", 10, u64::MAX)?.unwrap_or(1),
        mode: mode(arguments)?.unwrap_or(0o755),
        time: time(arguments)?,
    };

    let is_new = !fs::exists(card).map_err(of_opening(card))?;
    if is_new && card::is_device_name(card) {
        // A card that isn't in its reader must not become a file among the devices.
        return Err(of_opening(card)(ErrorKind::NotFound.into()));
    }
    if is_new {
        request.sectors = sectors.ok_or_else(|| {
            Failure::Usage(format!(
                "{} is not there; to make an image file, --size or --sectors is needed",
                quoted(card)
            ))
        })?;
        // A file is made only for a format that will be accepted.
        request.record(0).map_err(of_format(card, &request))?;
        match File::create_new(card) {
            // Another program was faster. What it does with the file is looked at below.
            Err(error) if error.kind() == ErrorKind::AlreadyExists => (),
            made => drop(made.map_err(of_file(card))?),
        }
    }
    let mut disk = card::exclusive(card, wait)?;
    // Only an empty file whose lock is held here is removed if the format fails: anything else is
    // another program's.
    let is_made_here = is_new && disk.length() == 0;
    let mut formatted = format_disk(arguments, card, &mut disk, sectors, &mut request);
    if formatted.is_ok() && is_new {
        formatted = sync_folder(Path::new(card)).map_err(of_file(card));
    }
    if formatted.is_err() && is_made_here {
        // Best effort: the failure is reported anyway.
        let _ = fs::remove_file(card);
    }
    formatted?;
    let geometry = request.geometry().map_err(of_format(card, &request))?;
    print_done(
        card,
        &format!(
            "formatted: {} files at most, {} bytes for them\n",
            geometry.files,
            geometry.usable_extents() * geometry.extent_bytes()
        ),
    )
}

/// Makes failures of a format, and says which of its arguments is out of bounds.
fn of_format<'f>(card: &'f OsStr, request: &'f Format) -> impl Fn(Refusal) -> Failure + 'f {
    move |refusal| {
        let Format {
            sectors,
            files,
            edition,
            time,
            ..
        } = *request;
        if refusal == Refusal::BadArgument && time > edition.latest_time() {
            return late(card, time, "add --edition 2, which stores any time");
        }
        let least = TAKEN_OFF + files.min(65_535) + 2 * LEAST_EXTENT;
        let detail = match files {
            _ if refusal != Refusal::BadArgument => None,
            255..=65_535 if sectors < least => Some(Detail::with_next(
                format!("{sectors} sectors are too few for {files} files"),
                &format!("take a card of at least {least} sectors, or give so many with --sectors"),
            )),
            255..=65_535 => Some(Detail::with_next(
                format!("{sectors} sectors are too many for a volume"),
                "give fewer with --sectors",
            )),
            _ => Some(Detail::with_next(
                format!("--files {files}"),
                "give 255 to 65535 files",
            )),
        };
        Failure::Card {
            card: card.to_owned(),
            error: refusal.into(),
            detail,
        }
    }
}

/// A medium of other than whole sectors can't be read after its format.
fn whole_sectors(disk: &Disk, request: &Format) -> Result<(), Refusal> {
    let length = disk.length();
    let stays = request.sectors <= length / SECTOR as u64;
    match stays && !length.is_multiple_of(SECTOR as u64) {
        true => Err(Refusal::NotWholeSectors),
        false => Ok(()),
    }
}

/// Formats the whole card, or so many sectors, if nothing is lost by it or `--yes` is given.
fn format_disk(
    arguments: &Arguments,
    card: &OsStr,
    disk: &mut Disk,
    sectors: Option<u64>,
    request: &mut Format,
) -> Result<(), Failure> {
    request.sectors = sectors.unwrap_or(disk.length() / SECTOR as u64);
    let request = &*request;
    request.record(0).map_err(of_format(card, request))?;
    whole_sectors(disk, request).map_err(of_card(card))?;
    let held = match arguments.flag("yes") {
        true => None,
        false => held(disk, request, card)?,
    };
    if let Some(what) = held {
        return Err(Failure::Other(format!(
            "{} already holds {what}. Nothing was changed.\nNext: to lose it and format anew, add --yes.",
            quoted(card)
        )));
    }
    let length = request
        .sectors
        .checked_mul(SECTOR as u64)
        .ok_or_else(|| of_format(card, request)(Refusal::BadArgument))?;
    let records = request.records().map_err(of_format(card, request))?;
    // Without blocks of its own, an image fails when its disk is full, in the middle of a change.
    let mut taken = Progress::new("bytes taken for the image file", length);
    match arguments.flag("sparse") {
        true => disk.lengthen(length),
        false => disk.allocate_telling(length, &mut |done| taken.at(done)),
    }
    .map_err(of_file(card))?;
    drop(taken);
    let mut log = logging::log(arguments, card)?;
    let _held = Held::new();
    let mut progress = Progress::new("records", records);
    if let Some(log) = &mut log {
        log.begin(&Line::Format(*request)).map_err(|cause| {
            of_card(card)(Error::Unlogged {
                changes_done: 0,
                cause,
            })
        })?;
    }
    let formatted = volume::format(disk, request, &mut |done| progress.at(done));
    if let (Some(mut log), Ok(())) = (log, &formatted) {
        // Best effort, as for any call.
        let _ = log.end(&Line::Done);
    }
    formatted.map_err(|error| match error {
        // There is nothing to recover in a format.
        Error::Interrupted(_) => Failure::Other(format!(
            "{}: {error}.\nNext: when the medium can be written again, give the command again, with --yes.",
            quoted(card)
        )),
        other => of_card(card)(other),
    })
}

/// What would be lost by a format, if anything. The whole place of the new volume is looked at:
/// other file systems leave the first sectors free, and bytes behind the metadata would be lost too.
fn held(disk: &Disk, request: &Format, card: &OsStr) -> Result<Option<String>, Failure> {
    const PIECE: u64 = 1 << 20;
    let length = disk.length().min(request.sectors * SECTOR as u64);
    let mut progress = Progress::new("bytes looked at (--yes leaves this out)", length);
    let zeros = vec![0; length.min(PIECE) as usize];
    let mut piece = zeros.clone();
    let mut start = 0;
    while start < length {
        let piece = &mut piece[..(length - start).min(PIECE) as usize];
        disk.read(start / SECTOR as u64, piece)
            .map_err(|error| of_card(card)(Error::unreadable(error)))?;
        if start == 0 && piece.len() >= SECTOR && goofs::summary(&piece[..SECTOR]).code != 2 {
            return Ok(Some("a volume".to_string()));
        }
        if *piece != zeros[..piece.len()] {
            let at = piece.iter().take_while(|byte| **byte == 0).count();
            return Ok(Some(format!("other data, from byte {}", start + at as u64)));
        }
        start += piece.len() as u64;
        // Holes of an image file are passed over.
        start = start.max(disk.next_data(start) / SECTOR as u64 * SECTOR as u64);
        progress.at(start);
    }
    Ok(None)
}

/// Does the changes on the card, all or, if one is refused, none.
pub fn apply(volume: &mut Volume<Disk>, changes: &[Change]) -> Result<(), Error> {
    let all = changes.len() as u64;
    let mut tried = Progress::new("changes tried", all);
    let mut done = Progress::new("changes done", all);
    // A change that was begun is finished before the program ends. While changes are tried nothing is
    // written, and it may end at once.
    let mut held = (all == 1).then(Held::new);
    volume.apply_telling(changes, &mut |stage, count| {
        let count = count as u64;
        match stage {
            Stage::Tried => {
                tried.at(count);
                held = (count == all).then(Held::new);
            }
            Stage::Done => done.at(count),
        }
        match held.is_some() && system::asked_to_end() {
            true => ControlFlow::Break(()),
            false => ControlFlow::Continue(()),
        }
    })
}

/// What is said after a change. If it can't be said, the change is done all the same.
pub fn print_done(card: &OsStr, text: &str) -> Result<(), Failure> {
    print(text).map_err(|failure| match failure {
        Failure::Output(error) => Failure::Other(format!(
            "{}: done, but the standard output could not be written: {error}",
            quoted(card)
        )),
        other => other,
    })
}

/// The id and mode of a file that a command makes, if they are given.
pub struct NewFile {
    pub id: Option<u64>,
    pub mode: Option<u32>,
}

impl NewFile {
    pub fn options(arguments: &Arguments) -> Result<NewFile, Failure> {
        Ok(NewFile {
            id: arguments.number("id", 10, u64::MAX)?,
            mode: mode(arguments)?,
        })
    }

    pub fn is_given(&self) -> bool {
        self.id.is_some() || self.mode.is_some()
    }

    /// The change that makes the file.
    pub fn change<'c>(
        &self,
        image: &Image,
        name: &'c [u8],
        time: u64,
    ) -> Result<Change<'c>, Refusal> {
        let id = match self.id {
            Some(id) => id,
            None => image.unused_id(&[])?,
        };
        Ok(Change::Create {
            name,
            id,
            mode: self.mode.unwrap_or(MODE),
            time,
        })
    }
}

pub fn rm(arguments: &Arguments) -> Result<(), Failure> {
    let places = arguments.places_or_more(&["CARD", "NAME"])?;
    let time = time(arguments)?;
    let (card, names) = (&places[0], &places[1..]);
    for (i, name) in names.iter().enumerate() {
        if names[..i].contains(name) {
            let name = text::word(name.as_bytes());
            return Err(Failure::Usage(format!("{name} is given twice")));
        }
    }
    let mut volume = logging::volume(arguments, card)?;
    let image = volume.image().map_err(of_card(card))?;
    edition_for(card, image, time)?;
    let space = Space::of(image);
    all_there(card, image, names)?;
    let removals = names.iter().map(|name| Change::Delete {
        name: name.as_bytes(),
        time,
    });
    apply(&mut volume, &Vec::from_iter(removals)).map_err(or_frozen(
        card,
        space,
        of_removals(card, names),
    ))
}

/// Makes failures of several removals, which say what became of each file.
fn of_removals<'r>(card: &'r OsStr, names: &'r [OsString]) -> impl Fn(Error) -> Failure + 'r {
    move |error| {
        let others = match &error {
            Error::Stopped { changes_done }
            | Error::Unlogged { changes_done, .. }
            | Error::Unreadable { changes_done, .. } => {
                of_several(names, *changes_done, "Removed", "Not removed")
            }
            // Of the one at which the medium failed, the recovery decides.
            Error::Interrupted(cut) if names.len() > 1 => {
                let (done, rest) = names.split_at(cut.changes_done.min(names.len() - 1));
                let sentences = [
                    of_names("Removed", done),
                    of_names("Removed or not, as goofs recover finds it", &rest[..1]),
                    of_names("Not removed", &rest[1..]),
                ];
                Vec::from_iter(sentences.into_iter().flatten()).join("\n")
            }
            _ => String::new(),
        };
        of_card(card)(error).beside_others(others)
    }
}

/// The renames of a mv, old and new name of each.
pub fn renames(names: &[OsString]) -> Result<Vec<Rename<'_>>, Failure> {
    if let [.., old] = names {
        if !names.len().is_multiple_of(2) {
            let old = text::word(old.as_bytes());
            return Err(Failure::Usage(format!(
                "NEW is missing: there is no name for {old} to get"
            )));
        }
    }
    let renames = names
        .chunks_exact(2)
        .map(|pair| (pair[0].as_bytes(), pair[1].as_bytes()));
    let renames = Vec::from_iter(renames);
    if renames.len() > MOST_RENAMES {
        return Err(Failure::Usage(format!(
            "one change has up to {MOST_RENAMES} renames, and there are {}; give those that belong together in \
             one command, and the others in another",
            renames.len()
        )));
    }
    for (_, new) in &renames {
        not_beside(new, "take another NEW")?;
    }
    Ok(renames)
}

/// The change that does one or more renames.
pub fn rename_change<'c>(renames: &'c [Rename<'c>], time: u64) -> Change<'c> {
    match *renames {
        [(old, new)] => Change::Rename { old, new, time },
        _ => Change::RenameSet { renames, time },
    }
}

pub fn mv(arguments: &Arguments) -> Result<(), Failure> {
    let places = arguments.places_or_more(&["CARD", "OLD", "NEW"])?;
    let time = time(arguments)?;
    let (card, renames) = (&places[0], renames(&places[1..])?);
    let mut volume = logging::volume(arguments, card)?;
    let image = volume.image().map_err(of_card(card))?;
    edition_for(card, image, time)?;
    let space = Space::of(image);
    let change = rename_change(&renames, time);
    // What is refused is told by the names as they are before.
    let judged = image.list_of(&change);
    judged.map_err(or_frozen(
        card,
        space,
        of_renames(card, image, &renames, time),
    ))?;
    let before = image.entries().map_err(of_card(card))?;
    apply(&mut volume, &[change]).map_err(of_card(card))?;
    if renames.iter().all(|(old, new)| old == new) {
        let what = match renames[..] {
            [(old, _)] => format!("nothing to do: {} has this name\n", text::word(old)),
            _ => "nothing to do: each of these files has its name\n".to_string(),
        };
        return print_done(card, &what);
    }
    let after = volume.image().and_then(|image| Ok(image.entries()?));
    let after = after.map_err(of_card(card))?;
    let gone = before
        .iter()
        .filter(|old| after.iter().all(|file| file.id != old.id));
    let gone = gone.map(|old| {
        format!(
            "replaced: the old {}, of {} bytes and with id {}, is gone\n",
            text::word(&old.name),
            old.size,
            old.id
        )
    });
    print_done(card, &String::from_iter(gone))
}

pub fn recover(arguments: &Arguments) -> Result<(), Failure> {
    let card = &arguments.places(&["CARD"])?[0];
    let mut volume = logging::volume(arguments, card)?;
    let _held = Held::new();
    if let Some(budget) = arguments.count("budget")? {
        let written = volume
            .recover_slice(budget)
            .map_err(of_card::<Error>(card))?;
        let state = volume.image().map_err(of_card(card))?.summary().state;
        if state == State::Clean && written == 0 {
            return print_done(card, "nothing to recover: no change was cut\n");
        }
        if state != State::Clean {
            let more = format!("sectors written: {written}; not finished: recover again\n");
            return print_done(card, &more);
        }
        return print_done(card, "recovered: the change that was cut is done now\n");
    }
    let was_cut = volume.recover().map_err(of_card::<Error>(card))?;
    // Recovery itself does not judge the volume.
    let files = volume.image().map_err(of_card(card))?.entries();
    let left = files.as_deref().map(|files| leftovers(card, files));
    let what = match (was_cut, files.is_ok()) {
        (true, _) => "recovered: the change that was cut is done now\n",
        (false, true) => "nothing to do: the volume is clean and sound\n",
        (false, false) => "nothing to recover: no change was cut\n",
    };
    print_done(card, &[what, &left.unwrap_or_default()].concat())?;
    files.map(drop).map_err(|refusal| Failure::Judged {
        card: card.to_owned(),
        refusal,
    })
}
