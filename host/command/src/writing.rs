//! The commands that write to a file on the volume, put and resize: which changes they come to.

use std::ffi::{OsStr, OsString};
use std::fs::File;
use std::io::{self, ErrorKind, Read};
use std::os::unix::ffi::OsStrExt;
use std::path::Path;

use goofs::change::{Change, Rename, MOST_RENAMES};
use goofs::error::{Error, Refusal};
use goofs::image::{Entry, Image, LONGEST_TRANSFER};
use goofs::save::{changes_together, Save};

use crate::arguments::{self, Arguments};
use crate::card;
use crate::changing::{apply, edition_for, time, NewFile};
use crate::failure::{
    in_place_instead, no_room, no_room_for_both, not_beside, of_call, of_card, of_file,
    of_large_set, of_new, or_frozen, quoted, Failure,
};
use crate::logging;
use crate::progress::Progress;
use crate::space::Space;
use crate::text;

/// A size, offset or the like among the places.
pub fn size(word: &OsStr) -> Result<u64, Failure> {
    arguments::count(word).map_err(Failure::Usage)
}

/// A file beside the card and the name that it gets there.
pub struct Source<'s> {
    file: &'s OsStr,
    pub name: &'s [u8],
}

impl Source<'_> {
    /// Of the FILEs, which keep their names, or of one with another name.
    pub fn all<'s>(
        files: &'s [OsString],
        other_name: Option<&'s OsStr>,
    ) -> Result<Vec<Source<'s>>, Failure> {
        let usage = |text: String| Err(Failure::Usage(text));
        if let (Some(_), 2..) = (other_name, files.len()) {
            return usage(format!(
                "--as gives one name, and there are {} FILEs",
                files.len()
            ));
        }
        let mut sources: Vec<Source> = Vec::new();
        for file in files {
            let own_name = Path::new(file).file_name().filter(|_| file != "-");
            let Some(name) = other_name.or(own_name) else {
                return usage(format!(
                    "{} has no name for the card; give one with --as NAME",
                    quoted(file)
                ));
            };
            let name = name.as_bytes();
            not_beside(name, "give another name with --as NAME")?;
            if let Some(same) = sources.iter().find(|source| source.name == name) {
                return usage(format!(
                    "{} and {} would have the same name on the card",
                    quoted(same.file),
                    quoted(file)
                ));
            }
            sources.push(Source { file, name });
        }
        Ok(sources)
    }

    fn read(&self, most: u64) -> Result<Option<Vec<u8>>, Failure> {
        contents(self.file, most).map_err(|error| match error.kind() {
            ErrorKind::NotFound => Failure::Other(format!(
                "{}: {error}. Nothing was changed.\nNext: see that the name of this file is right; \
                 another name on the card is given with --as NAME.",
                quoted(self.file)
            )),
            _ => of_source(self.file)(error),
        })
    }
}

/// A file's bytes, but no more than these; none if it has more. `-` is the standard input.
pub fn contents(file: &OsStr, most: u64) -> io::Result<Option<Vec<u8>>> {
    if file == "-" {
        return read(io::stdin().lock(), 0, most);
    }
    let file = File::open(file)?;
    // Only a regular file has a length; it need not be read to know that it is too long.
    let length = file.metadata()?.len();
    if length > most {
        return Ok(None);
    }
    read(file, length, most)
}

/// All bytes of a file of this length, which is 0 if it is not known, unless there are more than these.
fn read(source: impl Read, length: u64, most: u64) -> io::Result<Option<Vec<u8>>> {
    let mut progress = Progress::new("bytes read", length);
    let mut source = source.take(most.saturating_add(1));
    let mut piece = vec![0; 1 << 18];
    let mut bytes = Vec::new();
    loop {
        // As much as there is at the time: a pipe may be slow.
        match source.read(&mut piece) {
            Err(error) if error.kind() == ErrorKind::Interrupted => (),
            Err(error) => return Err(error),
            Ok(0) => return Ok((bytes.len() as u64 <= most).then_some(bytes)),
            Ok(count) => bytes.extend(&piece[..count]),
        }
        progress.at(bytes.len() as u64);
    }
}

pub fn of_source(file: &OsStr) -> impl Fn(io::Error) -> Failure + '_ {
    of_file(match file == "-" {
        true => OsStr::new("standard input"),
        false => file,
    })
}

/// The bytes of one write. If there are more than a write may have, the volume code refuses them for
/// their number alone.
pub fn one_write(file: &OsStr) -> Result<Vec<u8>, Failure> {
    let contents = contents(file, LONGEST_TRANSFER as u64).map_err(of_source(file))?;
    Ok(contents.unwrap_or_else(|| vec![0; LONGEST_TRANSFER + 1]))
}

/// How files are put.
#[derive(Clone, Copy, PartialEq, Eq)]
pub enum How {
    /// Each beside, and then it takes its name.
    Beside,
    /// All beside, and then all take their names in one change.
    Together,
    /// An old file is written over.
    InPlace,
}

impl How {
    pub fn options(arguments: &Arguments, files: usize) -> Result<How, Failure> {
        let usage = |text: String| Err(Failure::Usage(text));
        match (arguments.flag("together"), arguments.flag("in-place")) {
            (true, true) => usage(
                "--together saves the files beside the old ones, and --in-place writes over them; give one of the two"
                    .to_string(),
            ),
            (true, false) if files > MOST_RENAMES => usage(format!(
                "--together takes up to {MOST_RENAMES} FILEs, as many as one change gives their names, and there \
                 are {files}; put those that belong together in sets of up to {MOST_RENAMES}, or leave --together out"
            )),
            (true, false) => Ok(How::Together),
            (false, true) => Ok(How::InPlace),
            (false, false) => Ok(How::Beside),
        }
    }
}

/// A file to be put.
pub struct Put<'p> {
    source: &'p Source<'p>,
    save: Save<'p>,
    how: How,
    /// Whether the new file's id or mode is given.
    is_given: bool,
}

/// Looks the files up on the volume.
pub fn look_up<'p>(
    card: &OsStr,
    image: &Image,
    sources: &'p [Source],
    new_file: &NewFile,
    how: How,
    time: u64,
) -> Result<Vec<Put<'p>>, Failure> {
    let in_place = how == How::InPlace;
    let edition = edition_for(card, image, time)?;
    let another = match sources {
        [_] => "give another with --as NAME",
        _ => "put this file alone, with --as NAME",
    };
    let (is_given, space) = (new_file.is_given(), Space::of(image));
    let mut new_ids = Vec::new();
    let mut puts = Vec::new();
    for source in sources {
        let name = source.name;
        let id = match new_file.id {
            Some(id) => id,
            None => image.unused_id(&new_ids).map_err(of_card(card))?,
        };
        new_ids.push(id);
        let save = Save::new(image, name, id, new_file.mode, time);
        let save = save.map_err(of_card(card))?;
        match &save.old {
            Some(_) if in_place && is_given => return Err(already_there(card, name)),
            Some(_) if in_place => (),
            Some(old) if new_file.id == Some(old.id) => return Err(same_id(card, name, old.id)),
            old => save.judge(image).map_err(|error| match (old, &error) {
                (Some(_), Error::Refused(Refusal::BadArgument)) if id != 0 => {
                    not_replaced(card, name, is_given)
                }
                _ => or_frozen(
                    card,
                    space,
                    of_new(card, name, edition, new_file.id, another),
                )(error),
            })?,
        }
        puts.push(Put {
            source,
            save,
            how,
            is_given,
        });
    }
    Ok(puts)
}

/// Reads the files, none further than there is room for it after those before it.
pub fn read_all(card: &OsStr, space: Space, puts: &[Put]) -> Result<Vec<Vec<u8>>, Failure> {
    let mut left = before_all(space, puts);
    let contents = puts.iter().map(|put| {
        let bytes = put.source.read(put.most(left))?;
        let size = bytes.as_ref().map(|bytes| bytes.len() as u64);
        left = put.after(card, space, left, size)?;
        Ok(bytes.unwrap_or_default())
    });
    contents.collect()
}

/// The renames with which files that are put together take their names.
pub fn put_renames<'c>(puts: &'c [Put]) -> Vec<Rename<'c>> {
    puts.iter().map(|put| put.save.rename()).collect()
}

/// The changes of all files, one file after the other, or those of files that are put together, which
/// `renames` ends.
pub fn put_changes<'c>(
    card: &OsStr,
    space: Space,
    puts: &'c [Put],
    contents: &'c [Vec<u8>],
    renames: &'c [Rename<'c>],
) -> Result<Vec<Change<'c>>, Failure> {
    let mut left = before_all(space, puts);
    let mut changes = Vec::new();
    for (put, contents) in puts.iter().zip(contents) {
        left = put.after(card, space, left, Some(contents.len() as u64))?;
        changes.extend(match put.how {
            How::InPlace => put.save.changes_in_place(contents),
            How::Beside => put.save.changes(contents),
            How::Together => Vec::new(),
        });
    }
    if let [Put {
        how: How::Together,
        save,
        ..
    }, ..] = puts
    {
        let saves = puts
            .iter()
            .zip(contents)
            .map(|(put, bytes)| (&put.save, &bytes[..]));
        changes = changes_together(saves, renames, save.time);
    }
    Ok(changes)
}

/// The room before the first file. Of files that are put together, all that cuts have left goes first.
fn before_all(space: Space, puts: &[Put]) -> Space {
    let together = puts.iter().filter(|put| put.how == How::Together);
    together.fold(space, |left, put| left.without(size_of(&put.save.leftover)))
}

/// Makes failures of the changes of a put.
pub fn of_put<'p>(
    card: &'p OsStr,
    space: Space,
    puts: &'p [Put],
) -> impl Fn(Error) -> Failure + 'p {
    move |error| match error {
        // Where all of them are there, none needs an entry in place.
        Error::Refused(refusal @ Refusal::DirectoryFull)
            if puts.iter().all(|put| put.save.old.is_some()) =>
        {
            let instead = puts.iter().find(|put| put.is_given).or(puts.first());
            let instead = instead.map(Put::instead).unwrap_or_default();
            no_room_for_both(card, space, refusal, "each new file".to_string(), &instead)
        }
        // The room was looked at before: it is the number of sectors.
        Error::Refused(Refusal::NoRoom)
            if space.frozen.is_none() && puts.iter().any(|put| put.how == How::Together) =>
        {
            of_large_set(card, error)
        }
        error => or_frozen(card, space, of_card(card))(error),
    }
}

/// In place, id and mode stay: they are set when a file is created, and no call changes them.
fn already_there(card: &OsStr, name: &[u8]) -> Failure {
    Failure::Other(format!(
        "{}: {} is there already, and in place it keeps its id and mode. Nothing was changed.\n\
         Next: leave --id and --mode out, or leave --in-place out to replace the file.",
        quoted(card),
        text::word(name)
    ))
}

/// The new file can't have the old one's id, as for a while both are there.
fn same_id(card: &OsStr, name: &[u8], id: u64) -> Failure {
    Failure::Other(format!(
        "{}: {} has the id {id} itself, and the new file is saved beside it, with an id of its own. \
         Nothing was changed.\n\
         Next: leave --id out; or, to keep the id, {}.",
        quoted(card),
        text::word(name),
        in_place_instead(true)
    ))
}

/// A file of a name that can't be given any more stays as it is, or is written over.
fn not_replaced(card: &OsStr, name: &[u8], is_given: bool) -> Failure {
    let (card, name) = (quoted(card), text::word(name));
    Failure::Other(format!(
        "{card}: refused (8): {name} is a name that no new file may have, so the file can't be replaced. \
         Nothing was changed.\n\
         Next: give the file a name of letters, digits and signs of ASCII first: \
         goofs mv {card} -- {name} NEW; and put to that one with --as NEW. Or {}.",
        in_place_instead(is_given)
    ))
}

fn size_of(entry: &Option<Entry>) -> u64 {
    entry.as_ref().map_or(0, |entry| entry.size)
}

impl Put<'_> {
    /// What is free before this file, when what a cut has left beside it is gone. Of files that are put
    /// together that is counted before the first.
    fn before(&self, left: Space) -> Space {
        match self.how {
            How::Together => left,
            How::Beside | How::InPlace => left.without(size_of(&self.save.leftover)),
        }
    }

    /// The most bytes that the file may have, in place of an old one.
    fn most(&self, left: Space) -> u64 {
        self.before(left).most(size_of(&self.save.old))
    }

    /// How less room is needed.
    fn instead(&self) -> String {
        match self.how {
            How::Together => {
                "leave --together out: then one file is saved after the other, each takes its name at once, and \
                 a cut of the power can leave some of the old files and some of the new ones"
                    .to_string()
            }
            How::Beside | How::InPlace => in_place_instead(self.is_given),
        }
    }

    /// The room after the put of a file of this size, or of one that is longer than can be. Files that are put
    /// together leave the old ones until the last is there.
    fn after(
        &self,
        card: &OsStr,
        space: Space,
        left: Space,
        size: Option<u64>,
    ) -> Result<Space, Failure> {
        let name = self.source.name;
        let left = self.before(left);
        let old_size = size_of(&self.save.old);
        let in_place = size.and_then(|size| left.after(old_size, size));
        let in_place = in_place.ok_or_else(|| no_room(card, name, space))?;
        let beside = left.after(0, size.unwrap_or(0));
        let after = match self.how {
            How::InPlace => Some(in_place),
            // The old file goes when the new one is there.
            How::Beside => beside.map(|_| in_place),
            How::Together => beside,
        };
        after.ok_or_else(|| {
            no_room_for_both(
                card,
                space,
                Refusal::NoRoom,
                format!("{}: {space}; the new file", text::word(name)),
                &self.instead(),
            )
        })
    }
}

pub fn put(arguments: &Arguments) -> Result<(), Failure> {
    let places = arguments.places_or_more(&["CARD", "FILE"])?;
    let (new_file, time) = (NewFile::options(arguments)?, time(arguments)?);
    let (card, files) = (&places[0], &places[1..]);
    let how = How::options(arguments, files.len())?;
    if let (Some(id), 2..) = (new_file.id, files.len()) {
        return Err(Failure::Usage(format!(
            "--id {id} is for one file, and there are {} FILEs",
            files.len()
        )));
    }
    let sources = Source::all(files, arguments.word("as"))?;
    // The lock is given back before the files are read: a pipe may be slow, and what comes out of it
    // may come from this card.
    let image = card::read(card, arguments.wait()?)?;
    let (puts, space) = (
        look_up(card, &image, &sources, &new_file, how, time)?,
        Space::of(&image),
    );
    drop(image);
    let contents = read_all(card, space, &puts)?;

    let mut volume = logging::volume(arguments, card)?;
    let image = volume.image().map_err(of_card(card))?;
    let puts = look_up(card, image, &sources, &new_file, how, time)?;
    let space = Space::of(image);
    let renames = put_renames(&puts);
    let changes = put_changes(card, space, &puts, &contents, &renames)?;
    apply(&mut volume, &changes).map_err(of_put(card, space, &puts))
}

/// One change, or several where the file grows by more than one may.
pub fn resize_changes<'c>(
    card: &OsStr,
    image: &Image,
    name: &'c [u8],
    size: u64,
    time: u64,
) -> Result<Vec<Change<'c>>, Failure> {
    let edition = edition_for(card, image, time)?;
    let found = image.find(name).map_err(of_call(card, name, edition))?;
    let mut reached = found.size;
    // A size for which there is no room is refused before its many steps are counted up.
    let space = Space::of(image);
    if space.after(reached, size).is_none() {
        return Err(no_room(card, name, space));
    }
    let mut changes = Vec::new();
    loop {
        reached = size.min(reached + LONGEST_TRANSFER as u64);
        changes.push(Change::Resize {
            name,
            size: reached,
            time,
        });
        if reached == size {
            return Ok(changes);
        }
    }
}

pub fn resize(arguments: &Arguments) -> Result<(), Failure> {
    let places = arguments.places(&["CARD", "NAME", "SIZE"])?;
    let time = time(arguments)?;
    let (card, name, size) = (&places[0], places[1].as_bytes(), size(&places[2])?);
    let mut volume = logging::volume(arguments, card)?;
    let image = volume.image().map_err(of_card(card))?;
    let (edition, space) = (image.summary().edition, Space::of(image));
    let changes = resize_changes(card, image, name, size, time)?;
    apply(&mut volume, &changes).map_err(or_frozen(card, space, of_call(card, name, edition)))
}
