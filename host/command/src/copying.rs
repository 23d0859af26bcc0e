//! The command get: files of a card to the standard output, to a file, or into a folder.

use std::ffi::{OsStr, OsString};
use std::fs;
use std::io::ErrorKind;
use std::os::unix::ffi::OsStrExt;
use std::path::{Component, Path};

use goofs::change::Change;
use goofs::device::Disk;
use goofs::error::Error;
use goofs::image::{Entry, Image};
use goofs::volume::Volume;

use crate::arguments::Arguments;
use crate::card;
use crate::changing::{apply, edition_for};
use crate::failure::{of_call, of_card, of_file, of_several, quoted, Failure};
use crate::folder::Targets;
use crate::logging;
use crate::output::{print, print_bytes, print_error, save, Kept};
use crate::progress::Progress;
use crate::reading::{leftovers, no_time_set, touch};
use crate::text;

pub fn get(arguments: &Arguments) -> Result<(), Failure> {
    if let Some(folder) = arguments.word("all") {
        return get_all(arguments, folder);
    }
    get_named(arguments)
}

/// What is said of a copy that failed, after `--touch` has set the access times.
fn of_copy(arguments: &Arguments) -> impl Fn(Failure) -> Failure + '_ {
    |failure| match arguments.flag("touch") {
        true => failure.after_touch(),
        false => failure,
    }
}

fn get_named(arguments: &Arguments) -> Result<(), Failure> {
    if arguments.flag("replace") {
        return usage("--replace is for --all; with --as a FILE that exists is replaced");
    }
    let places = arguments.places_or_more(&["CARD", "NAME"])?;
    let (card, names) = (&places[0], &places[1..]);
    let to = arguments.word("as").filter(|to| *to != "-");
    let folder = to.filter(|to| Path::new(to).is_dir());
    if names.len() > 1 && folder.is_none() {
        return Err(Failure::Usage(match to {
            Some(to) => format!("several files go into a folder, and {} is none", quoted(to)),
            None => "several files need --as FOLDER; one file goes to another name with --as FILE"
                .to_string(),
        }));
    }
    if arguments.flag("preserve") && to.is_none() {
        return usage("-p keeps time and mode on a copy, and needs --as FILE or --all FOLDER");
    }
    let targets: Vec<Option<OsString>> = names
        .iter()
        .map(|name| match folder {
            Some(folder) => in_folder(folder, name).map(Some),
            None => Ok(to.map(OsStr::to_owned)),
        })
        .collect::<Result<_, _>>()?;
    for target in targets.iter().flatten() {
        may_be_written(card, target)?;
    }
    let (opened, files) = opened(arguments, card, Some(names), &|_| Ok(()))?;
    let sizes = files.iter().map(|file| file.size).sum();
    let mut progress = Progress::new("bytes copied", sizes);
    let kept = |file: &Entry| arguments.flag("preserve").then(|| Kept::of(file));
    if let [file] = &files[..] {
        let contents = contents(card, opened.image(), file, &mut progress)?;
        // The lock is given back first: who reads the output may take any time.
        drop((opened, progress));
        return match &targets[0] {
            Some(to) => save(to, &contents, kept(file)).map_err(of_copy(arguments)),
            None => print_bytes(&contents),
        };
    }
    for (i, (file, target)) in files.iter().zip(targets.iter().flatten()).enumerate() {
        contents(card, opened.image(), file, &mut progress)
            .and_then(|contents| save(target, &contents, kept(file)))
            .map_err(|failure| failure.beside_others(of_several(names, i, "Copied", "Not copied")))
            .map_err(of_copy(arguments))?;
    }
    Ok(())
}

fn usage<T>(text: &str) -> Result<T, Failure> {
    Err(Failure::Usage(text.to_string()))
}

/// Every file, each under its own name or one that stands for it.
fn get_all(arguments: &Arguments, folder: &OsStr) -> Result<(), Failure> {
    if arguments.word("as").is_some() {
        return usage("--all names the folder; leave --as out");
    }
    let card = match arguments.places_or_more(&["CARD"])? {
        [card] => card,
        _ => return usage("--all is every file; leave the NAMEs out"),
    };
    let replace = arguments.flag("replace");
    let judge = |files: &[Entry]| Targets::new(card, folder, files, replace).map(drop);
    let (opened, files) = opened(arguments, card, None, &judge)?;
    let targets = Targets::new(card, folder, &files, replace)?;
    let image = opened.image();
    let copied = targets.copy(card, image, arguments.flag("preserve"));
    print(&copied.map_err(of_copy(arguments))?)?;
    print_error(&leftovers(card, &files));
    Ok(())
}

/// The bytes of a file. The progress goes on from file to file.
pub fn contents(
    card: &OsStr,
    image: &Image,
    file: &Entry,
    progress: &mut Progress,
) -> Result<Vec<u8>, Failure> {
    let failure = of_call(card, &file.name, image.summary().edition);
    image
        .contents_of(file, &mut |count| progress.more(count))
        .map_err(failure)
}

/// What files are read from.
enum Opened {
    Image(Image),
    Volume(Volume<Disk>),
}

impl Opened {
    fn image(&self) -> &Image {
        match self {
            Opened::Image(image) => image,
            // Where a change was interrupted, the command has ended.
            Opened::Volume(volume) => volume.image().expect("a volume whose changes are done"),
        }
    }
}

/// Opens the card, with these files or with all, and with `--touch` sets their access times. A name
/// that isn't there, and what `judge` finds, is told before that.
fn opened(
    arguments: &Arguments,
    card: &OsStr,
    names: Option<&[OsString]>,
    judge: &dyn Fn(&[Entry]) -> Result<(), Failure>,
) -> Result<(Opened, Vec<Entry>), Failure> {
    let wait = arguments.wait()?;
    let Some(time) = touch(arguments)? else {
        let image = card::read(card, wait)?;
        let files = files(card, &image, names)?;
        return Ok((Opened::Image(image), files));
    };
    let mut volume = logging::volume(arguments, card)?;
    let image = volume.image().map_err(of_card(card))?;
    edition_for(card, image, time)?;
    let found = files(card, image, names)?;
    judge(&found)?;
    let is_frozen = image.is_frozen();
    let touches = found.iter().map(|file| Change::Touch {
        name: &file.name,
        time,
    });
    apply(&mut volume, &Vec::from_iter(touches)).map_err(of_card::<Error>(card))?;
    no_time_set(card, is_frozen);
    Ok((Opened::Volume(volume), found))
}

fn files(card: &OsStr, image: &Image, names: Option<&[OsString]>) -> Result<Vec<Entry>, Failure> {
    let edition = image.summary().edition;
    match names {
        None => image.entries().map_err(of_card(card)),
        Some(names) => names
            .iter()
            .map(|name| {
                let name = name.as_bytes();
                image.find(name).map_err(of_call(card, name, edition))
            })
            .collect(),
    }
}

/// The file in the folder with the name that it has on the card.
fn in_folder(folder: &OsStr, name: &OsStr) -> Result<OsString, Failure> {
    // A name on the card may have slashes, or be `..`: it could lead out of the folder.
    let mut parts = Path::new(name).components();
    let first = parts.next();
    if first != Some(Component::Normal(name)) || parts.next().is_some() {
        return Err(Failure::Usage(format!(
            "{} can't be the name of a file in a folder; give it alone, with --as FILE",
            text::word(name.as_bytes())
        )));
    }
    Ok(Path::new(folder).join(name).into())
}

/// Not the card itself, and not a folder.
pub fn may_be_written(card: &OsStr, file: &OsStr) -> Result<(), Failure> {
    let found = fs::metadata(file);
    if let (Ok(one), Ok(other)) = (fs::metadata(card), &found) {
        if card::is_same(&one, other) {
            return Err(Failure::Other(format!(
                "{} is the card itself. Nothing was changed.\nNext: name another file to write to.",
                quoted(file)
            )));
        }
    }
    match found {
        Ok(metadata) if metadata.is_dir() => Err(of_file(file)(ErrorKind::IsADirectory.into())),
        Err(_) if file.is_empty() || file.as_bytes().ends_with(b"/") => {
            Err(of_file(file)(ErrorKind::NotFound.into()))
        }
        _ => Ok(()),
    }
}
