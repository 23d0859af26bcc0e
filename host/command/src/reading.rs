//! The commands that read: info, check and ls. Only ls with `--touch`, as get, changes a card, and only
//! an access time.

use std::ffi::{OsStr, OsString};
use std::fmt::Write as _;
use std::os::unix::ffi::OsStrExt;

use goofs::error::{Error, Refusal};
use goofs::image::{Edition, Entry, Image, State};
use goofs::names;
use goofs::system::Held;

use crate::arguments::Arguments;
use crate::card;
use crate::changing::{edition_for, time};
use crate::failure::{of_call, of_card, quoted, to_a_larger_card, Failure};
use crate::json;
use crate::logging;
use crate::output::{print, print_error};
use crate::space::Space;
use crate::text;

pub fn info(arguments: &Arguments) -> Result<(), Failure> {
    let card = &arguments.places(&["CARD"])?[0];
    let image = card::read(card, arguments.wait()?)?;
    if arguments.flag("json") {
        return print(&format!("{}\n", json::info(&image)));
    }
    let summary = image.summary();
    let root = image.root();
    let state = match summary.state {
        State::Clean => "clean".to_string(),
        State::Waiting(sectors) => format!(
            "waiting: a change of {sectors} sectors was cut; next: goofs recover {}",
            quoted(card)
        ),
        State::Damaged => "damaged: the journal's length is out of bounds".to_string(),
        State::Unfinished => "unfinished: a format was cut; format again".to_string(),
    };
    let mut text = String::new();
    let mut line = |what: &str, value: String| {
        let _ = writeln!(text, "{what:<16} {value}");
    };
    line("state", state);
    if summary.state == State::Clean {
        line(
            "sound",
            match image.check() {
                Ok(()) => "yes".to_string(),
                Err(Refusal::NotSound(fault)) => {
                    format!("no: {fault}; next: goofs check {}", quoted(card))
                }
                Err(refusal) => format!("no: {refusal}"),
            },
        );
    }
    line(
        "edition",
        match summary.edition {
            Edition::First => "1: times of 32 bits, up to the year 2106".to_string(),
            Edition::Second => format!(
                "2: times of 64 bits, names of at most {} bytes",
                Edition::Second.longest_name()
            ),
        },
    );
    line("sectors", format!("{} of 512 bytes", summary.sectors()));
    line("files at most", summary.files.to_string());
    line(
        "extents",
        format!(
            "{} of {} sectors ({} bytes)",
            summary.extents,
            summary.extent_sectors,
            summary.extent_bytes()
        ),
    );
    line("directory at", "2".to_string());
    line("journal at", summary.journal_at().to_string());
    line(
        "table at",
        format!(
            "{}, {} sectors",
            summary.table_at(),
            summary.table_sectors()
        ),
    );
    line("data at", summary.data_at().to_string());
    line(
        "reserve at",
        format!(
            "{}, {} extents",
            summary.reserve_at(),
            summary.reserve_extents()
        ),
    );
    if summary.state != State::Unfinished {
        line(
            "root",
            format!(
                "id {}, mode {:o}, version {}, changed {}, accessed {}",
                root.id,
                root.mode,
                root.version,
                text::time(root.change_time),
                text::time(root.access_time)
            ),
        );
        let space = Space::of(&image);
        line("extents used", image.used_extents().to_string());
        line(
            "extents free",
            format!(
                "{}, of which {} must stay free; {} ({} bytes) for files",
                image.free_extents(),
                summary.reserve_extents(),
                space.free,
                space.free * space.extent_bytes
            ),
        );
        line("room", space.to_string());
        if let Some(old) = space.frozen {
            let next = match image.check() {
                Ok(()) => to_a_larger_card(&quoted(card), old),
                Err(_) => "see state and sound above".to_string(),
            };
            line(
                "frozen",
                format!("yes: too few extents are free for any change; next: {next}"),
            );
        }
    }
    print(&text)
}

pub fn check(arguments: &Arguments) -> Result<(), Failure> {
    let card = &arguments.places(&["CARD"])?[0];
    let image = card::read(card, arguments.wait()?);
    let files = image.and_then(|image| image.entries().map_err(of_card(card)));
    if arguments.flag("json") {
        if let Some(said) = json::check(&files) {
            print(&format!("{said}\n"))?;
        }
        return files.map(drop);
    }
    let files = files?;
    let left = leftovers(card, &files);
    print(&format!("sound, {} files\n{left}", files.len()))
}

/// A line for each file that a put, cut short, has left beside another, with what to do about it.
pub fn leftovers(card: &OsStr, files: &[Entry]) -> String {
    let left = files.iter().filter(|file| names::is_beside(&file.name));
    left.map(|file| {
        let (card, name) = (quoted(card), text::word(&file.name));
        format!(
            "left by a put that was cut: {name}, {} bytes. \
             Next: give the put again, which removes it, or goofs rm {card} -- {name}.\n",
            file.size
        )
    })
    .collect()
}

/// The time to be set as access time, if one is.
pub fn touch(arguments: &Arguments) -> Result<Option<u64>, Failure> {
    if arguments.flag("touch") {
        return time(arguments).map(Some);
    }
    let for_touch = ["time", "log"];
    let given = for_touch
        .iter()
        .find(|option| arguments.word(option).is_some());
    match given {
        Some(option) => Err(Failure::Usage(format!("--{option} is for --touch"))),
        None => Ok(None),
    }
}

/// On a frozen volume `--touch` leaves access times as they are, which is no failure.
pub fn no_time_set(card: &OsStr, is_frozen: bool) {
    if is_frozen {
        let card = quoted(card);
        print_error(&format!(
            "{card}: no access time was set, as too few extents are free for any change. \
             Next: goofs info {card} says what to do.\n"
        ));
    }
}

/// All files, and with `--touch` the root's access time set.
fn files(arguments: &Arguments, card: &OsStr) -> Result<Vec<Entry>, Failure> {
    let wait = arguments.wait()?;
    let Some(time) = touch(arguments)? else {
        return card::read(card, wait)?.entries().map_err(of_card(card));
    };
    let mut volume = logging::volume(arguments, card)?;
    let image = volume.image().map_err(of_card(card))?;
    edition_for(card, image, time)?;
    let is_frozen = image.is_frozen();
    let _held = Held::new();
    let files = volume.entries(time).map_err(of_card::<Error>(card))?;
    no_time_set(card, is_frozen);
    Ok(files)
}

pub fn ls(arguments: &Arguments) -> Result<(), Failure> {
    let card = &arguments.places(&["CARD"])?[0];
    let is_json = arguments.flag("json");
    if is_json && (arguments.flag("accessed") || arguments.flag("numeric")) {
        return Err(Failure::Usage(
            "--json has both times, in seconds; leave --accessed and --numeric out".to_string(),
        ));
    }
    let files = files(arguments, card)?;
    let shown = |seconds: u64| match arguments.flag("numeric") {
        true => seconds.to_string(),
        false => text::time(seconds),
    };
    let mut lines = String::new();
    if is_json {
        let _ = writeln!(lines, "{}", json::ls(&files));
    }
    for entry in files.iter().filter(|_| !is_json) {
        let (what, time) = match arguments.flag("accessed") {
            true => ("accessed", entry.access_time),
            false => ("changed", entry.change_time),
        };
        let _ = writeln!(
            lines,
            "{:>12} bytes  version {:<4} id {:<6} mode {:<6o} {what} {}  {}",
            entry.size,
            entry.version,
            entry.id,
            entry.mode,
            shown(time),
            text::word(&entry.name)
        );
    }
    print(&lines)?;
    // Not among the lines, which a program may read.
    print_error(&leftovers(card, &files));
    Ok(())
}

/// Finds out the first name that no file has.
pub fn all_there(card: &OsStr, image: &Image, names: &[OsString]) -> Result<(), Failure> {
    let edition = image.summary().edition;
    for name in names {
        let name = name.as_bytes();
        image.find(name).map_err(of_call(card, name, edition))?;
    }
    Ok(())
}
