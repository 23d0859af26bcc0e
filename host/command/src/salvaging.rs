//! The command salvage: the whole files of a volume that is not sound, and why the others are not.

use std::collections::BTreeMap;
use std::ffi::OsStr;
use std::fmt::Write;

use goofs::device::SECTOR;
use goofs::error::Error;
use goofs::image::{Entry, Image, LONGEST_TRANSFER};
use goofs::salvage::{Journal, Salvage};

use crate::arguments::Arguments;
use crate::card;
use crate::failure::{of_card, quoted, Failure};
use crate::folder::Targets;
use crate::output::print;
use crate::picture::counted;
use crate::progress::Progress;
use crate::text;

pub fn salvage(arguments: &Arguments) -> Result<(), Failure> {
    let places = arguments.places(&["CARD", "FOLDER"])?;
    let (card, folder) = (&places[0], &places[1]);
    let mut image = card::read(card, arguments.wait()?)?;
    let salvage = image.salvage().map_err(of_card(card))?;
    let Read { whole, unread } = read(&image, &salvage);
    let targets = Targets::new(card, folder, &whole, arguments.flag("replace"))?;
    print(&told(&salvage, &unread))?;
    print(&targets.copy(card, &image, arguments.flag("preserve"))?)?;
    let lost = salvage.lost.len() + unread.len();
    match lost {
        0 => Ok(()),
        _ => Err(not_all(card, folder, lost, whole.len())),
    }
}

/// The files whose bytes the medium gives, and the others with its answer.
struct Read {
    whole: Vec<Entry>,
    unread: Vec<(Entry, Error)>,
}

/// Reads all files before the first is copied, so that it is known which the card gives whole. They are
/// read by their extents: a read by the volume code would judge the volume for each piece.
fn read(image: &Image, salvage: &Salvage) -> Read {
    let summary = image.summary();
    let mut extents: BTreeMap<u64, Vec<(u64, u64)>> = BTreeMap::new();
    for (extent, holder) in (0..).zip(image.holders()) {
        if let Some(holder) = holder {
            extents
                .entry(holder.file)
                .or_default()
                .push((holder.offset, extent));
        }
    }
    let all = salvage.whole.iter().map(|file| file.size).sum();
    let mut progress = Progress::new("bytes read", all);
    let (mut whole, mut unread) = (Vec::new(), Vec::new());
    let mut piece = vec![0; LONGEST_TRANSFER];
    for entry in &salvage.whole {
        let own = extents.get(&entry.index).map_or(&[][..], Vec::as_slice);
        let mut read = || {
            for (offset, extent) in own {
                let before = offset * summary.extent_bytes();
                let count = (entry.size - before).min(summary.extent_bytes());
                // The medium gives whole sectors.
                let count = count.next_multiple_of(SECTOR as u64);
                let first = summary.data_at() + extent * summary.extent_sectors;
                let mut done = 0;
                while done < count {
                    let length = (count - done).min(LONGEST_TRANSFER as u64);
                    let piece = &mut piece[..length as usize];
                    image.sectors(first + done / SECTOR as u64, piece)?;
                    done += length;
                    progress.more(length);
                }
            }
            Ok(())
        };
        match read() {
            Ok(()) => whole.push(entry.clone()),
            Err(error) => unread.push((entry.clone(), error)),
        }
    }
    Read { whole, unread }
}

/// What is not copied, a line for each file, and what was done in memory.
fn told(salvage: &Salvage, unread: &[(Entry, Error)]) -> String {
    let mut text = match salvage.journal {
        Journal::Clean => String::new(),
        Journal::Finished => "a change was cut: it is finished for this, in memory\n".to_string(),
        Journal::Unknown => {
            "the journal is damaged: a change may be half done, and a file may be the old one\n"
                .to_string()
        }
        Journal::Unreadable => {
            "a change was cut, and its copies can't be read: it may be half done, and a file may be the old one\n"
                .to_string()
        }
    };
    let mut line = |entry: &Entry, why: &str| {
        let _ = writeln!(
            text,
            "not whole: entry {}, {}, {} bytes: {why}",
            entry.index,
            text::word(&entry.name),
            entry.size
        );
    };
    for lost in &salvage.lost {
        let why: Vec<String> = lost.why.iter().map(|why| why.to_string()).collect();
        line(&lost.entry, &why.join("; "));
    }
    for (entry, error) in unread {
        line(entry, &error.to_string());
    }
    if salvage.stray > 0 {
        let _ = writeln!(text, "{} of no file", counted(salvage.stray, "extent"));
    }
    text
}

fn not_all(card: &OsStr, folder: &OsStr, lost: usize, whole: usize) -> Failure {
    let card = quoted(card);
    Failure::Other(format!(
        "{card}: {} not whole and not copied; {} copied to {}. Nothing was changed on the card.\n\
         Next: see that the copies are what you need. Keep a copy of the card (dd if={card} of=COPY) if \
         someone is to look at the rest; then goofs format {card} --yes, and put the files back.",
        match lost {
            1 => "1 entry is".to_string(),
            _ => format!("{lost} entries are"),
        },
        counted(whole as u64, "file"),
        quoted(folder)
    ))
}
