//! The command map: the volume as a picture in the terminal, or in an SVG file.

use std::env;
use std::fmt::Write;
use std::io::{stdout, IsTerminal};

use goofs::error::Refusal;
use goofs::image::State;

use crate::arguments::Arguments;
use crate::card;
use crate::copying::may_be_written;
use crate::failure::{of_card, quoted, Failure};
use crate::output::{print, save};
use crate::picture::{counted, Owner, Picture};
use crate::svg;
use crate::text;

const CELLS_IN_ROW: usize = 64;
const ROWS: usize = 16;
/// A file's letter. More files than these share one sign.
const LETTERS: &[u8] = b"ABCDEFGHIJKLMNOPQRSTUVWXYZabcdefghijklmnopqrstuvwxyz0123456789";
const OTHER_FILES: char = '#';
const FREE: char = '.';
const NOBODY: char = '?';
/// Colours of the table of 256, on which black letters can be read. Files that follow one another differ.
const COLOURS: [u8; 12] = [117, 214, 120, 211, 227, 147, 43, 209, 153, 178, 182, 113];
const RED: u8 = 196;

pub fn map(arguments: &Arguments) -> Result<(), Failure> {
    let card = &arguments.places(&["CARD"])?[0];
    let is_coloured = is_coloured(arguments)?;
    let file = arguments.word("svg");
    if let Some(file) = file {
        may_be_written(card, file)?;
    }
    let image = card::read(card, arguments.wait()?)?;
    if image.summary().state == State::Unfinished {
        // Neither directory nor table says anything.
        return Err(of_card(card)(Refusal::Unfinished));
    }
    let picture = Picture::of(&image);
    let refusal = image.check().err();
    drop(image);
    if let Some(file) = file {
        return save(file, svg::drawn(card, &picture, refusal).as_bytes(), None);
    }
    let notice = refusal.map(|refusal| format!("{refusal}\nnext: goofs check {}\n", quoted(card)));
    print(&drawn(&picture, &notice.unwrap_or_default(), is_coloured))
}

/// Whether the picture has colours: by --color, else on a terminal that has them, unless NO_COLOR is set.
fn is_coloured(arguments: &Arguments) -> Result<bool, Failure> {
    let is_set = |name: &str| env::var_os(name).is_some_and(|value| !value.is_empty());
    match arguments.word("color").map(|when| when.to_str()) {
        Some(Some("always")) => Ok(true),
        Some(Some("never")) => Ok(false),
        None | Some(Some("auto")) => {
            let is_dumb = env::var_os("TERM").is_none_or(|terminal| terminal == "dumb");
            Ok(stdout().is_terminal() && !is_set("NO_COLOR") && !is_dumb)
        }
        _ => Err(Failure::Usage(
            "--color is always, never or auto".to_string(),
        )),
    }
}

/// A sign of the picture, with its colour.
#[derive(Clone, Copy)]
struct Sign(char, Option<u8>);

struct Signs {
    /// Of each file.
    files: Vec<Sign>,
    is_coloured: bool,
}

impl Signs {
    fn new(picture: &Picture, is_coloured: bool) -> Signs {
        let mut files = vec![Sign(OTHER_FILES, Some(250)); picture.files.len()];
        for (i, place) in picture.largest(LETTERS.len()).into_iter().enumerate() {
            files[place] = Sign(LETTERS[i] as char, Some(COLOURS[i % COLOURS.len()]));
        }
        Signs { files, is_coloured }
    }

    fn of(&self, owner: Owner) -> Sign {
        match owner {
            Owner::Free => Sign(FREE, None),
            Owner::Nobody => Sign(NOBODY, Some(RED)),
            Owner::File(place) => self.files[place],
        }
    }

    fn put(&self, text: &mut String, sign: Sign, times: usize) {
        let Sign(letter, colour) = sign;
        let letters = letter.to_string().repeat(times);
        let _ = match colour.filter(|_| self.is_coloured) {
            Some(colour) => write!(text, "\x1b[30;48;5;{colour}m{letters}\x1b[0m"),
            None => write!(text, "{letters}"),
        };
    }
}

/// The owner of most of a cell; free only if all of it is.
fn most(cell: &[Owner]) -> Owner {
    let held = || cell.iter().filter(|owner| **owner != Owner::Free);
    let count = |owner: &Owner| cell.iter().filter(|other| *other == owner).count();
    // Of several that have as much, the first.
    let best = held().rev().max_by_key(|owner| count(owner));
    best.copied().unwrap_or(Owner::Free)
}

fn drawn(picture: &Picture, notice: &str, is_coloured: bool) -> String {
    let signs = Signs::new(picture, is_coloured);
    let mut text = String::new();
    for (name, first, sectors, what) in picture.areas() {
        let last = first + sectors - 1;
        let line = format!("{name:<11} sectors {first} to {last}  {what}");
        let _ = writeln!(text, "{}", line.trim_end());
    }
    text.push_str(notice);
    let in_cell = picture.owners.len().div_ceil(ROWS * CELLS_IN_ROW);
    let cell = match in_cell {
        1 => "each sign is an extent".to_string(),
        _ => {
            format!("each sign is {in_cell} extents, and stands for the file that has most of them")
        }
    };
    let _ = writeln!(text, "\nfrom extent  {cell}");
    let cells: Vec<Owner> = picture.owners.chunks(in_cell).map(most).collect();
    for (i, row) in cells.chunks(CELLS_IN_ROW).enumerate() {
        let _ = write!(text, "{:>11}  ", i * CELLS_IN_ROW * in_cell);
        for run in row.chunk_by(|one, other| one == other) {
            signs.put(&mut text, signs.of(run[0]), run.len());
        }
        text.push('\n');
    }
    text.push('\n');
    legend(&mut text, picture, &signs);
    text
}

fn legend(text: &mut String, picture: &Picture, signs: &Signs) {
    let mut line = |sign: Sign, what: String| {
        text.push_str("  ");
        signs.put(text, sign, 1);
        let _ = writeln!(text, "  {what}");
    };
    let (mut others, mut extents, mut empty) = (0, 0, 0);
    for (file, sign) in picture.files.iter().zip(&signs.files) {
        match sign.0 {
            _ if file.extents == 0 => empty += 1,
            OTHER_FILES => {
                others += 1;
                extents += file.extents;
            }
            _ => line(*sign, told(file)),
        }
    }
    if others > 0 {
        let what = format!(
            "{} with fewer, together {}",
            counted(others, "other file"),
            counted(extents, "extent")
        );
        line(Sign(OTHER_FILES, Some(250)), what);
    }
    if picture.nobody > 0 {
        let what = format!("{} of no file", counted(picture.nobody, "extent"));
        line(signs.of(Owner::Nobody), what);
    }
    line(signs.of(Owner::Free), free(picture));
    if empty > 0 {
        let _ = writeln!(text, "     {} without an extent", counted(empty, "file"));
    }
}

/// A file's line in a legend.
pub fn told(file: &crate::picture::Shown) -> String {
    format!(
        "{}, {} bytes, {} in {}",
        text::word(&file.name),
        file.size,
        counted(file.extents, "extent"),
        counted(file.runs, "run")
    )
}

pub fn free(picture: &Picture) -> String {
    format!(
        "free, {}; {} of them no file gets",
        counted(picture.free, "extent"),
        picture.summary.reserve_extents()
    )
}
