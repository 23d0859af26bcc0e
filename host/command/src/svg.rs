//! The picture of a volume as an SVG file.

use std::ffi::OsStr;
use std::fmt::Write;

use goofs::error::Refusal;

use crate::failure::quoted;
use crate::map::{free, told};
use crate::picture::{counted, Owner, Picture};
use crate::text;

const WIDTH: usize = 1_000;
const MARGIN: usize = 20;
const INNER: usize = WIDTH - 2 * MARGIN;
const AREA_HEIGHT: usize = 58;
const LINE: usize = 20;
/// Files in the legend; the others are counted.
const LEGEND: usize = 60;
/// Letters of a line in the legend.
const LONGEST_LINE: usize = 72;
/// Letters of a line over the whole width.
const LONGEST_SENTENCE: usize = 130;
const FREE: &str = "#f2f2f2";
const NOBODY: &str = "#d0021b";

pub fn drawn(card: &OsStr, picture: &Picture, refusal: Option<Refusal>) -> String {
    let mut body = String::new();
    let mut y = MARGIN + LINE;
    line(
        &mut body,
        MARGIN,
        y,
        18,
        &format!("Volume on {}", quoted(card)),
    );
    let judged = refusal.map_or("clean and sound".to_string(), |refusal| refusal.to_string());
    for part in wrapped(&judged) {
        y += LINE;
        line(&mut body, MARGIN, y, 13, &part);
    }
    y += LINE;
    areas(&mut body, y, picture);
    y += AREA_HEIGHT + LINE;
    y = extents(&mut body, y, picture) + 2 * LINE;
    y = legend(&mut body, y, picture) + MARGIN;
    format!(
        "<svg xmlns=\"http://www.w3.org/2000/svg\" width=\"{WIDTH}\" height=\"{y}\" viewBox=\"0 0 {WIDTH} {y}\" \
         font-family=\"sans-serif\">\n<rect width=\"{WIDTH}\" height=\"{y}\" fill=\"#ffffff\"/>\n{body}</svg>\n"
    )
}

/// A sentence in lines that are no longer than the picture is wide.
fn wrapped(text: &str) -> Vec<String> {
    let mut lines = vec![String::new()];
    for word in text.split(' ') {
        let last = lines.last_mut().expect("there is a line");
        match last.len() + word.len() < LONGEST_SENTENCE || last.is_empty() {
            true if last.is_empty() => last.push_str(word),
            true => last.extend([" ", word]),
            false => lines.push(word.to_string()),
        }
    }
    lines
}

/// Text with what XML has a meaning for escaped.
fn plain(text: &str) -> String {
    text.replace('&', "&amp;")
        .replace('<', "&lt;")
        .replace('>', "&gt;")
        .replace('"', "&quot;")
}

fn line(body: &mut String, x: usize, y: usize, size: usize, text: &str) {
    let text = plain(text);
    let _ = writeln!(
        body,
        "<text x=\"{x}\" y=\"{y}\" font-size=\"{size}\">{text}</text>"
    );
}

/// The areas one after the other, not to scale: the data would leave no room for the others.
fn areas(body: &mut String, y: usize, picture: &Picture) {
    let shares = [13, 7, 22, 13, 15, 30];
    let mut x = MARGIN;
    for ((name, first, sectors, what), share) in picture.areas().into_iter().zip(shares) {
        let width = INNER * share / 100;
        let _ = writeln!(
            body,
            "<rect x=\"{x}\" y=\"{y}\" width=\"{width}\" height=\"{AREA_HEIGHT}\" fill=\"#e8eef7\" \
             stroke=\"#5b6b82\"/>"
        );
        let place = match sectors {
            1 => format!("sector {first}"),
            _ => format!("{first} to {}", first + sectors - 1),
        };
        line(body, x + 6, y + 16, 13, name);
        line(body, x + 6, y + 33, 11, &place);
        line(body, x + 6, y + 49, 11, &what);
        x += width;
    }
}

/// A colour for each file; neighbours are far apart on the circle of hues.
fn colour(place: usize) -> String {
    // The golden angle, in degrees.
    let hue = place as f64 * 137.508 % 360.0;
    let lightness = [0.62, 0.48, 0.74][place % 3];
    let channel = |n: f64| {
        let k = (n + hue / 30.0) % 12.0;
        let chroma = 0.65 * f64::min(lightness, 1.0 - lightness);
        let value = lightness - chroma * (k - 3.0).min(9.0 - k).clamp(-1.0, 1.0);
        (value * 255.0).round() as u8
    };
    format!(
        "#{:02x}{:02x}{:02x}",
        channel(0.0),
        channel(8.0),
        channel(4.0)
    )
}

fn fill(owner: Owner) -> String {
    match owner {
        Owner::Free => FREE.to_string(),
        Owner::Nobody => NOBODY.to_string(),
        Owner::File(place) => colour(place),
    }
}

/// A square for each extent, in rows. Gives where they end.
fn extents(body: &mut String, y: usize, picture: &Picture) -> usize {
    let columns = match picture.owners.len() {
        ..=256 => 16,
        257..=1_024 => 32,
        1_025..=4_096 => 64,
        4_097..=16_384 => 128,
        _ => 256,
    };
    let side = INNER as f64 / columns as f64;
    // A row is no higher than it needs to be.
    let height = side.min(30.0);
    let above = format!(
        "Extents 0 to {}, {columns} in a row",
        picture.owners.len() - 1
    );
    line(body, MARGIN, y, 13, &above);
    let top = (y + 8) as f64;
    for (row, owners) in picture.owners.chunks(columns).enumerate() {
        let y = top + row as f64 * height;
        let mut column = 0;
        // One rectangle for neighbours of one owner.
        for run in owners.chunk_by(|one, other| one == other) {
            let x = MARGIN as f64 + column as f64 * side;
            let first = row * columns + column;
            let what = match run[0] {
                Owner::Free => "free".to_string(),
                Owner::Nobody => "of no file".to_string(),
                Owner::File(place) => text::word(&picture.files[place].name),
            };
            let _ = writeln!(
                body,
                "<rect x=\"{x:.2}\" y=\"{y:.2}\" width=\"{:.2}\" height=\"{height:.2}\" fill=\"{}\">\
                 <title>extent {first} to {}: {}</title></rect>",
                side * run.len() as f64,
                fill(run[0]),
                first + run.len() - 1,
                plain(&what)
            );
            column += run.len();
        }
    }
    let rows = picture.owners.len().div_ceil(columns);
    let bottom = top + rows as f64 * height;
    if columns <= 64 {
        grid(body, (top, bottom), (side, height), columns);
    }
    bottom.ceil() as usize
}

/// Lines between the extents, where they can be told apart. They are white, as is what is around them.
fn grid(body: &mut String, (top, bottom): (f64, f64), (side, height): (f64, f64), columns: usize) {
    let mut path = String::new();
    for column in 0..=columns {
        let x = MARGIN as f64 + column as f64 * side;
        let _ = write!(path, "M{x:.2} {top:.2}V{bottom:.2}");
    }
    let mut y = top;
    while y <= bottom {
        let _ = write!(path, "M{MARGIN} {y:.2}h{INNER}");
        y += height;
    }
    let _ = writeln!(
        body,
        "<path d=\"{path}\" stroke=\"#ffffff\" stroke-width=\"1\" fill=\"none\"/>"
    );
}

/// Two columns. Gives where they end.
fn legend(body: &mut String, y: usize, picture: &Picture) -> usize {
    let shown = picture.largest(LEGEND);
    let mut lines: Vec<(String, String)> = shown
        .iter()
        .map(|place| (colour(*place), told(&picture.files[*place])))
        .collect();
    let with_extents = picture.files.iter().filter(|file| file.extents > 0);
    let more = with_extents.count() - shown.len();
    if more > 0 {
        let what = format!(
            "and {}, each in a colour of its own",
            counted(more as u64, "more file")
        );
        lines.push(("none".to_string(), what));
    }
    if picture.nobody > 0 {
        let what = format!("{} of no file", counted(picture.nobody, "extent"));
        lines.push((NOBODY.to_string(), what));
    }
    lines.push((FREE.to_string(), free(picture)));
    let empty = picture
        .files
        .iter()
        .filter(|file| file.extents == 0)
        .count();
    if empty > 0 {
        let what = format!("{} without an extent", counted(empty as u64, "file"));
        lines.push(("none".to_string(), what));
    }
    let in_column = lines.len().div_ceil(2);
    for (i, (fill, what)) in lines.iter().enumerate() {
        let x = MARGIN + i / in_column * (INNER / 2);
        let y = y + i % in_column * LINE;
        let _ = writeln!(
            body,
            "<rect x=\"{x}\" y=\"{}\" width=\"14\" height=\"14\" fill=\"{fill}\" stroke=\"#c0c0c0\"/>",
            y - 11
        );
        let mut shown: String = what.chars().take(LONGEST_LINE).collect();
        if shown.len() < what.len() {
            shown.push_str(" ..");
        }
        line(body, x + 20, y, 12, &shown);
    }
    y + in_column * LINE
}
