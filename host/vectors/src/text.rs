//! Images as text: the bytes that aren't zero, by sector and offset. `README.md` of the folder
//! describes the format; spaces between the bytes and everything after a `#` are for the eye.

use std::fmt::Write;

use oracle::layout::{Edition, Extent, Geometry, JOURNAL_SECTORS, SECTOR};

/// The first line of every text.
const HEADING: &str = "goofs-volume 1";
/// Of a longer run of one byte only the byte and the count are written.
const LONG_RUN: usize = 32;
/// Bytes in a line that no field ends.
const LINE: usize = 32;
/// A text of more sectors is refused: 1 GiB.
const MOST_SECTORS: u64 = 1 << 21;

/// What an area's sectors hold, for the spaces and the comments.
#[derive(Clone, Copy)]
enum Area {
    Superblock,
    Root,
    Entry(u64),
    Journal,
    Table,
    Data(Extent, u64),
    /// After the volume, or in an image that holds none.
    Other,
}

impl Area {
    fn of(sector: u64, geometry: Option<Geometry>) -> Area {
        let Some(geometry) = geometry else {
            return if sector == 0 {
                Area::Superblock
            } else {
                Area::Other
            };
        };
        let journal = geometry.journal_at().0;
        let data = geometry.data_at().0;
        match sector {
            0 => Area::Superblock,
            1 => Area::Root,
            _ if sector < journal => Area::Entry(sector - 2),
            _ if sector < journal + JOURNAL_SECTORS => Area::Journal,
            _ if sector < data => Area::Table,
            _ if sector < geometry.end().0 => {
                let (extent, in_extent) = (
                    (sector - data) / geometry.extent_sectors(),
                    (sector - data) % geometry.extent_sectors(),
                );
                Area::Data(Extent(extent), in_extent)
            }
            _ => Area::Other,
        }
    }

    fn comment(self) -> String {
        match self {
            Area::Superblock => "superblock".to_string(),
            Area::Root => "root record".to_string(),
            Area::Entry(index) => format!("directory entry {index}"),
            Area::Journal => "journal".to_string(),
            Area::Table => "allocation table".to_string(),
            Area::Data(extent, sector) => format!("extent {}, its sector {sector}", extent.0),
            Area::Other => "outside the volume".to_string(),
        }
    }

    /// The widths of the fields at the sector's start, which stand in one line.
    fn fields(self, edition: Edition) -> Vec<usize> {
        let time = edition.entry_change_time() - oracle::layout::entry::ACCESS_TIME;
        match self {
            Area::Superblock => vec![2, 2, 4, 8, 2, 2],
            Area::Root => vec![4, 8, 4, time, time],
            Area::Entry(_) => vec![2, 8, 4, 8, 4, time, time, 2],
            _ => Vec::new(),
        }
    }

    /// The width of the fields that follow one another in the rest, if it has any.
    fn width(self) -> Option<usize> {
        match self {
            Area::Journal => Some(8),
            Area::Table => Some(2),
            _ => None,
        }
    }
}

/// The image as text. The edition and the geometry are those of the volume on it, if there is one.
pub fn to_text(image: &[u8], volume: Option<(Edition, Geometry)>) -> String {
    let mut text = format!("{HEADING}\nsectors {}\n", image.len() / SECTOR);
    let (edition, geometry) = match volume {
        Some((edition, geometry)) => (edition, Some(geometry)),
        None => (Edition::First, None),
    };
    for (number, sector) in (0..).zip(image.chunks_exact(SECTOR)) {
        if sector.iter().all(|byte| *byte == 0) {
            continue;
        }
        let area = Area::of(number, geometry);
        writeln!(text, "\nsector {number}  # {}", area.comment()).expect("a string takes it");
        let fields = area.fields(edition);
        let end: usize = fields.iter().sum();
        if sector[..end].iter().any(|byte| *byte != 0) {
            put_line(&mut text, 0, &sector[..end], &fields);
        }
        put_rest(&mut text, sector, end, area.width());
    }
    text
}

/// What follows the fields: runs of one byte shortened, zeros left out. Lines of an area with fields begin
/// where such a line can begin.
fn put_rest(text: &mut String, sector: &[u8], from: usize, width: Option<usize>) {
    let run = |at: usize| {
        let rest = &sector[at..];
        rest.iter().take_while(|byte| **byte == rest[0]).count()
    };
    // Where the line of this byte ends.
    let end_of = |at: usize| (at / LINE * LINE + LINE).min(SECTOR);
    let mut at = from;
    while at < SECTOR {
        let line_end = end_of(at);
        let length = run(at);
        if sector[at] != 0 && length >= LONG_RUN {
            writeln!(text, "{at:3} {:02x} times {length}", sector[at]).expect("a string takes it");
            at += length;
        } else if sector[at..line_end].iter().all(|byte| *byte == 0) {
            at = line_end;
        } else if sector[at] == 0 && width.is_none() {
            at += length;
        } else {
            // Up to a run that is shortened, and without the zeros at the end.
            let shortened = |next: &usize| sector[*next] != 0 && run(*next) >= LONG_RUN;
            let end = (at + 1..line_end).find(shortened).unwrap_or(line_end);
            let zeros = sector[at..end].iter().rev().take_while(|byte| **byte == 0);
            // Entries of table and journal have two fields of one width.
            let unit = width.map_or(1, |width| 2 * width);
            let kept = (end - at - zeros.count())
                .next_multiple_of(unit)
                .min(end - at);
            let fields = vec![width.unwrap_or(LINE); LINE];
            if kept > 0 {
                put_line(text, at, &sector[at..at + kept], &fields);
            }
            at = end;
        }
    }
}

/// A line of bytes with a space after each width; bytes that are text are told in a comment.
fn put_line(text: &mut String, at: usize, bytes: &[u8], widths: &[usize]) {
    write!(text, "{at:3}").expect("a string takes it");
    let mut rest = bytes;
    for width in widths {
        if rest.is_empty() {
            break;
        }
        let (field, later) = rest.split_at(rest.len().min(*width));
        text.push(' ');
        for byte in field {
            write!(text, "{byte:02x}").expect("a string takes it");
        }
        rest = later;
    }
    let letters = bytes.strip_suffix(b"\n").unwrap_or(bytes);
    if letters.iter().all(|byte| (b' '..=b'~').contains(byte)) {
        write!(text, "  # {}", String::from_utf8_lossy(letters)).expect("a string takes it");
    }
    text.truncate(text.trim_end().len());
    text.push('\n');
}

/// The image of a text, or what is wrong with it, with the number of the line.
pub fn to_image(text: &str) -> Result<Vec<u8>, String> {
    let lines = (1..).zip(text.lines()).map(|(number, line)| {
        let line = line.split('#').next().unwrap_or("");
        (number, line.split_whitespace().collect::<Vec<_>>())
    });
    let mut lines = lines.filter(|(_, words)| !words.is_empty());
    let mut next = |what: &str| {
        lines
            .next()
            .ok_or(format!("the text ends before its {what}"))
    };

    let (number, words) = next("heading")?;
    if words.join(" ") != HEADING {
        return Err(format!("line {number} is not \"{HEADING}\""));
    }
    let (number, words) = next("number of sectors")?;
    let sectors = match words[..] {
        ["sectors", count] => decimal(count).filter(|count| *count <= MOST_SECTORS),
        _ => None,
    };
    let sectors = sectors.ok_or(format!("line {number} is not a number of sectors"))?;
    let mut image = vec![0; sectors as usize * SECTOR];
    // Sectors and the bytes in them stand in rising order, so that nothing is said twice.
    let mut first_sector = 0;
    let mut sector: Option<&mut [u8]> = None;
    let mut first_byte = 0;
    for (line, words) in lines {
        let wrong = |what: &str| format!("line {line}: {what}");
        if let ["sector", given] = words[..] {
            let given = decimal(given).filter(|given| (first_sector..sectors).contains(given));
            let given = given.ok_or(wrong("not a sector of the image after the last one"))?;
            let at = given as usize * SECTOR;
            sector = Some(&mut image[at..at + SECTOR]);
            (first_sector, first_byte) = (given + 1, 0);
            continue;
        }
        let sector = sector
            .as_mut()
            .ok_or(wrong("bytes before the first sector"))?;
        let at = decimal(words[0]).ok_or(wrong("not an offset"))?;
        let bytes = bytes_of(&words[1..]).ok_or(wrong("not bytes in hexadecimal"))?;
        if at < first_byte || at + bytes.len() as u64 > SECTOR as u64 {
            return Err(wrong("not in the sector after the last bytes"));
        }
        first_byte = at + bytes.len() as u64;
        sector[at as usize..first_byte as usize].copy_from_slice(&bytes);
    }
    Ok(image)
}

/// A number of at most ten decimal digits.
fn decimal(word: &str) -> Option<u64> {
    let good = word.len() <= 10 && word.bytes().all(|byte| byte.is_ascii_digit());
    word.parse().ok().filter(|_| good)
}

/// Bytes one after the other, or one byte and how often it stands there.
fn bytes_of(words: &[&str]) -> Option<Vec<u8>> {
    if let [byte, "times", count] = words {
        let count = decimal(count).filter(|count| *count <= SECTOR as u64)?;
        return match bytes_of(&[byte])?[..] {
            [byte] => Some(vec![byte; count as usize]),
            _ => None,
        };
    }
    let mut bytes = Vec::new();
    for word in words {
        for pair in word.as_bytes().chunks(2) {
            let [high, low] = pair else { return None };
            let digit = |byte: &u8| char::from(*byte).to_digit(16);
            bytes.push((digit(high)? * 16 + digit(low)?) as u8);
        }
    }
    (!bytes.is_empty()).then_some(bytes)
}

#[cfg(test)]
mod tests {
    use super::*;
    use oracle::draw::Draw;

    /// Any image comes back, with and without a geometry: noise, runs, zeros, everything at the edges.
    #[test]
    fn there_and_back() {
        let geometry = Geometry::new(255, 2, 128).unwrap();
        let mut draw = Draw::new(31);
        for round in 0..200 {
            let mut image = vec![0; geometry.end().0 as usize * SECTOR + SECTOR];
            for _ in 0..40 {
                let length = draw.between(1, 700) as usize;
                let at = draw.below((image.len() - length) as u64) as usize;
                match draw.below(3) {
                    0 => image[at..at + length].fill(draw.number() as u8),
                    1 => image[at..at + length.min(40)].fill(255),
                    _ => draw.fill(&mut image[at..at + length]),
                }
            }
            for sector in [0, 1, 2, 257, 289, 290, 545, 546] {
                let at = sector * SECTOR + draw.below(64) as usize;
                draw.fill(&mut image[at..at + 300]);
            }
            let edition = Edition::BOTH[round % 2];
            for volume in [None, Some((edition, geometry))] {
                let text = to_text(&image, volume);
                assert!(to_image(&text) == Ok(image.clone()), "round {round}");
            }
        }
        assert_eq!(to_image(&to_text(&[], None)), Ok(Vec::new()));
    }

    #[test]
    fn a_text_by_hand() {
        let text = "# a comment\ngoofs-volume 1\nsectors 2\nsector 1 # the second\n0 01 0203\n510 ff times 2\n";
        let mut image = vec![0; 1_024];
        image[512..515].copy_from_slice(&[1, 2, 3]);
        image[1_022..].fill(255);
        assert_eq!(to_image(text), Ok(image));
    }

    /// Each of these is refused, and the line is named.
    #[test]
    fn texts_that_are_refused() {
        let good = "goofs-volume 1\nsectors 2\nsector 1\n0 01\n";
        assert!(to_image(good).is_ok());
        for (text, line) in [
            ("goofs-volume 2\nsectors 2\n", "line 1"),
            ("goofs-volume 1\n", "the text ends"),
            ("", "the text ends"),
            ("goofs-volume 1\nsectors two\n", "line 2"),
            ("goofs-volume 1\nsectors 99999999\n", "line 2"),
            ("goofs-volume 1\nsectors 2\n0 01\n", "line 3"),
            ("goofs-volume 1\nsectors 2\nsector 2\n", "line 3"),
            ("goofs-volume 1\nsectors 2\nsector -1\n", "line 3"),
            ("goofs-volume 1\nsectors 2\nsector 1\nsector 1\n", "line 4"),
            ("goofs-volume 1\nsectors 2\nsector 1\nsector 0\n", "line 4"),
            ("goofs-volume 1\nsectors 2\nsector 1\n0\n", "line 4"),
            ("goofs-volume 1\nsectors 2\nsector 1\n0 012\n", "line 4"),
            ("goofs-volume 1\nsectors 2\nsector 1\n0 0g\n", "line 4"),
            ("goofs-volume 1\nsectors 2\nsector 1\n+0 01\n", "line 4"),
            ("goofs-volume 1\nsectors 2\nsector 1\n512 01\n", "line 4"),
            ("goofs-volume 1\nsectors 2\nsector 1\n511 0102\n", "line 4"),
            (
                "goofs-volume 1\nsectors 2\nsector 1\n0 01 times 513\n",
                "line 4",
            ),
            (
                "goofs-volume 1\nsectors 2\nsector 1\n0 0102 times 2\n",
                "line 4",
            ),
            (
                "goofs-volume 1\nsectors 2\nsector 1\n1 01\n0 01\n",
                "line 5",
            ),
            (
                "goofs-volume 1\nsectors 2\nsector 1\n0 0102\n1 01\n",
                "line 5",
            ),
        ] {
            let refused = to_image(text).unwrap_err();
            assert!(refused.starts_with(line), "{text:?}: {refused}");
        }
    }
}
