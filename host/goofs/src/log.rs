//! A log of the calls that change a volume: a line of text for each, with all of its arguments, which is
//! out of the box before the call's first write goes to the medium. After a cut of the power `goofs audit`
//! replays it and says whether the volume is what it gives. docs/RELAY.md has the format.

use std::fmt::{self, Write as _};
use std::fs::{File, OpenOptions};
use std::io::{self, ErrorKind, Read, Seek, SeekFrom, Write};
use std::path::Path;

use crate::change::{Change, Format};
use crate::image::Edition;

/// The start of each line. Other lines, as a box may print on the same serial line, are passed over.
const MARK: &[u8] = b"goofs ";
/// Before the checksum, which ends a line.
const SUM: &[u8] = b" sum=";

/// What a line says. The calls have the arguments that the volume code takes.
#[derive(Clone, Debug, PartialEq, Eq)]
pub enum Line {
    /// The box, or a program, has been started; a call before this may have been cut.
    Start,
    Format(Format),
    Create {
        name: Vec<u8>,
        id: u64,
        mode: u32,
        time: u64,
    },
    Delete {
        name: Vec<u8>,
        time: u64,
    },
    Rename {
        old: Vec<u8>,
        new: Vec<u8>,
        time: u64,
    },
    /// Old and new name of each.
    RenameSet {
        renames: Vec<(Vec<u8>, Vec<u8>)>,
        time: u64,
    },
    Resize {
        name: Vec<u8>,
        size: u64,
        time: u64,
    },
    Write {
        name: Vec<u8>,
        offset: u64,
        data: Vec<u8>,
        time: u64,
    },
    /// A read that sets the file's access time.
    Read {
        name: Vec<u8>,
        offset: u64,
        count: u64,
        time: u64,
    },
    /// The listing of one entry, which sets the root's access time.
    List {
        index: u64,
        time: u64,
    },
    Repair,
    Recover,
    /// The last call is on the medium.
    Done,
    /// An audit's finding of the last call: it is not done, and these of its data sectors landed, by
    /// their place among them.
    Cut {
        landed: Vec<u64>,
    },
}

impl From<&Change<'_>> for Line {
    fn from(change: &Change) -> Line {
        match *change {
            Change::Create {
                name,
                id,
                mode,
                time,
            } => Line::Create {
                name: name.to_vec(),
                id,
                mode,
                time,
            },
            Change::Delete { name, time } => Line::Delete {
                name: name.to_vec(),
                time,
            },
            Change::Rename { old, new, time } => Line::Rename {
                old: old.to_vec(),
                new: new.to_vec(),
                time,
            },
            Change::RenameSet { renames, time } => Line::RenameSet {
                renames: renames
                    .iter()
                    .map(|(old, new)| (old.to_vec(), new.to_vec()))
                    .collect(),
                time,
            },
            Change::Resize { name, size, time } => Line::Resize {
                name: name.to_vec(),
                size,
                time,
            },
            Change::Write {
                name,
                offset,
                data,
                time,
            } => Line::Write {
                name: name.to_vec(),
                offset,
                data: data.to_vec(),
                time,
            },
            Change::Touch { name, time } => Line::Read {
                name: name.to_vec(),
                offset: 0,
                count: 0,
                time,
            },
            Change::TouchRoot { index, time } => Line::List { index, time },
        }
    }
}

/// A name: bytes that can't be typed, and the percent sign, as `%` and two digits.
struct Name<'n>(&'n [u8]);

impl fmt::Display for Name<'_> {
    fn fmt(&self, f: &mut fmt::Formatter) -> fmt::Result {
        for byte in self.0 {
            match byte {
                b'%' => f.write_str("%25")?,
                33..=126 => f.write_char(char::from(*byte))?,
                _ => write!(f, "%{byte:02x}")?,
            }
        }
        Ok(())
    }
}

/// Two digits for each byte.
struct Hex<'h>(&'h [u8]);

impl fmt::Display for Hex<'_> {
    fn fmt(&self, f: &mut fmt::Formatter) -> fmt::Result {
        const DIGITS: &[u8; 16] = b"0123456789abcdef";
        let mut text = String::with_capacity(2 * self.0.len());
        for byte in self.0 {
            text.push(char::from(DIGITS[usize::from(byte >> 4)]));
            text.push(char::from(DIGITS[usize::from(byte & 15)]));
        }
        f.write_str(&text)
    }
}

/// The line without its start and its checksum.
impl fmt::Display for Line {
    fn fmt(&self, f: &mut fmt::Formatter) -> fmt::Result {
        match self {
            Line::Start => f.write_str("start"),
            Line::Format(format) => write!(
                f,
                "format sectors={} files={} edition={} id={} mode={:o} time={}",
                format.sectors,
                format.files,
                format.edition.number(),
                format.id,
                format.mode,
                format.time
            ),
            Line::Create {
                name,
                id,
                mode,
                time,
            } => write!(
                f,
                "create name={} id={id} mode={mode:o} time={time}",
                Name(name)
            ),
            Line::Delete { name, time } => write!(f, "delete name={} time={time}", Name(name)),
            Line::Rename { old, new, time } => {
                write!(f, "rename old={} new={} time={time}", Name(old), Name(new))
            }
            Line::RenameSet { renames, time } => {
                f.write_str("rename_set")?;
                for (old, new) in renames {
                    write!(f, " old={} new={}", Name(old), Name(new))?;
                }
                write!(f, " time={time}")
            }
            Line::Resize { name, size, time } => {
                write!(f, "resize name={} size={size} time={time}", Name(name))
            }
            Line::Write {
                name,
                offset,
                data,
                time,
            } => write!(
                f,
                "write name={} offset={offset} time={time} data={}",
                Name(name),
                Hex(data)
            ),
            Line::Read {
                name,
                offset,
                count,
                time,
            } => write!(
                f,
                "read name={} offset={offset} count={count} time={time}",
                Name(name)
            ),
            Line::List { index, time } => write!(f, "list index={index} time={time}"),
            Line::Repair => f.write_str("repair"),
            Line::Recover => f.write_str("recover"),
            Line::Done => f.write_str("done"),
            Line::Cut { landed } => {
                let landed: Vec<String> = landed.iter().map(u64::to_string).collect();
                write!(f, "cut landed={}", landed.join(","))
            }
        }
    }
}

/// CRC-32, as in zip and Ethernet.
fn checksum(bytes: &[u8]) -> u32 {
    const REVERSED: u32 = 0xedb8_8320;
    let mut sum = u32::MAX;
    for byte in bytes {
        sum ^= u32::from(*byte);
        for _ in 0..8 {
            sum = (sum >> 1) ^ (REVERSED & (sum & 1).wrapping_neg());
        }
    }
    !sum
}

/// Why a line can't be read.
#[derive(Clone, Debug, PartialEq, Eq)]
pub enum BadLine {
    /// It is not whole: its checksum is missing or wrong.
    Damaged,
    /// It is whole, and says something that this version doesn't know.
    Unknown(String),
}

/// The words of a line, each with its key.
struct Words<'w> {
    left: std::slice::Split<'w, u8, fn(&u8) -> bool>,
}

impl<'w> Words<'w> {
    fn value(&mut self, key: &str) -> Result<&'w [u8], BadLine> {
        let word = self.left.next();
        word.and_then(|word| word.strip_prefix(key.as_bytes())?.strip_prefix(b"="))
            .ok_or_else(|| BadLine::Unknown(format!("{key}= is missing")))
    }

    fn number(&mut self, key: &str, radix: u32) -> Result<u64, BadLine> {
        number(self.value(key)?, radix)
            .ok_or_else(|| BadLine::Unknown(format!("{key}= is no number of these bounds")))
    }

    fn mode(&mut self) -> Result<u32, BadLine> {
        let mode = self.number("mode", 8)?;
        u32::try_from(mode).map_err(|_| BadLine::Unknown("mode= has more than 32 bits".to_string()))
    }

    fn name(&mut self, key: &str) -> Result<Vec<u8>, BadLine> {
        unescaped(self.value(key)?)
            .ok_or_else(|| BadLine::Unknown(format!("{key}= has an incomplete %")))
    }

    /// Pairs of an old and a new name, as many as follow.
    fn renames(&mut self) -> Result<Vec<(Vec<u8>, Vec<u8>)>, BadLine> {
        let mut renames = Vec::new();
        let is_old = |word: &[u8]| word.starts_with(b"old=");
        while self.left.clone().next().is_some_and(is_old) {
            renames.push((self.name("old")?, self.name("new")?));
        }
        Ok(renames)
    }

    fn data(&mut self, key: &str) -> Result<Vec<u8>, BadLine> {
        bytes_of(self.value(key)?)
            .ok_or_else(|| BadLine::Unknown(format!("{key}= is not two digits for each byte")))
    }

    fn numbers(&mut self, key: &str) -> Result<Vec<u64>, BadLine> {
        let value = self.value(key)?;
        if value.is_empty() {
            return Ok(Vec::new());
        }
        let numbers = value
            .split(|byte| *byte == b',')
            .map(|word| number(word, 10));
        numbers
            .collect::<Option<_>>()
            .ok_or_else(|| BadLine::Unknown(format!("{key}= is not a list of numbers")))
    }
}

fn number(word: &[u8], radix: u32) -> Option<u64> {
    let is_digits = word.iter().all(u8::is_ascii_digit);
    let word = std::str::from_utf8(word).ok().filter(|_| is_digits)?;
    u64::from_str_radix(word, radix).ok()
}

fn digit(byte: u8) -> Option<u8> {
    char::from(byte).to_digit(16).map(|digit| digit as u8)
}

fn bytes_of(hex: &[u8]) -> Option<Vec<u8>> {
    let pairs = hex.chunks(2).map(|pair| match pair {
        [high, low] => Some(digit(*high)? << 4 | digit(*low)?),
        _ => None,
    });
    pairs.collect()
}

fn unescaped(mut word: &[u8]) -> Option<Vec<u8>> {
    let mut name = Vec::new();
    while let Some((first, rest)) = word.split_first() {
        let (byte, rest) = match (first, rest) {
            (b'%', [high, low, rest @ ..]) => (digit(*high)? << 4 | digit(*low)?, rest),
            (b'%', _) => return None,
            _ => (*first, rest),
        };
        name.push(byte);
        word = rest;
    }
    Some(name)
}

impl Line {
    /// The whole line, with its newline.
    pub fn record(&self) -> Vec<u8> {
        let mut line = [MARK, self.to_string().as_bytes()].concat();
        let sum = checksum(&line);
        line.extend_from_slice(SUM);
        line.extend_from_slice(format!("{sum:08x}\n").as_bytes());
        line
    }

    /// What a line says, given without its newline.
    pub fn parse(line: &[u8]) -> Result<Line, BadLine> {
        let end = line.len().checked_sub(SUM.len() + 8);
        let (body, sum) = line.split_at(end.ok_or(BadLine::Damaged)?);
        let sum = sum.strip_prefix(SUM).and_then(bytes_of);
        if sum.as_deref() != Some(&checksum(body).to_be_bytes()) {
            return Err(BadLine::Damaged);
        }
        let is_space: fn(&u8) -> bool = |byte| *byte == b' ';
        let body = body.strip_prefix(MARK).ok_or(BadLine::Damaged)?;
        let mut left = body.split(is_space);
        let call = left.next().unwrap_or_default();
        let mut words = Words { left };
        let line = Line::of(call, &mut words)?;
        match words.left.next() {
            None => Ok(line),
            Some(_) => Err(BadLine::Unknown(
                "it has more words than its call".to_string(),
            )),
        }
    }

    fn of(call: &[u8], words: &mut Words) -> Result<Line, BadLine> {
        // In each arm the words stand in their order in the line.
        Ok(match call {
            b"start" => Line::Start,
            b"format" => Line::Format(Format {
                sectors: words.number("sectors", 10)?,
                files: words.number("files", 10)?,
                edition: match words.number("edition", 10)? {
                    1 => Edition::First,
                    2 => Edition::Second,
                    _ => return Err(BadLine::Unknown("edition= is neither 1 nor 2".to_string())),
                },
                id: words.number("id", 10)?,
                mode: words.mode()?,
                time: words.number("time", 10)?,
            }),
            b"create" => Line::Create {
                name: words.name("name")?,
                id: words.number("id", 10)?,
                mode: words.mode()?,
                time: words.number("time", 10)?,
            },
            b"delete" => Line::Delete {
                name: words.name("name")?,
                time: words.number("time", 10)?,
            },
            b"rename" => Line::Rename {
                old: words.name("old")?,
                new: words.name("new")?,
                time: words.number("time", 10)?,
            },
            b"rename_set" => Line::RenameSet {
                renames: words.renames()?,
                time: words.number("time", 10)?,
            },
            b"resize" => Line::Resize {
                name: words.name("name")?,
                size: words.number("size", 10)?,
                time: words.number("time", 10)?,
            },
            b"write" => {
                let (name, offset) = (words.name("name")?, words.number("offset", 10)?);
                let time = words.number("time", 10)?;
                Line::Write {
                    name,
                    offset,
                    data: words.data("data")?,
                    time,
                }
            }
            b"read" => Line::Read {
                name: words.name("name")?,
                offset: words.number("offset", 10)?,
                count: words.number("count", 10)?,
                time: words.number("time", 10)?,
            },
            b"list" => Line::List {
                index: words.number("index", 10)?,
                time: words.number("time", 10)?,
            },
            b"repair" => Line::Repair,
            b"recover" => Line::Recover,
            b"done" => Line::Done,
            b"cut" => Line::Cut {
                landed: words.numbers("landed")?,
            },
            _ => return Err(BadLine::Unknown(format!("there is no call {}", Name(call)))),
        })
    }
}

/// What was read of a log: the lines with their numbers, from 1 on.
#[derive(Clone, Debug, Default, PartialEq, Eq)]
pub struct Lines {
    pub lines: Vec<(usize, Line)>,
    /// Lines that were cut off by the power, in front of a start or at the end: what they were to say
    /// had not begun.
    pub cut_off: Vec<usize>,
    /// How many lines are not of a log.
    pub others: usize,
}

impl Lines {
    /// The last line of the log, if it was cut off.
    pub fn cut_off_at_the_end(&self) -> Option<usize> {
        let whole = self.lines.last().map_or(0, |(number, _)| *number);
        self.cut_off
            .last()
            .copied()
            .filter(|number| *number > whole)
    }
}

/// Reads a log. The error is the first line that can't be read, and why. A line that isn't whole is no
/// error where the power may have failed while it was written: before a start, and at the end.
pub fn read(log: &[u8]) -> Result<Lines, (usize, BadLine)> {
    let mut found = Lines::default();
    let mut damaged = None;
    let lines = log.split(|byte| *byte == b'\n').zip(1..);
    for (line, number) in lines {
        // A program that records a serial line may add it.
        let line = line.strip_suffix(b"\r").unwrap_or(line);
        if !line.starts_with(MARK) {
            found.others += usize::from(!line.is_empty());
            continue;
        }
        match (Line::parse(line), damaged) {
            (Err(BadLine::Damaged), None) => damaged = Some(number),
            (Ok(Line::Start), Some(before)) => {
                found.cut_off.push(before);
                damaged = None;
                found.lines.push((number, Line::Start));
            }
            (_, Some(before)) => return Err((before, BadLine::Damaged)),
            (Ok(line), None) => found.lines.push((number, line)),
            (Err(unknown), None) => return Err((number, unknown)),
        }
    }
    found.cut_off.extend(damaged);
    Ok(found)
}

/// Where the lines of a log go: a file, or a serial line.
pub trait Sink: fmt::Debug + Send + Sync {
    /// Sends these bytes on.
    fn send(&mut self, bytes: &[u8]) -> io::Result<()>;

    /// Comes back when all that was sent is where a cut of the box's power doesn't reach it.
    fn sync(&mut self) -> io::Result<()>;
}

impl Sink for File {
    fn send(&mut self, bytes: &[u8]) -> io::Result<()> {
        self.write_all(bytes)
    }

    fn sync(&mut self) -> io::Result<()> {
        self.sync_data()
    }
}

/// A log that calls are added to.
#[derive(Debug)]
pub struct Log {
    sink: Box<dyn Sink>,
    /// Whether the start has been logged; it goes out with the first call.
    is_started: bool,
    /// Whether a line may stand there that is not ended.
    is_open: bool,
}

impl Log {
    pub fn new(sink: impl Sink + 'static) -> Log {
        Log {
            sink: Box::new(sink),
            is_started: false,
            is_open: true,
        }
    }

    /// A log in a file, which is made if it isn't there. One that begins with something else is refused.
    pub fn open(path: &Path) -> io::Result<Log> {
        let is_new = !path.try_exists()?;
        let mut options = OpenOptions::new();
        let file = options.read(true).append(true).create(true).open(path)?;
        let mut first = Vec::new();
        Read::take(&file, MARK.len() as u64).read_to_end(&mut first)?;
        if first != MARK[..first.len()] {
            return Err(io::Error::new(
                ErrorKind::InvalidData,
                "it holds something else than a log",
            ));
        }
        if is_new {
            // Else the power could take a new file away whose bytes are on the medium.
            let folder = path.parent().filter(|folder| *folder != Path::new(""));
            File::open(folder.unwrap_or(Path::new(".")))?.sync_all()?;
        }
        Log::at_the_end(file)
    }

    /// A log at the end of a file that is open for reading and appending, whatever stands before: a box may
    /// have printed more on its serial line.
    pub fn at_the_end(mut file: File) -> io::Result<Log> {
        if !file.metadata()?.is_file() {
            return Err(io::Error::new(ErrorKind::InvalidInput, "a log is a file"));
        }
        let mut last = [b'\n'];
        if file.seek(SeekFrom::End(0))? > 0 {
            file.seek(SeekFrom::End(-1))?;
            file.read_exact(&mut last)?;
        }
        let is_open = last != [b'\n'];
        Ok(Log {
            is_open,
            ..Log::new(file)
        })
    }

    /// Logs a call. The call may begin when this comes back; if it fails, the call must not. A volume with a
    /// log does this itself; who formats does it before, and `end` with `Line::Done` after.
    pub fn begin(&mut self, call: &Line) -> io::Result<()> {
        let mut bytes = Vec::new();
        if !self.is_started {
            if self.is_open {
                bytes.push(b'\n');
            }
            bytes.extend(Line::Start.record());
        }
        bytes.extend(call.record());
        let sent = self.sink.send(&bytes).and_then(|()| self.sink.sync());
        self.is_started = sent.is_ok();
        self.is_open = sent.is_err();
        sent
    }

    /// Logs that the last call is done, or what an audit has found of it. Without this line the call is
    /// taken for one that may have been cut, so it need not be kept before the next call is.
    pub fn end(&mut self, line: &Line) -> io::Result<()> {
        let mut bytes = Vec::new();
        if self.is_open {
            bytes.push(b'\n');
            bytes.extend(Line::Start.record());
        }
        bytes.extend(line.record());
        let sent = self.sink.send(&bytes);
        self.is_started &= sent.is_ok();
        self.is_open = sent.is_err();
        sent
    }

    /// Comes back when all lines are where a cut of the power doesn't reach them.
    pub fn sync(&mut self) -> io::Result<()> {
        self.sink.sync()
    }
}

#[cfg(test)]
mod tests {
    use super::*;

    fn each_line() -> Vec<Line> {
        let name = || (0..=255).collect::<Vec<u8>>();
        vec![
            Line::Start,
            Line::Format(Format {
                sectors: u64::MAX,
                files: 255,
                edition: Edition::Second,
                id: 1,
                mode: 0o755,
                time: 1_000,
            }),
            Line::Create {
                name: name(),
                id: u64::MAX,
                mode: u32::MAX,
                time: u64::MAX,
            },
            Line::Delete {
                name: Vec::new(),
                time: 0,
            },
            Line::Rename {
                old: b"a b".to_vec(),
                new: b"100%=x".to_vec(),
                time: 7,
            },
            Line::RenameSet {
                renames: Vec::new(),
                time: 7,
            },
            Line::RenameSet {
                renames: vec![(name(), b"old=".to_vec()), (Vec::new(), Vec::new())],
                time: 7,
            },
            Line::Resize {
                name: b"f".to_vec(),
                size: 9,
                time: 8,
            },
            Line::Write {
                name: b"f".to_vec(),
                offset: 3,
                data: name(),
                time: 9,
            },
            Line::Write {
                name: b"f".to_vec(),
                offset: 0,
                data: Vec::new(),
                time: 9,
            },
            Line::Read {
                name: b"f".to_vec(),
                offset: 1,
                count: 2,
                time: 10,
            },
            Line::List { index: 4, time: 11 },
            Line::Repair,
            Line::Recover,
            Line::Done,
            Line::Cut { landed: Vec::new() },
            Line::Cut {
                landed: vec![0, 7, 128],
            },
        ]
    }

    /// Every line is read as it was written, in a log with other lines, and from a program that ends
    /// lines with two characters.
    #[test]
    fn lines_are_read_back() {
        let lines = each_line();
        for end in ["\n", "\r\n"] {
            let mut log = format!("boot 3.2{end}{end}goof{end}").into_bytes();
            for line in &lines {
                let record = line.record();
                assert!(record[..record.len() - 1]
                    .iter()
                    .all(|byte| (32..127).contains(byte)));
                log.extend_from_slice(&record[..record.len() - 1]);
                log.extend_from_slice(end.as_bytes());
            }
            let read = read(&log).unwrap();
            assert_eq!((read.others, &read.cut_off[..]), (2, &[][..]));
            let numbered: Vec<(usize, Line)> = (4..).zip(lines.clone()).collect();
            assert_eq!(read.lines, numbered);
        }
    }

    /// The format's examples, as docs/RELAY.md has them. The checksum is the known one of CRC-32.
    #[test]
    fn lines_as_documented() {
        assert_eq!(checksum(b"123456789"), 0xcbf4_3926);
        let page = include_str!("../../../docs/RELAY.md");
        let examples: Vec<&str> = page
            .lines()
            .filter(|line| line.starts_with("    goofs "))
            .collect();
        let examples = examples.into_iter().filter(|line| line.contains(" sum="));
        let mut calls = Vec::new();
        for line in examples.map(str::trim) {
            let parsed = Line::parse(line.as_bytes()).expect(line);
            assert_eq!(parsed.record(), format!("{line}\n").into_bytes());
            calls.push(std::mem::discriminant(&parsed));
        }
        for line in each_line() {
            assert!(
                calls.contains(&std::mem::discriminant(&line)),
                "{line} has no example"
            );
        }
    }

    /// A changed, lost or doubled byte anywhere is found, and a cut anywhere.
    #[test]
    fn damaged_lines() {
        let line = Line::Rename {
            old: b"beam".to_vec(),
            new: b"gain".to_vec(),
            time: 12,
        };
        let record = line.record();
        let record = &record[..record.len() - 1];
        for at in 0..record.len() {
            let (front, back) = record.split_at(at);
            let changed = [front, &[back[0] ^ 1], &back[1..]].concat();
            let lost = [front, &back[1..]].concat();
            let doubled = [front, &[back[0]], back].concat();
            for bytes in [changed, lost, doubled, front.to_vec()] {
                assert_eq!(Line::parse(&bytes), Err(BadLine::Damaged), "{at}");
            }
        }
        let cut = &record[..record.len() / 2];
        let whole = [record, b"\n", cut].concat();
        let found = read(&whole).unwrap();
        assert_eq!(found.cut_off_at_the_end(), Some(2));
        assert_eq!(
            (found.lines, found.cut_off),
            (vec![(1, line.clone())], vec![2])
        );
        let restarted = [cut, b"\n", &Line::Start.record()].concat();
        let found = read(&restarted).unwrap();
        assert_eq!(found.cut_off_at_the_end(), None);
        assert_eq!(
            (found.lines, found.cut_off),
            (vec![(2, Line::Start)], vec![1])
        );
        let gone_on = [cut, b"\n", record].concat();
        assert_eq!(read(&gone_on), Err((1, BadLine::Damaged)));
    }

    /// Whole lines that say something else.
    #[test]
    fn unknown_lines() {
        for (text, why) in [
            ("goofs renames a=b", "there is no call renames"),
            ("goofs delete name=a", "time= is missing"),
            (
                "goofs rename_set old=a new=b old=c time=1",
                "new= is missing",
            ),
            (
                "goofs rename_set old=a new=b new=c time=1",
                "time= is missing",
            ),
            ("goofs delete name=%4 time=1", "name= has an incomplete %"),
            ("goofs delete name=a time=+1", "time= is no number"),
            (
                "goofs delete name=a time=18446744073709551616",
                "time= is no number",
            ),
            (
                "goofs create name=a id=1 mode=8 time=1",
                "mode= is no number",
            ),
            (
                "goofs create name=a id=1 mode=40000000000 time=1",
                "mode= has more than 32 bits",
            ),
            (
                "goofs write name=a offset=0 time=1 data=abc",
                "data= is not two digits",
            ),
            ("goofs done 1", "it has more words than its call"),
            ("goofs cut landed=1,,2", "landed= is not a list"),
        ] {
            let line = format!("{text} sum={:08x}", checksum(text.as_bytes()));
            match Line::parse(line.as_bytes()) {
                Err(BadLine::Unknown(found)) => assert!(found.starts_with(why), "{text}: {found}"),
                other => panic!("{text}: {other:?}"),
            }
        }
    }
}
