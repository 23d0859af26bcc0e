//! What info, check and ls say with `--json`. docs/JSON.md has the shapes.

use std::fmt;

use goofs::error::{Error, Fault, FaultKind, Refusal};
use goofs::image::{Entry, Image, Root, State};
use goofs::names;

use crate::failure::Failure;
use crate::text;

pub enum Value {
    Null,
    Flag(bool),
    /// In decimal, exact.
    Number(u64),
    Text(String),
    List(Vec<Value>),
    Object(Vec<(&'static str, Value)>),
}

impl From<bool> for Value {
    fn from(flag: bool) -> Value {
        Value::Flag(flag)
    }
}

impl From<u64> for Value {
    fn from(number: u64) -> Value {
        Value::Number(number)
    }
}

impl From<u32> for Value {
    fn from(number: u32) -> Value {
        Value::Number(number.into())
    }
}

impl From<String> for Value {
    fn from(text: String) -> Value {
        Value::Text(text)
    }
}

impl From<&str> for Value {
    fn from(text: &str) -> Value {
        Value::Text(text.to_string())
    }
}

impl<V: Into<Value>> From<Option<V>> for Value {
    fn from(value: Option<V>) -> Value {
        value.map_or(Value::Null, V::into)
    }
}

impl fmt::Display for Value {
    fn fmt(&self, f: &mut fmt::Formatter) -> fmt::Result {
        match self {
            Value::Null => f.write_str("null"),
            Value::Flag(flag) => flag.fmt(f),
            Value::Number(number) => number.fmt(f),
            Value::Text(text) => quoted(f, text),
            Value::List(values) => {
                // An element to a line, as a directory may have many.
                f.write_str("[")?;
                for (i, value) in values.iter().enumerate() {
                    write!(f, "{}\n{value}", if i == 0 { "" } else { "," })?;
                }
                f.write_str("]")
            }
            Value::Object(fields) => {
                f.write_str("{")?;
                for (i, (key, value)) in fields.iter().enumerate() {
                    write!(f, "{}\"{key}\": {value}", if i == 0 { "" } else { ", " })?;
                }
                f.write_str("}")
            }
        }
    }
}

/// What a terminal does not show as itself is escaped, as in the other lists.
fn quoted(f: &mut fmt::Formatter, text: &str) -> fmt::Result {
    f.write_str("\"")?;
    for letter in text.chars() {
        match letter {
            '"' | '\\' => write!(f, "\\{letter}")?,
            _ if text::is_shown(letter) => write!(f, "{letter}")?,
            _ => {
                for unit in letter.encode_utf16(&mut [0; 2]) {
                    write!(f, "\\u{unit:04x}")?;
                }
            }
        }
    }
    f.write_str("\"")
}

/// A name is bytes: as text if it is UTF-8, and always in hexadecimal digits.
fn name(bytes: &[u8]) -> [(&'static str, Value); 2] {
    let text = std::str::from_utf8(bytes).ok();
    let hex: String = bytes.iter().map(|byte| format!("{byte:02x}")).collect();
    [("name", text.into()), ("name_hex", hex.into())]
}

fn fault(fault: Fault) -> Value {
    let kind = match fault.kind {
        FaultKind::TableEntry => "extent",
        _ => "entry",
    };
    Value::Object(vec![
        ("number", fault.number().into()),
        ("place", fault.place.into()),
        ("place_is", kind.into()),
        ("text", fault.to_string().into()),
    ])
}

fn root(root: Root) -> Value {
    Value::Object(vec![
        ("version", root.version.into()),
        ("id", root.id.into()),
        ("mode", root.mode.into()),
        ("access_time", root.access_time.into()),
        ("change_time", root.change_time.into()),
    ])
}

fn entry(entry: &Entry) -> Value {
    let mut fields = vec![("index", entry.index.into())];
    fields.extend(name(&entry.name));
    fields.extend([
        ("size", entry.size.into()),
        ("version", entry.version.into()),
        ("id", entry.id.into()),
        ("mode", entry.mode.into()),
        ("access_time", entry.access_time.into()),
        ("change_time", entry.change_time.into()),
        ("leftover", names::is_beside(&entry.name).into()),
    ]);
    Value::Object(fields)
}

fn entries(files: &[Entry]) -> Value {
    Value::List(files.iter().map(entry).collect())
}

pub fn ls(files: &[Entry]) -> Value {
    Value::Object(vec![("files", entries(files))])
}

pub fn info(image: &Image) -> Value {
    let summary = image.summary();
    let (state, waiting) = match summary.state {
        State::Clean => ("clean", None),
        State::Waiting(sectors) => ("waiting", Some(sectors)),
        State::Damaged => ("damaged", None),
        State::Unfinished => ("unfinished", None),
    };
    let check = (summary.state == State::Clean).then(|| image.check());
    let found = match check {
        Some(Err(Refusal::NotSound(found))) => Some(fault(found)),
        _ => None,
    };
    // Of an unfinished volume neither the table nor the root says anything.
    let is_finished = summary.state != State::Unfinished;
    let free = is_finished.then(|| summary.extents - image.used_extents());
    let room = free.map(|free| free.saturating_sub(summary.reserve_extents()));
    Value::Object(vec![
        ("state", state.into()),
        ("waiting_sectors", waiting.into()),
        ("sound", check.map(|check| check.is_ok()).into()),
        ("fault", found.into()),
        ("edition", summary.edition.number().into()),
        ("sectors", summary.sectors().into()),
        ("files_at_most", summary.files.into()),
        ("extents", summary.extents.into()),
        ("extent_sectors", summary.extent_sectors.into()),
        ("journal_at", summary.journal_at().into()),
        ("table_at", summary.table_at().into()),
        ("table_sectors", summary.table_sectors().into()),
        ("data_at", summary.data_at().into()),
        ("free_extents", free.into()),
        ("reserve_extents", summary.reserve_extents().into()),
        (
            "room_bytes",
            room.map(|room| room * summary.extent_bytes()).into(),
        ),
        ("root", is_finished.then(|| root(image.root())).into()),
    ])
}

/// What a check came to, if it came to an answer of the volume code.
pub fn check(files: &Result<Vec<Entry>, Failure>) -> Option<Value> {
    let (refusal, files) = match files {
        Ok(files) => (None, Some(files)),
        Err(Failure::Card {
            error: Error::Refused(refusal),
            ..
        }) => (Some(*refusal), None),
        Err(_) => return None,
    };
    let found = match refusal {
        Some(Refusal::NotSound(found)) => Some(fault(found)),
        _ => None,
    };
    let left = files.map(|files| {
        let left = files.iter().filter(|file| names::is_beside(&file.name));
        Value::List(left.map(entry).collect())
    });
    Some(Value::Object(vec![
        ("sound", refusal.is_none().into()),
        ("refusal", refusal.map(|refusal| refusal.number()).into()),
        ("text", refusal.map(|refusal| refusal.to_string()).into()),
        ("fault", found.into()),
        ("files", files.map(|files| files.len() as u64).into()),
        ("leftovers", left.into()),
    ]))
}
