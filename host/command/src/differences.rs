//! What a volume has that a ledger hasn't, and the other way round, file by file.

use std::fmt::Display;

use oracle::layout::{Extent, SECTOR};
use oracle::ledger::{File, Ledger, Root};

use crate::text;

/// The differences of two values, each as `what is THIS, not THAT`.
#[derive(Default)]
struct Fields(Vec<String>);

impl Fields {
    fn hold<T: PartialEq + Display>(&mut self, what: &str, found: T, expected: T) {
        if found != expected {
            self.0.push(format!("{what} is {found}, not {expected}"));
        }
    }

    /// One line, if there is a difference.
    fn of(self, name: &str) -> Option<String> {
        (!self.0.is_empty()).then(|| format!("{name}: {}", self.0.join("; ")))
    }
}

/// How the volume that was found differs from the ledger, a line for each file. The extents are those
/// that belong to no file of the volume.
pub fn differences(expected: &Ledger, found: &Ledger, surplus: &[Extent]) -> Vec<String> {
    let mut lines = Vec::new();
    let mut volume = Fields::default();
    let (geometry, other) = (found.geometry(), expected.geometry());
    volume.hold("edition", found.edition(), expected.edition());
    volume.hold("files", geometry.files(), other.files());
    volume.hold("extents", geometry.extents(), other.extents());
    volume.hold(
        "extent sectors",
        geometry.extent_sectors(),
        other.extent_sectors(),
    );
    if let Some(line) = volume.of("the volume") {
        return vec![format!("{line}: it is another volume")];
    }
    lines.extend(root(found.root(), expected.root()));
    let named = |ledger: &Ledger, name: &[u8]| {
        let mut files = ledger.files();
        files
            .find(|(_, file)| file.name == name)
            .map(|(slot, file)| (slot, file.clone()))
    };
    for (slot, file) in expected.files() {
        let name = text::word(&file.name);
        match named(found, &file.name) {
            None => lines.push(format!("{name}: is missing")),
            Some((other, now)) => lines.extend(one_file(&name, (other, &now), (slot, file))),
        }
    }
    for (_, file) in found.files() {
        if named(expected, &file.name).is_none() {
            let (name, bytes) = (text::word(&file.name), file.bytes.len());
            lines.push(format!(
                "{name}: is on the card, of {bytes} bytes, and no call left it there"
            ));
        }
    }
    for extent in surplus {
        lines.push(format!(
            "extent {}: is taken and belongs to no file",
            extent.0
        ));
    }
    lines
}

fn root(found: &Root, expected: &Root) -> Option<String> {
    let mut fields = Fields::default();
    fields.hold("version", found.version, expected.version);
    fields.hold("id", found.id, expected.id);
    fields.hold(
        "mode",
        format!("{:o}", found.mode),
        format!("{:o}", expected.mode),
    );
    fields.hold("access time", found.access_time, expected.access_time);
    fields.hold("change time", found.change_time, expected.change_time);
    fields.of("the root")
}

fn one_file(name: &str, found: (usize, &File), expected: (usize, &File)) -> Option<String> {
    let mut fields = Fields::default();
    fields.hold("directory entry", found.0, expected.0);
    let (found, expected) = (found.1, expected.1);
    fields.hold("version", found.version, expected.version);
    fields.hold("id", found.id, expected.id);
    fields.hold(
        "mode",
        format!("{:o}", found.mode),
        format!("{:o}", expected.mode),
    );
    fields.hold("access time", found.access_time, expected.access_time);
    fields.hold("change time", found.change_time, expected.change_time);
    fields.hold("size", found.bytes.len(), expected.bytes.len());
    fields.hold("list of extents", extents(found), extents(expected));
    let pairs = found.bytes.iter().zip(&expected.bytes);
    let first = pairs.enumerate().find(|(_, (one, other))| one != other);
    if let Some((at, (now, then))) = first {
        let sectors = found
            .bytes
            .chunks(SECTOR)
            .zip(expected.bytes.chunks(SECTOR));
        let count = sectors
            .filter(|(one, other)| one.iter().zip(*other).any(|(one, other)| one != other))
            .count();
        fields.0.push(format!(
            "byte {at} is {now}, not {then}, the first of {count} sectors with other bytes"
        ));
    }
    fields.of(name)
}

/// The extents in the file's order.
fn extents(file: &File) -> String {
    let extents: Vec<String> = file
        .extents
        .iter()
        .map(|extent| extent.0.to_string())
        .collect();
    match extents.is_empty() {
        true => "empty".to_string(),
        false => extents.join(" "),
    }
}
