//! The folder: all volumes in chapters, its files, and writing it.

use std::collections::BTreeMap;
use std::fmt::Write;
use std::path::Path;
use std::{fs, io};

use oracle::layout::Edition;

use crate::faults::faults;
use crate::sound::{others, own, taken_reserves};
use crate::states::{bad_journals, changes, damaged_and_unfinished, no_volumes, others_changes};
use crate::Vector;

/// Volumes of one kind.
pub struct Chapter {
    title: &'static str,
    pub vectors: Vec<Vector>,
}

fn both(vectors: fn(Edition) -> Vec<Vector>) -> Vec<Vector> {
    Edition::BOTH.into_iter().flat_map(vectors).collect()
}

pub fn chapters() -> Vec<Chapter> {
    let chapter = |title, vectors| Chapter { title, vectors };
    vec![
        chapter("Sound volumes, made by our own calls", both(own)),
        chapter(
            "Sound volumes, as other writers may make them",
            both(others),
        ),
        chapter(
            "Sound volumes in which files hold what our format keeps free",
            both(taken_reserves),
        ),
        chapter("A change, cut at each stage", both(changes)),
        chapter(
            "Changes on volumes of other writers, cut after the start mark",
            both(others_changes),
        ),
        chapter(
            "Journals that recovery refuses",
            bad_journals(Edition::First),
        ),
        chapter(
            "Damaged and unfinished volumes",
            both(damaged_and_unfinished),
        ),
        chapter("Clean volumes with a fault", both(faults)),
        chapter("No volume", no_volumes()),
    ]
}

/// The README without its list of volumes.
const README: &str = include_str!("readme.md");
/// Where the list goes.
const LIST: &str = "VOLUMES\n";

/// The folder's files by their names.
pub fn files(chapters: &[Chapter]) -> BTreeMap<String, String> {
    let mut files = BTreeMap::new();
    for vector in chapters.iter().flat_map(|chapter| &chapter.vectors) {
        files.insert(format!("{}.txt", vector.name), vector.text());
        let json = vector.statement().written();
        let earlier = files.insert(format!("{}.json", vector.name), json);
        assert!(earlier.is_none(), "{} stands twice", vector.name);
    }
    let tables: Vec<String> = chapters.iter().map(table).collect();
    let readme = README.replace(LIST, &tables.join("\n"));
    assert_ne!(readme, README);
    files.insert("README.md".to_string(), readme);
    files
}

/// A chapter of the README. Both editions of a volume stand in one row.
fn table(chapter: &Chapter) -> String {
    let mut rows: Vec<(String, String)> = Vec::new();
    for vector in &chapter.vectors {
        let verdict = match vector.verdict() {
            [0, ..] => "sound".to_string(),
            [7, fault, place] => format!("7, fault {fault} at {place}"),
            [number, ..] => number.to_string(),
        };
        let state = vector.state().unwrap_or("none");
        let told = format!("{} | {state} | {verdict}", vector.what);
        match rows.iter_mut().find(|(_, earlier)| *earlier == told) {
            Some((names, _)) => write!(names, ", `{}`", vector.name).expect("a string takes it"),
            None => rows.push((format!("`{}`", vector.name), told)),
        }
    }
    let mut table = format!(
        "### {}\n\n| Volume | What it is | State | Verdict |\n|---|---|---|---|\n",
        chapter.title
    );
    for (names, told) in rows {
        writeln!(table, "| {names} | {told} |").expect("a string takes it");
    }
    table
}

/// Writes the folder's files. Gives the names of files in it that are none of them.
pub fn write_folder(folder: &Path) -> io::Result<Vec<String>> {
    let files = files(&chapters());
    fs::create_dir_all(folder)?;
    for (name, text) in &files {
        fs::write(folder.join(name), text)?;
    }
    let mut others = Vec::new();
    for entry in fs::read_dir(folder)? {
        let name = entry?.file_name().to_string_lossy().into_owned();
        if !files.contains_key(&name) {
            others.push(name);
        }
    }
    Ok(others)
}
