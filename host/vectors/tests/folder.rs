//! The folder in the repository is what the generator writes now, and is read back whole.

use std::collections::BTreeMap;
use std::fs;
use std::path::{Path, PathBuf};
use std::process::Command;
use std::sync::OnceLock;

use vectors::folder::{chapters, files, Chapter};
use vectors::json::Json;
use vectors::text::to_image;
use vectors::{Stands, Vector};

fn folder() -> PathBuf {
    Path::new(env!("CARGO_MANIFEST_DIR")).join("../../vectors")
}

/// A folder for one test, without what an earlier run left in it.
fn scratch(name: &str) -> PathBuf {
    let folder = Path::new(env!("CARGO_TARGET_TMPDIR")).join(name);
    let _ = fs::remove_dir_all(&folder);
    fs::create_dir_all(&folder).unwrap();
    folder
}

/// What the generator makes now, made once.
fn made() -> &'static [Chapter] {
    static MADE: OnceLock<Vec<Chapter>> = OnceLock::new();
    MADE.get_or_init(chapters)
}

fn vectors() -> impl Iterator<Item = &'static Vector> {
    made().iter().flat_map(|chapter| &chapter.vectors)
}

#[test]
fn nothing_is_stale() {
    let mut present = BTreeMap::new();
    for entry in fs::read_dir(folder()).expect("make vectors writes it") {
        let entry = entry.unwrap();
        let name = entry.file_name().into_string().unwrap();
        present.insert(name, fs::read_to_string(entry.path()).unwrap());
    }
    let written = files(made());
    let names = |files: &BTreeMap<String, String>| files.keys().cloned().collect::<Vec<_>>();
    assert_eq!(names(&present), names(&written), "run make vectors");
    for (name, text) in &written {
        assert!(present[name] == *text, "{name} is stale: run make vectors");
    }
    let bytes: usize = written.values().map(String::len).sum();
    assert!(
        bytes < 700_000,
        "{bytes} bytes are too many for the repository"
    );
}

#[test]
fn read_back() {
    let files = files(made());
    for vector in vectors() {
        let name = &vector.name;
        let image = to_image(&files[&format!("{name}.txt")]);
        assert!(image == Ok(vector.image.clone()), "{name}");
        let json = Json::read(&files[&format!("{name}.json")]);
        assert!(json == Ok(vector.statement()), "{name}");
    }
}

/// Every state, each fault at two places at least, both editions of each, and each stage of a change.
#[test]
fn nothing_is_missing() {
    for edition in ["-e1", "-e2"] {
        let of_edition = || vectors().filter(|vector| vector.name.ends_with(edition));
        for fault in 21..=26 {
            let mut places: Vec<u64> = of_edition()
                .filter(|vector| vector.verdict()[1] == fault)
                .map(|vector| vector.verdict()[2])
                .collect();
            places.sort_unstable();
            places.dedup();
            assert!(places.len() >= 2, "fault {fault} at {places:?}");
        }
        for state in ["clean", "waiting", "damaged", "unfinished"] {
            assert!(of_edition().any(|vector| vector.state() == Some(state)));
        }
        for change in ["create", "write"] {
            for stage in ["a-part", "a", "b", "c-first", "c-last", "c", "d"] {
                let name = format!("{change}-{stage}{edition}");
                let vector = vectors().find(|vector| vector.name == name).unwrap();
                let waits = matches!(vector.stands, Stands::Waiting(_, _, _, Some(_)));
                assert_eq!(waits, stage.starts_with(['b', 'c']), "{name}");
            }
        }
    }
    for stage in ["a-part", "a", "b", "c-first", "c-last", "c", "d"] {
        let name = format!("delete-{stage}-e1");
        assert!(vectors().any(|vector| vector.name == name), "{name}");
    }
    for number in 0..=7 {
        assert!(vectors().any(|vector| vector.verdict()[0] == number));
    }
}

/// Two volumes with the same image would try the same thing.
#[test]
fn no_image_stands_twice() {
    let mut names = BTreeMap::new();
    for vector in vectors() {
        if let Some(earlier) = names.insert(&vector.image, &vector.name) {
            panic!("{earlier} and {} are the same", vector.name);
        }
    }
}

/// The README's table of differences from the note names volumes that are there.
#[test]
fn volumes_that_the_readme_names() {
    let readme = &files(made())["README.md"];
    let (_, section) = readme.split_once("## Where our rules differ").unwrap();
    let (section, _) = section.split_once("## The volumes").unwrap();
    let mut named = 0;
    for row in section.lines().filter(|line| line.starts_with('|')) {
        let seen_in = row.trim_end_matches(['|', ' ']).rsplit('|').next().unwrap();
        for name in seen_in.split('`').skip(1).step_by(2) {
            let part = name.trim_end_matches("...");
            let there =
                |vector: &Vector| vector.name.starts_with(part) || vector.name.ends_with(part);
            assert!(vectors().any(there), "{name}");
            named += 1;
        }
    }
    assert!(named > 10);
}

/// Only these have numbers that a floating point number of 64 bits would round.
#[test]
fn large_numbers() {
    fn largest(json: &Json) -> u64 {
        match json {
            Json::Number(number) => *number,
            Json::List(values) => values.iter().map(largest).max().unwrap_or(0),
            Json::Object(members) => members
                .iter()
                .map(|(_, value)| largest(value))
                .max()
                .unwrap_or(0),
            _ => 0,
        }
    }
    for vector in vectors() {
        let rounded = largest(&vector.statement()) > 1 << 53;
        assert_eq!(
            rounded,
            vector.name.starts_with("widest-fields"),
            "{}",
            vector.name
        );
    }
}

fn program() -> Command {
    Command::new(env!("CARGO_BIN_EXE_vectors"))
}

/// The program makes an image of a text, and overwrites nothing.
#[test]
fn images_by_the_program() {
    let scratch = scratch("images");
    let image = scratch.join("card.img");
    let text = folder().join("some-files-e1.txt");
    let run = || {
        program()
            .arg("image")
            .args([&text, &image])
            .output()
            .unwrap()
    };
    assert!(run().status.success());
    let vector = vectors()
        .find(|vector| vector.name == "some-files-e1")
        .unwrap();
    assert!(fs::read(&image).unwrap() == vector.image);

    fs::write(&image, "kept").unwrap();
    let refused = run();
    assert_eq!(refused.status.code(), Some(1));
    assert!(String::from_utf8_lossy(&refused.stderr).contains("card.img"));
    assert_eq!(fs::read(&image).unwrap(), b"kept");

    let bad = scratch.join("bad.txt");
    fs::write(&bad, "goofs-volume 1\nsectors 2\nsector 5\n").unwrap();
    let none = scratch.join("none.img");
    let refused = program().arg("image").args([&bad, &none]).output().unwrap();
    assert_eq!(refused.status.code(), Some(1));
    assert!(String::from_utf8_lossy(&refused.stderr).contains("line 3"));
    assert!(!none.exists());

    assert_eq!(program().output().unwrap().status.code(), Some(2));
}

/// The program writes the folder, and names files in it that are no longer written.
#[test]
fn folders_by_the_program() {
    let scratch = scratch("folder");
    let run = || program().arg("write").arg(&scratch).output().unwrap();
    assert!(run().status.success());
    for (name, text) in files(made()) {
        assert!(
            fs::read_to_string(scratch.join(&name)).unwrap() == text,
            "{name}"
        );
    }
    fs::write(scratch.join("older.txt"), "").unwrap();
    let told = run();
    assert_eq!(told.status.code(), Some(1));
    assert!(String::from_utf8_lossy(&told.stderr).contains("older.txt"));
}

/// A reader in another language, which follows the folder's README, finds what the statements say.
#[test]
fn read_by_python() {
    if Command::new("python3").arg("--version").output().is_err() {
        println!("python3 is not here, so nothing was tried");
        return;
    }
    let reader = Path::new(env!("CARGO_MANIFEST_DIR")).join("tests/reader.py");
    let told = Command::new("python3")
        .arg(reader)
        .arg(folder())
        .output()
        .unwrap();
    let (out, err) = (
        String::from_utf8_lossy(&told.stdout),
        String::from_utf8_lossy(&told.stderr),
    );
    assert!(told.status.success(), "{out}{err}");
    assert_eq!(out.trim(), format!("{} volumes", vectors().count()));
}
