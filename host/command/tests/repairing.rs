//! Repair: what it shows, the question, what it frees, and what it can't mend.

mod shared;

use std::fs;
use std::path::Path;
use std::process::Command;

use shared::{bad, formatted, good, on, run, Folder, Said};

/// A byte of extent 2's table entry; file index and offset have two bytes each.
const EXTENT_2: usize = 289 * 512 + 8;

/// The sample volume with "a" in entry 0, of extents 0 and 1, and an empty "b" in entry 1.
fn sample(folder: &Folder) -> Vec<u8> {
    let card = formatted(folder);
    let a = folder.write("a", &[7; 70_000]);
    let b = folder.write("b", b"");
    good("put", &card, &[a.to_str().unwrap(), "--time", "1001"]);
    good("put", &card, &[b.to_str().unwrap(), "--time", "1002"]);
    fs::read(&card).unwrap()
}

fn damaged(folder: &Folder, image: &[u8], at: usize, bytes: &[u8]) -> std::path::PathBuf {
    let mut image = image.to_vec();
    image[at..at + bytes.len()].copy_from_slice(bytes);
    folder.write("damaged", &image)
}

fn answering(answer: &str, card: &Path) -> Said {
    let script = format!("printf '%s' '{answer}' | \"$1\" repair \"$2\"");
    run(Command::new("sh")
        .args(["-c", &script, "sh", env!("CARGO_BIN_EXE_goofs")])
        .arg(card))
}

/// Each kind of extent that is freed; the volume is sound then, and nothing but its entry changed.
#[test]
fn what_is_freed() {
    let folder = Folder::new("repaired");
    let image = sample(&folder);
    for (entry, why) in [
        ([0, 9, 0, 0], "of entry 9, which is no file"),
        ([0, 255, 0, 0], "of entry 255, which is no file"),
        ([234, 96, 0, 0], "of entry 60000, which is no file"),
        ([0, 0, 0, 2], "place 2 of a, past its end"),
        ([0, 1, 0, 0], "place 0 of b, past its end"),
        ([0, 0, 0, 1], "place 1 of a, which a lower extent has"),
    ] {
        let card = damaged(&folder, &image, EXTENT_2, &entry);
        assert!(bad("check", &card, &[], 1).contains("goofs repair "));
        let told = format!(
            "extent 2: {why}\nto be freed: 1 extent; no byte of a file changes; the volume is sound then\n"
        );
        let said = good("repair", &card, &["--yes"]);
        assert_eq!(said, format!("{told}freed: 1 extent\n"));
        let after = fs::read(&card).unwrap();
        assert!(after[..257 * 512] == image[..257 * 512]);
        assert!(after[289 * 512..674 * 512] == image[289 * 512..674 * 512]);
        good("check", &card, &[]);
        assert_eq!(
            good("repair", &card, &[]),
            "nothing to do: the volume is clean and sound\n"
        );
    }
}

/// Only the word yes is taken for one.
#[test]
fn the_question() {
    let folder = Folder::new("repair-asks");
    let image = sample(&folder);
    let card = damaged(&folder, &image, EXTENT_2, &[0, 9, 0, 0]);
    let before = fs::read(&card).unwrap();
    for answer in ["", "no\n", "y\n", "YES\n"] {
        let said = answering(answer, &card);
        assert_eq!(said.status, 1, "{answer:?}");
        assert!(said.text().contains("extent 2: of entry 9"));
        assert!(
            said.err.contains("Nothing was changed") && said.err.contains("--yes"),
            "{}",
            said.err
        );
        assert!(fs::read(&card).unwrap() == before, "{answer:?}");
    }
    let said = answering("yes\n", &card);
    assert_eq!(said.status, 0, "{}", said.err);
    assert!(said
        .text()
        .ends_with("Free them? (yes/no) freed: 1 extent\n"));
    good("check", &card, &[]);
}

/// What a repair leaves is named, with an advice that doesn't end at the repair again.
#[test]
fn what_remains() {
    let folder = Folder::new("repair-remains");
    let image = sample(&folder);
    for (at, bytes, said, fault) in [
        // A mark that is neither: its file's extents are freed.
        (2 * 512, &[0, 1][..], "freed: 2 extents\n", "fault 21"),
        // An impossible size, and the id 0.
        (2 * 512 + 2, &[255; 8], "nothing to free", "fault 22"),
        (3 * 512 + 14, &[0; 8], "nothing to free", "fault 24"),
        // An extent of "a" is gone.
        (289 * 512, &[255; 4], "nothing to free", "fault 26"),
    ] {
        let card = damaged(&folder, &image, at, bytes);
        let answer = on("repair", &card, &["--yes"]);
        assert_eq!(answer.status, 1, "{}", answer.err);
        assert!(answer.text().contains(said), "{}", answer.text());
        assert!(
            answer.err.contains(fault)
                && answer.err.contains("does not mend this fault")
                && answer.err.contains("goofs format"),
            "{}",
            answer.err
        );
    }
}

/// A volume without a free extent, and volumes that are not clean, are left alone.
#[test]
fn what_is_refused() {
    let folder = Folder::new("repair-refused");
    let image = sample(&folder);
    let full = damaged(&folder, &image, EXTENT_2, &[0, 9, 0, 0, 0, 9, 0, 0]);
    let err = bad("repair", &full, &["--yes"], 1);
    assert!(
        err.contains("refused (13)") && err.contains("a repair needs free extents"),
        "{err}"
    );
    let waiting = damaged(&folder, &image, 18, &[0, 2]);
    let err = bad("repair", &waiting, &["--yes"], 1);
    assert!(
        err.contains("refused (5)") && err.contains("goofs recover"),
        "{err}"
    );
}
