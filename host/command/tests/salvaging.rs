//! The command salvage: the whole files of damaged volumes, what is said of the others, and that the
//! advice of the other commands leads to it and ends well.

mod shared;

use std::fs;
use std::os::unix::fs::MetadataExt;
use std::path::{Path, PathBuf};
use std::process::Command;

use shared::{bad, good, name_by_hand, on, run, shim, Folder, Said};

const TABLE: usize = 289 * 512;

fn contents(name: &str) -> Vec<u8> {
    let length = match name {
        "a" => 10,
        "b" => 70_000,
        "c" => 140_000,
        _ => 0,
    };
    (0..length).map(|i| (i % 251) as u8).collect()
}

/// "a" in entry 0 with extent 0, "b" in entry 1 with 1 and 2, "c" in entry 2 with 3 to 5, "d" empty.
fn sample(folder: &Folder) -> PathBuf {
    let card = folder.file("card");
    good("format", &card, &["--size=1M", "--time=1000"]);
    for name in ["a", "b", "c", "d"] {
        let file = folder.write(name, &contents(name));
        good("put", &card, &[file.to_str().unwrap(), "--time=1001"]);
    }
    card
}

/// Bytes and where they go.
type Changes<'c> = &'c [(usize, &'c [u8])];

fn changed(folder: &Folder, image: &[u8], changes: Changes) -> PathBuf {
    let mut image = image.to_vec();
    for (at, bytes) in changes {
        image[*at..at + bytes.len()].copy_from_slice(bytes);
    }
    folder.write("damaged", &image)
}

/// Salvages into a new folder; the card stays as it is.
fn salvaged(folder: &Folder, card: &Path, rest: &[&str]) -> (Said, Vec<String>) {
    let into = folder.file("into");
    let _ = fs::remove_dir_all(&into);
    let before = fs::read(card).unwrap();
    let words = [&[into.to_str().unwrap()], rest].concat();
    let said = on("salvage", card, &words);
    assert!(fs::read(card).unwrap() == before);
    let mut names = Vec::new();
    for entry in fs::read_dir(&into).into_iter().flatten() {
        let entry = entry.unwrap();
        let name = entry.file_name().into_string().unwrap();
        assert!(fs::read(entry.path()).unwrap() == contents(&name), "{name}");
        names.push(name);
    }
    names.sort();
    (said, names)
}

#[test]
fn whole_files_and_the_others() {
    let folder = Folder::new("salvage");
    let card = sample(&folder);
    let image = fs::read(&card).unwrap();
    let (said, names) = salvaged(&folder, &card, &[]);
    assert_eq!(said.status, 0, "{}", said.err);
    assert_eq!(names, ["a", "b", "c", "d"]);
    let entry = |index: usize| (2 + index) * 512;
    let id_of_a = image[entry(0) + 14..entry(0) + 22].to_vec();
    let cases: [(Changes, &[&str], &str); 9] = [
        (
            &[(entry(1), &[0, 1])],
            &["a", "c", "d"],
            "entry 1, b, 70000 bytes: fault 21",
        ),
        (
            &[(entry(1) + 34, &[9, 9])],
            &["a", "c", "d"],
            "fault 22, a name of 2313 bytes can't be",
        ),
        (
            &[(entry(2) + 2, &[1])],
            &["a", "b", "d"],
            "fault 22, the volume has not so many bytes",
        ),
        (
            &[(entry(2) + 36, b"a")],
            &["a", "b", "d"],
            "entry 2, a, 140000 bytes: fault 23, entry 0 has the same name",
        ),
        (
            &[(entry(3) + 14, &id_of_a)],
            &["a", "b", "c"],
            "entry 3, d, 0 bytes: fault 24, entry 0 has the same id",
        ),
        (
            &[(TABLE + 16, &[255; 4])],
            &["a", "b", "d"],
            "fault 26, 1 of its 3 extents are missing, the first at byte 65536",
        ),
        // "b" has an extent of "c" for its own, which is past its end.
        (
            &[(TABLE + 20, &[0, 1])],
            &["a", "d"],
            "entry 1, b, 70000 bytes: fault 26, 1 extents lie past its end",
        ),
        // Two faults in one file.
        (
            &[(entry(2) + 14, &[0; 8]), (TABLE + 12, &[255; 4])],
            &["a", "b", "d"],
            "fault 24, its id is 0; fault 26, 1 of its 3",
        ),
        // Of no file: all are whole, and that is said.
        (
            &[(TABLE + 24, &[0, 77, 0, 0])],
            &["a", "b", "c", "d"],
            "1 extent of no file\n",
        ),
    ];
    for (changes, whole, what) in cases {
        let card = changed(&folder, &image, changes);
        // The check's advice leads here, or to a repair.
        let err = bad("check", &card, &[], 1);
        assert!(
            err.contains("goofs salvage") || err.contains("goofs repair"),
            "{err}"
        );
        let (said, names) = salvaged(&folder, &card, &[]);
        assert_eq!(names, whole, "{what}");
        assert!(said.text().contains(what), "{what} in\n{}", said.text());
        assert_eq!(said.status, i32::from(whole.len() < 4), "{}", said.err);
        assert_eq!(
            said.text().matches("not whole: ").count(),
            4 - whole.len(),
            "{}",
            said.text()
        );
        if whole.len() < 4 {
            assert!(said.err.contains("goofs format"), "{}", said.err);
        }
    }
}

/// From a damaged card to a new volume with its whole files, as the messages say.
#[test]
fn the_advice_ends_well() {
    let folder = Folder::new("salvage-advice");
    let image = fs::read(sample(&folder)).unwrap();
    let card = changed(&folder, &image, &[(3 * 512, &[0, 1])]);
    let err = bad("ls", &card, &[], 1);
    let advice = format!("goofs salvage {} FOLDER", card.display());
    assert!(err.contains(&advice), "{err}");
    let (said, names) = salvaged(&folder, &card, &["-p"]);
    assert!(
        said.status == 1
            && said
                .err
                .contains("1 entry is not whole and not copied; 3 files copied"),
        "{}",
        said.err
    );
    let into = folder.file("into");
    assert_eq!(fs::metadata(into.join("c")).unwrap().mtime(), 1_001);
    good("format", &card, &["--yes"]);
    let files: Vec<PathBuf> = names.iter().map(|name| into.join(name)).collect();
    let words: Vec<&str> = files.iter().map(|file| file.to_str().unwrap()).collect();
    good("put", &card, &words);
    assert_eq!(good("check", &card, &[]), "sound, 3 files\n");
    // Nothing is written over unasked.
    let err = bad("salvage", &card, &[into.to_str().unwrap()], 1);
    assert!(
        err.contains("3 files would be written over") && err.contains("--replace"),
        "{err}"
    );
    let said = good("salvage", &card, &[into.to_str().unwrap(), "--replace"]);
    assert_eq!(said.matches("replaced: ").count(), 3, "{said}");
}

#[test]
fn volumes_that_are_not_clean() {
    let folder = Folder::new("salvage-state");
    let card = sample(&folder);
    // Cut after the start mark: the removal of "b" is finished in memory.
    let cut = folder.file("cut");
    good(
        "trial",
        &card,
        &["rm", "b", "--leave", cut.to_str().unwrap()],
    );
    let (said, names) = salvaged(&folder, &cut, &[]);
    assert_eq!(
        (said.status, names),
        (0, ["a", "c", "d"].map(str::to_string).to_vec())
    );
    assert!(said
        .text()
        .starts_with("a change was cut: it is finished for this, in memory\n"));
    // A journal that no recovery takes, and a length that no change writes.
    let image = fs::read(&cut).unwrap();
    for changes in [&[(257 * 512 + 8, &[9; 8][..])][..], &[(18, &[5, 0])]] {
        let damaged = changed(&folder, &image, changes);
        let err = match changes[0].0 {
            18 => bad("ls", &damaged, &[], 1),
            _ => bad("recover", &damaged, &[], 1),
        };
        assert!(
            err.contains("refused (6)") && err.contains("goofs salvage"),
            "{err}"
        );
        let (said, names) = salvaged(&folder, &damaged, &[]);
        assert_eq!((said.status, names.len()), (0, 4), "{}", said.err);
        assert!(
            said.text().starts_with("the journal is damaged: "),
            "{}",
            said.text()
        );
    }
    let unfinished = changed(&folder, &image, &[(18, &[255, 255])]);
    let (said, names) = salvaged(&folder, &unfinished, &[]);
    assert!(
        said.status == 1 && names.is_empty() && said.err.contains("refused (4)"),
        "{}",
        said.err
    );
    let nothing = folder.write("nothing", &[0; 1_024]);
    assert!(bad("salvage", &nothing, &["into"], 1).contains("refused (2)"));
}

/// Names of damaged entries are bytes, too.
#[test]
fn names_are_escaped() {
    let folder = Folder::new("salvage-names");
    let card = sample(&folder);
    name_by_hand(&card, 3, b"../d\x1b[2J");
    name_by_hand(&card, 1, b"b\x1b[2J\0b");
    let into = folder.file("into");
    let said = on("salvage", &card, &[into.to_str().unwrap()]);
    assert_eq!(said.status, 1);
    assert!(!said.text().contains('\x1b') && !said.err.contains('\x1b'));
    assert!(
        said.text()
            .contains(r"entry 1, $'b\033[2J\000b', 70000 bytes: fault 22, its name has a byte 0"),
        "{}",
        said.text()
    );
    assert_eq!(fs::read(into.join("..%2Fd%1B[2J")).unwrap(), b"");
    assert!(!folder.file("d\x1b[2J").exists());
}

/// A sector that the medium does not give: its file is listed, the others are copied.
#[test]
fn a_sector_that_can_not_be_read() {
    let folder = Folder::new("salvage-unreadable");
    let card = sample(&folder);
    let shim = shim(&folder);
    // Extent 4 is the second of "c".
    for (sector, whole) in [
        (290 + 4 * 128 + 7, &["a", "b", "d"][..]),
        (290 + 5 * 128 + 60, &["a", "b", "c", "d"]),
    ] {
        let into = folder.file("into");
        let _ = fs::remove_dir_all(&into);
        let said = run(Command::new(env!("CARGO_BIN_EXE_goofs"))
            .arg("salvage")
            .args([&card, &into])
            .env("CARD", &card)
            .env("UNREADABLE", sector.to_string())
            .env("LD_PRELOAD", &shim));
        assert_eq!(said.status, i32::from(whole.len() < 4), "{}", said.err);
        for name in whole {
            assert!(fs::read(into.join(name)).unwrap() == contents(name));
        }
        assert_eq!(fs::read_dir(&into).unwrap().count(), whole.len());
        let line = "not whole: entry 2, c, 140000 bytes: the medium could not be read: ";
        assert_eq!(
            said.text().contains(line),
            whole.len() < 4,
            "{}",
            said.text()
        );
    }
}
