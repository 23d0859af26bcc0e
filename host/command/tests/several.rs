//! Several names at once in rm and get: all of them or, where that can't be, what became of each.

mod shared;

use std::fs;
use std::path::{Path, PathBuf};

use shared::{bad, faulty, good, on, with_limit, Folder};

const NAMES: [&str; 4] = ["a", "b", "c", "d"];

/// A card with four files.
fn sample(folder: &Folder) -> PathBuf {
    let card = folder.file("card");
    good("format", &card, &["--sectors=1700", "--time=1000"]);
    for (name, length) in NAMES.into_iter().zip([10, 20, 70_000, 30]) {
        let file = folder.write(name, &vec![b'x'; length]);
        good("put", &card, &[file.to_str().unwrap(), "--time=1001"]);
    }
    card
}

/// The names that ls shows.
fn listed(card: &Path) -> Vec<String> {
    let ls = good("ls", card, &[]);
    let names = ls.lines().map(|line| line.rsplit(' ').next().unwrap());
    names.map(str::to_string).collect()
}

#[test]
fn several_are_removed() {
    let folder = Folder::new("rm-several");
    let card = sample(&folder);
    good("rm", &card, &["c", "a", "--time=1002"]);
    assert_eq!(listed(&card), ["b", "d"]);
    assert_eq!(good("check", &card, &[]), "sound, 2 files\n");
    // One that is not there: none is removed, and it is named.
    let err = bad("rm", &card, &["b", "light", "d"], 1);
    assert!(
        err.contains("refused (9)") && err.contains("the name was light"),
        "{err}"
    );
    let err = bad("rm", &card, &["b", "d", "b"], 2);
    assert!(err.contains("b is given twice"), "{err}");
    // As the advice says.
    good("ls", &card, &[]);
    good("rm", &card, &["b", "d"]);
    assert!(listed(&card).is_empty());
}

/// The names behind a sentence's beginning, in what the command said.
fn named(err: &str, what: &str) -> Vec<String> {
    let line = err.lines().find_map(|line| line.strip_prefix(what));
    let names = line.map_or("", |line| line.trim_end_matches('.'));
    names.split_whitespace().map(str::to_string).collect()
}

/// The card fails, or Ctrl-C is pressed, at each write and barrier: what is said of each file is true.
#[test]
fn removals_that_break_off() {
    let folder = Folder::new("rm-breaks-off");
    let base = sample(&folder);
    let (mut broken, mut stopped) = (0, 0);
    for fault in ["lost", "signal"] {
        for at in 0.. {
            let said = faulty(&folder, &base, fault, at, "rm", &NAMES);
            let card = folder.file("faulty-card");
            if said.status == 0 && fault == "lost" {
                break;
            }
            let err = said.err;
            if err.contains("the command was finished first") {
                // Pressed in the last removal, or never.
                assert!(listed(&card).is_empty());
                break;
            }
            if at < 2 {
                // While the volume is opened: nothing is removed yet.
                assert!(
                    err.is_empty() || err.contains("Nothing was changed"),
                    "{err}"
                );
                assert_eq!(listed(&card), NAMES);
                continue;
            }
            let (removed, kept) = (named(&err, "Removed: "), named(&err, "Not removed: "));
            let open = named(&err, "Removed or not, as goofs recover finds it: ");
            assert_eq!(
                [removed.clone(), open.clone(), kept.clone()].concat(),
                NAMES,
                "{err}"
            );
            assert_eq!(open.is_empty(), fault == "signal", "{err}");
            // As the advice says.
            if fault == "lost" {
                assert!(err.contains("goofs recover"), "{err}");
                good("recover", &card, &[]);
                broken += 1;
            } else {
                stopped += 1;
            }
            let now = listed(&card);
            assert!(removed.iter().all(|name| !now.contains(name)), "{err}");
            assert!(kept.iter().all(|name| now.contains(name)), "{err}");
            good("check", &card, &[]);
            let rest: Vec<&str> = now.iter().map(String::as_str).collect();
            if !rest.is_empty() {
                good("rm", &card, &rest);
            }
        }
    }
    assert!(broken > 30 && stopped > 5, "{broken} and {stopped}");
}

/// The log's disk is full before one of the calls: what is said of each file is true.
#[test]
fn removals_that_cannot_be_logged() {
    let folder = Folder::new("rm-unlogged");
    let base = sample(&folder);
    let card = folder.file("copy");
    let mut left = Vec::new();
    // A block of the limit has 512 or 1,024 bytes, as the shell likes. The card is shorter than the limit.
    for block in [512, 1_024] {
        for room in (0..400).step_by(40) {
            fs::copy(&base, &card).unwrap();
            let mut before = b"goofs ".to_vec();
            before.resize(2_000 * block - room - 1, b'x');
            before.push(b'\n');
            let log = folder.write("log", &before);
            let words = [&NAMES[..], &["--log", log.to_str().unwrap()]].concat();
            let said = with_limit("-f 2000", "rm", &card, &words);
            let (now, err) = (listed(&card), said.err);
            assert_eq!(said.status == 0, now.is_empty(), "{err}");
            if said.status != 0 {
                assert_eq!(named(&err, "Not removed: "), now, "{err}");
                let removed = named(&err, "Removed: ");
                assert_eq!([removed, now.clone()].concat(), NAMES, "{err}");
                assert!(err.contains("log"), "{err}");
            }
            left.push(now.len());
        }
    }
    assert!((0..=4).all(|count| left.contains(&count)), "{left:?}");
}

/// A copy that fails in the middle: those before it are whole, and all are named.
#[test]
fn copies_that_break_off() {
    let folder = Folder::new("get-breaks-off");
    let card = sample(&folder);
    let into = folder.file("into");
    fs::create_dir(&into).unwrap();
    let old = into.join("c");
    fs::write(&old, b"old").unwrap();
    let words = [&NAMES[..], &["--as", into.to_str().unwrap()]].concat();
    let said = with_limit("-f 20", "get", &card, &words);
    assert_eq!(said.status, 1);
    let err = said.err;
    assert_eq!(named(&err, "Copied: "), ["a", "b"], "{err}");
    assert_eq!(named(&err, "Not copied: "), ["c", "d"], "{err}");
    assert!(
        err.contains("into/c: ") && err.contains("\nNext: "),
        "{err}"
    );
    assert_eq!(fs::read(into.join("b")).unwrap(), [b'x'; 20]);
    assert_eq!(fs::read(&old).unwrap(), b"old");
    assert_eq!(fs::read_dir(&into).unwrap().count(), 3);
    let said = on("get", &card, &words);
    assert_eq!(said.status, 0, "{}", said.err);
    assert_eq!(fs::read(&old).unwrap().len(), 70_000);
}
