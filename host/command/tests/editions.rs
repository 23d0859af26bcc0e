//! Cards of both editions: how one is made and shown, times past the year 2106, and names that are too
//! long for the second.

mod shared;

use std::fs;
use std::path::{Path, PathBuf};

use shared::{bad, good, goofs, trial, Folder};

/// The first time that edition 1 can't store, and the latest of all.
const WIDE: &str = "4294967296";
const LATEST: &str = "18446744073709551615";

/// A card of this edition with the file `f`, of 4 bytes.
fn card(folder: &Folder, edition: &str) -> PathBuf {
    let card = folder.file(&format!("card-{edition}"));
    let words = ["--sectors=2000", "--edition", edition, "--time=1000"];
    good("format", &card, &words);
    put(folder, &card, "f", &["--time=1001"]);
    card
}

fn put(folder: &Folder, card: &Path, name: &str, options: &[&str]) {
    let file = folder.write("source", b"of f");
    let words = [&[file.to_str().unwrap(), "--as", name], options].concat();
    good("put", card, &words);
}

#[test]
fn made_and_shown() {
    let folder = Folder::new("editions");
    for (edition, line) in [
        (
            "1",
            "edition          1: times of 32 bits, up to the year 2106",
        ),
        (
            "2",
            "edition          2: times of 64 bits, names of at most 468 bytes",
        ),
    ] {
        let card = card(&folder, edition);
        let info = good("info", &card, &[]);
        assert!(info.lines().any(|shown| shown == line), "{info}");
        assert_eq!(
            fs::read(&card).unwrap()[16..18],
            [0, edition.as_bytes()[0] - b'0']
        );
        assert_eq!(good("check", &card, &[]), "sound, 1 files\n");
        assert_eq!(good("get", &card, &["f"]), "of f");
    }
    let none = folder.file("none");
    for (word, what) in [
        ("--edition=0", "there are the editions 1 and 2, and no 0"),
        ("--edition=3", "there are the editions 1 and 2, and no 3"),
        ("--edition=two", "is not a whole number"),
        ("--edition", "--edition needs a value"),
    ] {
        let err = bad("format", &none, &["--sectors=1313", word], 2);
        assert!(err.contains(what), "{err}");
    }
    assert!(!none.exists());
    let help = goofs(&["format", "--help"]).text();
    assert!(help.contains("--edition E"), "{help}");
}

/// A card of an edition that does not exist yet is none, as one of edition 2 is to an older command.
#[test]
fn of_a_later_edition() {
    let folder = Folder::new("later-edition");
    let card = card(&folder, "2");
    let mut image = fs::read(&card).unwrap();
    image[17] = 3;
    fs::write(&card, image).unwrap();
    for (command, rest) in [("info", &[][..]), ("ls", &[]), ("rm", &["f"])] {
        let err = bad(command, &card, rest, 1);
        assert!(err.contains("refused (2)"), "{err}");
    }
}

/// Edition 2 takes every time, in every command that takes one, and shows it.
#[test]
fn times_past_2106() {
    let folder = Folder::new("wide-times");
    let card = card(&folder, "2");
    put(&folder, &card, "g", &["--time", WIDE]);
    put(&folder, &card, "h", &["--time", LATEST]);
    put(&folder, &card, "i", &["--time=253402300800"]);
    let ls = good("ls", &card, &[]);
    for (name, time) in [
        ("f", "1970-01-01 00:16:41 UTC"),
        ("g", "2106-02-07 06:28:16 UTC"),
        ("h", "+584554051223-11-09 07:00:15 UTC"),
        ("i", "+10000-01-01 00:00:00 UTC"),
    ] {
        let end = format!("changed {time}  {name}");
        assert!(
            ls.lines().any(|line| line.ends_with(&end)),
            "{end} in\n{ls}"
        );
    }
    let numeric = good("ls", &card, &["--numeric"]);
    assert!(
        numeric.contains(&format!("changed {LATEST}  h")),
        "{numeric}"
    );
    good("mv", &card, &["g", "k", "--time", LATEST]);
    good("resize", &card, &["k", "9", "--time", WIDE]);
    good("get", &card, &["k", "--touch", "--time", LATEST]);
    let accessed = good("ls", &card, &["--accessed", "--numeric"]);
    assert!(
        accessed.contains(&format!("accessed {LATEST}  k")),
        "{accessed}"
    );
    good("rm", &card, &["h", "--time", LATEST]);
    let info = good("info", &card, &[]);
    assert!(
        info.contains("changed +584554051223-11-09 07:00:15 UTC"),
        "{info}"
    );
    assert!(good("ls", &card, &[]).contains("changed 2106-02-07 06:28:16 UTC  k"));
    let (numbers, _) = trial(
        &card,
        &[
            "put",
            folder.file("source").to_str().unwrap(),
            "--time",
            WIDE,
        ],
    );
    assert_eq!(numbers[6], 0);
    good("format", &card, &["--edition=2", "--yes", "--time", LATEST]);
    let info = good("info", &card, &[]);
    assert!(
        info.contains("changed +584554051223-11-09 07:00:15 UTC"),
        "{info}"
    );
}

/// Edition 1 refuses them, and says what to do; the latest that it takes is taken.
#[test]
fn times_that_edition_1_refuses() {
    let folder = Folder::new("narrow-times");
    let card = card(&folder, "1");
    let source = folder.write("source", b"new");
    let source = source.to_str().unwrap();
    for words in [
        &["put", source][..],
        &["put", source, "--as=f"],
        &["put", source, "--as=f", "--in-place"],
        &["rm", "f"],
        &["rm", "none"],
        &["mv", "f", "g"],
        &["mv", "f", "f"],
        &["resize", "f", "0"],
        &["resize", "f", "4"],
        &["trial", "put", source],
        &["trial", "create", "g"],
        &["trial", "rm", "f"],
        &["trial", "mv", "f", "g"],
        &["trial", "resize", "f", "9"],
        &["trial", "write", "f", "0", source],
        &["trial", "get", "f"],
        &["trial", "ls"],
        &["get", "f", "--touch"],
        &["ls", "--touch"],
        &["format", "--yes"],
    ] {
        for time in [WIDE, LATEST] {
            let rest = [&words[1..], &["--time", time]].concat();
            let err = bad(words[0], &card, &rest, 1);
            let (happened, advice) = err.split_once(" Nothing was changed.\nNext: ").unwrap();
            assert!(happened.contains("refused (8)"), "{err}");
            assert!(happened.contains(&format!("the time {time}, ")), "{err}");
            assert!(happened.contains("2106-02-07 06:28:15 UTC"), "{err}");
            assert!(advice.contains("--time 4294967295"), "{err}");
            assert!(advice.contains("--edition 2"), "{err}");
        }
    }
    // What is wrong with the card goes first.
    let waiting = folder.file("waiting");
    trial(&card, &["rm", "f", "--leave", waiting.to_str().unwrap()]);
    let err = bad("rm", &waiting, &["f", "--time", WIDE], 1);
    assert!(err.contains("refused (5)"), "{err}");
    let made = folder.file("made");
    bad("format", &made, &["--sectors=1313", "--time", WIDE], 1);
    assert!(!made.exists());

    good("mv", &card, &["f", "g", "--time=4294967295"]);
    assert!(good("ls", &card, &[]).contains("changed 2106-02-07 06:28:15 UTC  g"));
}

/// A name of 469 to 476 bytes is too long for edition 2, also where the file must be there.
#[test]
fn names_too_long_for_edition_2() {
    let folder = Folder::new("long-names");
    let cards = ["1", "2"].map(|edition| card(&folder, edition));
    let source = folder.file("source");
    let source = source.to_str().unwrap();
    for length in [469, 476] {
        let name = &*"n".repeat(length);
        for words in [
            &["put", source, "--as", name][..],
            &["get", name],
            &["rm", name],
            &["mv", "f", name],
            &["mv", name, "g"],
            &["resize", name, "0"],
            &["trial", "create", name],
            &["trial", "write", name, "0", source],
        ] {
            let err = bad(words[0], &cards[1], &words[1..], 1);
            let (happened, advice) = err.split_once(" Nothing was changed.\nNext: ").unwrap();
            let what = format!("has {length} bytes, on a volume of edition 2");
            assert!(happened.contains("refused (8)"), "{err}");
            assert!(happened.contains(&what), "{err}");
            assert!(advice.contains("1 to 468 bytes"), "{err}");
        }
        put(&folder, &cards[0], name, &[]);
        assert_eq!(good("get", &cards[0], &[name]), "of f");
    }
    // The longest, saved anew over itself, with its name beside.
    let name = "n".repeat(468);
    put(&folder, &cards[1], &name, &[]);
    put(&folder, &cards[1], &name, &[]);
    assert_eq!(good("get", &cards[1], &[&name]), "of f");
    good("mv", &cards[1], &[&name, "g"]);
    good("mv", &cards[1], &["g", &name]);
    assert_eq!(good("check", &cards[1], &[]), "sound, 2 files\n");
}
