//! The commands that write to a file on the volume: what put and resize leave, what they refuse, and
//! trials of them.

mod shared;

use std::ffi::OsStr;
use std::fs;
use std::os::unix::ffi::OsStrExt;
use std::path::Path;

use shared::{
    bad, formatted, good, goofs, name_by_hand, numbers_of_trial, on_failing_medium, with_limit,
    Folder,
};

/// Bytes that differ from piece to piece.
fn pattern(length: usize, first: usize) -> Vec<u8> {
    (first..first + length)
        .map(|i| (i * 31 + i / 256) as u8)
        .collect()
}

fn put(folder: &Folder, card: &Path, name: &str, contents: &[u8]) {
    let file = folder.write("source", contents);
    good("put", card, &[file.to_str().unwrap(), "--as", name]);
}

fn get(card: &Path, name: &str) -> Vec<u8> {
    let said = goofs(&[OsStr::new("get"), card.as_os_str(), OsStr::new(name)]);
    assert_eq!(said.status, 0, "{}", said.err);
    said.out
}

#[test]
fn files_come_back() {
    let folder = Folder::new("back");
    let card = formatted(&folder);
    assert_eq!(good("ls", &card, &[]), "");
    for (name, length) in [("empty", 0), ("small", 700), ("two-pieces", 100_000)] {
        put(&folder, &card, name, &pattern(length, 3));
        assert_eq!(get(&card, name), pattern(length, 3), "{name}");
        assert!(good("check", &card, &[]).starts_with("sound"));
    }
    // Over an existing file: longer, then shorter; in place on the full card, then beside.
    for length in [900, 65_536, 20] {
        let file = folder.write("source", &pattern(length, 8));
        let file = file.to_str().unwrap();
        good("put", &card, &[file, "--as=small", "--in-place"]);
        assert_eq!(get(&card, "small"), pattern(length, 8));
    }
    let ls = good("ls", &card, &[]);
    assert_eq!(ls.lines().count(), 3, "{ls}");
    good("rm", &card, &["two-pieces"]);
    for length in [900, 65_536, 0, 20] {
        put(&folder, &card, "small", &pattern(length, 9));
        assert_eq!(get(&card, "small"), pattern(length, 9));
    }
    assert_eq!(good("check", &card, &[]), "sound, 2 files\n");
    assert!(good("info", &card, &[]).contains("; 2 (131072 bytes) for files\n"));
}

/// What a shell makes of `put CARD *.cal`: each file keeps its name, and none becomes another's.
#[test]
fn several_files_keep_their_names() {
    let folder = Folder::new("several");
    let card = formatted(&folder);
    let [a, b] = ["a.cal", "b.cal"].map(|name| folder.write(name, name.as_bytes()));
    let [a, b] = [&a, &b].map(|file| file.to_str().unwrap());
    good("put", &card, &[a, b]);
    assert_eq!(good("check", &card, &[]), "sound, 2 files\n");
    assert_eq!(get(&card, "a.cal"), b"a.cal");
    assert_eq!(get(&card, "b.cal"), b"b.cal");
    // Two new files have two ids.
    let ls = good("ls", &card, &[]);
    assert!(ls.contains("id 2 ") && ls.contains("id 3 "), "{ls}");

    // All or none: the second is not there, too long, or would have the name of the first.
    let long = folder.write("long", &[1; 200_000]);
    let new = folder.write("new", b"new");
    let new = new.to_str().unwrap();
    fs::create_dir(folder.file("sub")).unwrap();
    let other_new = folder.write("sub/new", b"other");
    let err = bad("put", &card, &[new, "c.cal"], 1);
    assert!(err.contains("c.cal") && err.contains("--as NAME"), "{err}");
    let err = bad("put", &card, &[new, long.to_str().unwrap()], 1);
    assert!(
        err.contains("refused (13)") && err.contains("long: "),
        "{err}"
    );
    let err = bad("put", &card, &[new, other_new.to_str().unwrap()], 2);
    assert!(err.contains("the same name"), "{err}");
    // One name is for one file, and one id too.
    bad("put", &card, &[a, b, "--as", "c.cal"], 2);
    bad(
        "put",
        &card,
        &[new, other_new.to_str().unwrap(), "--id=9"],
        2,
    );
    good("put", &card, &[a, "--as", "c.cal"]);
    assert_eq!(get(&card, "c.cal"), b"a.cal");
}

/// A source without an end is read no further than there is room on the card.
#[test]
fn a_source_without_an_end() {
    let folder = Folder::new("endless");
    let card = formatted(&folder);
    // Half a GiB of addresses; without an end to the reading they are soon used up.
    let said = with_limit("-v 500000", "put", &card, &["/dev/zero"]);
    assert_eq!(said.status, 1, "{}", said.err);
    let room = "zero: each file takes whole extents of 65536 bytes; 3 free";
    assert!(
        said.err.contains("refused (13)") && said.err.contains(room),
        "{}",
        said.err
    );
    assert_eq!(good("check", &card, &[]), "sound, 0 files\n");
    // All the room there is may be used, by a new file and, in place, by one that grows.
    put(&folder, &card, "f", &pattern(131_073, 1));
    let source = folder.write("source", &pattern(196_608, 2));
    let in_place = [source.to_str().unwrap(), "--as=f", "--in-place"];
    good("put", &card, &in_place);
    assert!(get(&card, "f") == pattern(196_608, 2));
    for rest in [
        &["/dev/zero", "--as=f"][..],
        &["/dev/zero", "--as=f", "--in-place"],
    ] {
        let err = bad("put", &card, rest, 1);
        // In place there would be no room for it either.
        assert!(
            err.contains("refused (13)") && !err.contains("--in-place"),
            "{err}"
        );
    }
    let info = good("info", &card, &[]);
    assert!(
        info.contains("room             each file takes whole extents of 65536 bytes; 0 free\n"),
        "{info}"
    );
}

/// A file that replaces another has an id of its own and the mode of the old one, or those given. In
/// place they stay, and that is not passed over.
#[test]
fn id_and_mode() {
    let folder = Folder::new("id-and-mode");
    let card = formatted(&folder);
    let file = folder.write("source", b"new");
    let file = file.to_str().unwrap();
    good("put", &card, &[file, "--as=f", "--id=7", "--mode=600"]);
    let has = |words: &str| {
        let ls = good("ls", &card, &[]);
        assert!(ls.contains(words), "{words}: {ls}");
    };
    has("id 7      mode 600 ");
    good("put", &card, &[file, "--as=f"]);
    has("id 8      mode 600 ");
    good("put", &card, &[file, "--as=f", "--mode=640"]);
    has("id 9      mode 640 ");
    good("put", &card, &[file, "--as=f", "--id=3"]);
    has("id 3      mode 640 ");
    // The old file's own id, and another's.
    let err = bad("put", &card, &[file, "--as=f", "--id=3"], 1);
    assert!(err.contains("f has the id 3 itself"), "{err}");
    good("put", &card, &[file, "--as=g"]);
    let err = bad("put", &card, &[file, "--as=f", "--id=4"], 1);
    assert!(
        err.contains("refused (10)") && err.contains("goofs ls"),
        "{err}"
    );
    let err = bad("put", &card, &[file, "--as=f", "--id=1"], 1);
    assert!(err.contains("refused (10)"), "{err}");
    // The advices: without --id, or in place.
    let longer = folder.write("longer", &pattern(2_000, 4));
    let longer = longer.to_str().unwrap();
    good("put", &card, &[longer, "--as=f", "--in-place"]);
    has("id 3      mode 640 ");
    assert_eq!(get(&card, "f"), pattern(2_000, 4));
    for option in ["--id=3", "--id=7", "--mode=600"] {
        for words in [&["put"][..], &["trial", "put"]] {
            let rest = [&words[1..], &[file, "--as=f", "--in-place", option]].concat();
            let err = bad(words[0], &card, &rest, 1);
            assert!(err.contains("keeps its id and mode"), "{err}");
        }
    }
    good("put", &card, &[file, "--as=f"]);
    has("id 5      mode 640 ");
    // For a new file they are given as ever, in place, too.
    good(
        "put",
        &card,
        &[file, "--as=h", "--in-place", "--id=70", "--mode=1"],
    );
    has("id 70     mode 1 ");
    assert_eq!(good("check", &card, &[]), "sound, 3 files\n");
}

#[test]
fn sizes_change() {
    let folder = Folder::new("sizes");
    let card = formatted(&folder);
    put(&folder, &card, "f", &pattern(1_000, 1));
    // Growing by more than 65,536 bytes takes several changes.
    good("resize", &card, &["f", "150000"]);
    let mut expected = pattern(1_000, 1);
    expected.resize(150_000, 0);
    assert_eq!(get(&card, "f"), expected);
    good("resize", &card, &["f", "10"]);
    assert_eq!(get(&card, "f"), pattern(10, 1));
    good("resize", &card, &["f", "10"]);
    for size in ["196609", "18446744073709551615", "1M"] {
        assert!(bad("resize", &card, &["f", size], 1).contains("refused (13)"));
    }
    good("resize", &card, &["f", "64K"]);
    assert_eq!(get(&card, "f").len(), 65_536);
    for (size, what) in [
        ("ten", "ten is not a whole number"),
        ("4X", "with K, M, G or T behind them"),
        ("16777216T", "is too large"),
    ] {
        let err = bad("resize", &card, &["f", size], 2);
        assert!(err.contains(what), "{err}");
    }
    bad("resize", &card, &["f", "-1"], 2);
}

/// A name that can't be typed is refused for a new file, and the byte is named. A file that has such a
/// name from before is read, written in place, resized, removed and given another name.
#[test]
fn names_that_can_not_be_typed() {
    let folder = Folder::new("names");
    let card = formatted(&folder);
    let file = folder.write("source", b"x");
    let file = file.to_str().unwrap();
    let [put, with] = ["put", "--as"].map(OsStr::new);
    for (name, what) in [
        (&b"two pieces"[..], "'two pieces' has a space at place 4"),
        (b"a/b", "a/b has a slash at place 2"),
        (b"/", "/ has a slash at place 1"),
        (b"tab\t", "$'tab\\011' has the byte 9 at place 4"),
        (b"\x7f", "has the byte 127 at place 1"),
        ("größe".as_bytes(), "größe has the byte 195 at place 3"),
        (b"ab\xff", "has the byte 255 at place 3"),
    ] {
        let name = OsStr::from_bytes(name);
        let before = fs::read(&card).unwrap();
        let said = goofs(&[put, card.as_os_str(), OsStr::new(file), with, name]);
        assert_eq!(said.status, 1);
        assert!(
            said.err.contains("refused (8)") && said.err.contains(what),
            "{}",
            said.err
        );
        assert!(
            said.err.contains("Next: give another with --as NAME"),
            "{}",
            said.err
        );
        assert!(fs::read(&card).unwrap() == before);
    }
    // The advice, also where there are several files.
    let spaced = folder.write("my gain", b"y");
    let spaced = spaced.to_str().unwrap();
    let err = bad("put", &card, &[file, spaced], 1);
    assert!(err.contains("put this file alone, with --as NAME"), "{err}");
    good("put", &card, &[spaced, "--as", "my-gain"]);
    good("put", &card, &[file, "--as", "!#~\\*?'"]);
    assert_eq!(get(&card, "!#~\\*?'"), b"x");
    good("rm", &card, &["!#~\\*?'"]);
    // After `--` a name may start with dashes.
    good("put", &card, &["--as=--yes", file]);
    good("rm", &card, &["--", "--yes"]);

    name_by_hand(&card, 0, b"my gain");
    assert!(good("ls", &card, &[]).ends_with("  'my gain'\n"));
    assert_eq!(get(&card, "my gain"), b"y");
    let err = bad("put", &card, &[spaced], 1);
    assert!(
        err.contains("'my gain' is a name that no new file may have") && err.contains("--in-place"),
        "{err}"
    );
    // Both advices.
    let advice = err.split_once("first: goofs ").unwrap().1;
    let (advice, _) = advice.split_once(" NEW;").unwrap();
    assert_eq!(advice, format!("mv {} -- 'my gain'", card.display()));
    folder.write("my gain", b"longer");
    good("put", &card, &[spaced, "--in-place"]);
    assert_eq!(get(&card, "my gain"), b"longer");
    good("resize", &card, &["my gain", "4"]);
    good("mv", &card, &["--", "my gain", "gain"]);
    assert_eq!(get(&card, "gain"), b"long");
    good("put", &card, &[spaced, "--as=gain"]);
    assert_eq!(get(&card, "gain"), b"longer");
    name_by_hand(&card, 1, b"\xff\tname");
    assert!(good("ls", &card, &[]).ends_with("  $'\\377\\011name'\n"));
    let name = OsStr::from_bytes(b"\xff\tname");
    let said = goofs(&[OsStr::new("get"), card.as_os_str(), name]);
    assert_eq!(said.out, b"longer");
    let said = goofs(&[OsStr::new("rm"), card.as_os_str(), name]);
    assert_eq!(said.status, 0, "{}", said.err);
    assert_eq!(good("check", &card, &[]), "sound, 0 files\n");
}

#[test]
fn refusals_change_nothing() {
    let folder = Folder::new("nothing");
    let card = formatted(&folder);
    put(&folder, &card, "f", &pattern(70_000, 1));
    let big = folder.write("big", &pattern(196_609, 1));
    let big = big.to_str().unwrap();
    // The first pieces would fit: the refusal must come before they are written.
    assert!(bad("put", &card, &[big, "--as=new"], 1).contains("refused (13)"));
    assert!(bad("put", &card, &[big, "--as=f"], 1).contains("refused (13)"));
    assert!(bad("put", &card, &[big, "--as", &"n".repeat(477)], 1).contains("refused (8)"));
    assert!(bad("put", &card, &[big, "--as=new", "--id", "0"], 1).contains("refused (8)"));
    assert!(bad("put", &card, &[big, "--as=new", "--id", "2"], 1).contains("refused (10)"));
    assert!(bad("put", &card, &["/no/such/file", "--as=new"], 1).contains("/no/such/file"));
}

/// The data sectors land, the copies of the entry fail: the change is not done.
#[test]
fn a_failing_medium_leaves_a_sound_volume() {
    let folder = Folder::new("failing-put");
    let card = formatted(&folder);
    put(&folder, &card, "f", &pattern(1_000, 1));
    let file = folder.write("source", &pattern(1_500, 5));
    let in_place = [file.to_str().unwrap(), "--as=f", "--in-place"];
    let said = on_failing_medium(300, "put", &card, &in_place);
    assert_eq!(said.status, 1);
    // Three data sectors, one copy, which fails, one journal sector, two marks and one target.
    assert!(
        said.err
            .contains("of 8 sector writes 0 are on it, 4 more may be"),
        "{}",
        said.err
    );
    assert!(good("recover", &card, &[]).starts_with("nothing to do"));
    assert_eq!(good("check", &card, &[]), "sound, 1 files\n");
    assert_eq!(get(&card, "f").len(), 1_000);
}

#[test]
fn trials_of_put_resize_and_write() {
    let folder = Folder::new("trials-of-put");
    let card = formatted(&folder);
    put(&folder, &card, "f", &pattern(1_500, 1));
    let file = folder.write("source", &pattern(1_400, 7));
    let file = file.to_str().unwrap();
    for change in [
        &["rm", "f"][..],
        &["resize", "f", "3"],
        &["resize", "f", "70000"],
        &["write", "f", "1500", file],
        &["put", file, "--as=g"],
        &["put", file, "--as=f"],
        &["mv", "f", "g"],
    ] {
        let [_, cuts, recoveries, before, part, after, different] = numbers_of_trial(&card, change);
        assert!(
            cuts >= 10 && recoveries >= cuts && before > 0 && after > 0,
            "{change:?}"
        );
        assert_eq!((part, different), (0, 0), "{change:?}");
    }
    // Bytes in the place of old ones land at once.
    let over = numbers_of_trial(&card, &["put", file, "--as=f", "--in-place"]);
    assert!(over[4] > 0 && over[6] == 0, "{over:?}");
    bad("trial", &card, &["rm", "f", "--in-place"], 2);
}
