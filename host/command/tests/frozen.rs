//! Volumes that other programs have filled: files in any extents, and with fewer extents free than must
//! stay free, so that nothing can be changed any more. What each command says, and whether its advice
//! ends well.

mod shared;

use std::fs;
use std::path::{Path, PathBuf};

use oracle::layout::Edition;
use oracle::testing::foreign::foreign_volume;
use oracle::testing::images::table_entry;
use shared::{bad, good, numbers_of_trial, on, Folder};

/// Six extents, of which these are free; one must stay free. The files are a, ab, abc, c and cab: a and c
/// are empty, abc has 5 bytes and cab 600, each in an extent of its own, and ab has the other extents.
fn foreign(folder: &Folder, edition: Edition, free: &[u64]) -> PathBuf {
    folder.write("card", &foreign_volume(edition, free).image)
}

/// The value of a line of info.
fn line(card: &Path, what: &str) -> Option<String> {
    let info = good("info", card, &[]);
    let found = info.lines().find(|line| line.starts_with(what));
    found.map(|line| line[what.len()..].trim().to_string())
}

/// A frozen volume is sound, its files are read, and info says what to do.
#[test]
fn what_is_read() {
    let folder = Folder::new("frozen-read");
    let card = foreign(&folder, Edition::First, &[]);
    let before = fs::read(&card).unwrap();
    assert_eq!(good("check", &card, &[]), "sound, 5 files\n");
    assert_eq!(line(&card, "extents used").unwrap(), "6");
    assert_eq!(
        line(&card, "extents free").unwrap(),
        "0, of which 1 must stay free; 0 (0 bytes) for files"
    );
    let frozen = line(&card, "frozen").unwrap();
    assert!(
        frozen.starts_with("yes: ") && frozen.contains("goofs get "),
        "{frozen}"
    );
    assert_eq!(good("ls", &card, &[]).lines().count(), 5);
    let cab = oracle_bytes(&before, b"cab");
    assert_eq!(on("get", &card, &["cab"]).out, cab);

    // With --touch they answer too; no time is set, which is told.
    for (command, rest) in [
        ("ls", &["--touch"][..]),
        ("get", &["cab", "--touch"]),
        ("get", &["a", "--touch", "--time", "7"]),
    ] {
        let said = on(command, &card, rest);
        assert_eq!(said.status, 0, "{}", said.err);
        assert!(
            said.err.contains("no access time was set") && said.err.contains("goofs info"),
            "{}",
            said.err
        );
        assert!(fs::read(&card).unwrap() == before);
    }
    assert_eq!(on("get", &card, &["cab", "--touch"]).out, cab);
}

/// A file's bytes as the oracle reads them.
fn oracle_bytes(image: &[u8], name: &[u8]) -> Vec<u8> {
    let size = oracle::find(image, name).size;
    let mut bytes = vec![0; size as usize];
    for (i, part) in bytes.chunks_mut(65_536).enumerate() {
        let (offset, count) = (i as u64 * 65_536, part.len() as u64);
        let answer = oracle::read(image, name, offset, count, 0, part, &mut [0; 9 * 528]);
        assert_eq!((answer.code, answer.count), (0, count));
    }
    bytes
}

/// Every command that would change something is refused with 13, also one that would free extents, and
/// says what to do; other refusals go before it. What changes nothing is done.
#[test]
fn what_is_refused() {
    let folder = Folder::new("frozen-refused");
    let card = foreign(&folder, Edition::First, &[]);
    let file = |name: &str, length| {
        let path = folder.write(name, &vec![1; length]);
        path.to_str().unwrap().to_string()
    };
    let (new, empty, cab, large) = (
        file("new", 5),
        file("empty", 0),
        file("cab", 600),
        file("large", 70_000),
    );
    for (command, rest) in [
        ("rm", &["ab"][..]),
        ("rm", &["a"]),
        ("mv", &["ab", "other"]),
        ("mv", &["a", "ab"]),
        ("mv", &["ab", "other", "a", "ab"]),
        ("resize", &["ab", "0"]),
        ("resize", &["cab", "599"]),
        ("resize", &["cab", "601"]),
        ("resize", &["cab", "70000"]),
        ("put", &[&new]),
        ("put", &[&empty]),
        ("put", &[&cab]),
        ("put", &[&empty, "--as", "cab"]),
        ("put", &[&cab, "--in-place"]),
        ("put", &[&new, "--as", "cab", "--in-place"]),
        ("put", &[&large, "--as", "cab", "--in-place"]),
        ("put", &[&new, &empty]),
        ("put", &[&new, &cab, "--together"]),
        ("put", &[&empty, "--together"]),
        ("trial", &["rm", "ab"]),
        ("trial", &["mv", "ab", "other"]),
        ("trial", &["mv", "ab", "other", "a", "ab"]),
        ("trial", &["put", &empty, &cab, "--together"]),
        ("trial", &["create", "other"]),
        ("trial", &["put", &cab]),
        ("trial", &["resize", "cab", "1"]),
        ("trial", &["write", "cab", "0", &new]),
    ] {
        let err = bad(command, &card, rest, 1);
        assert!(
            err.contains("refused (13): ") && err.contains("(1 extent must stay free"),
            "{command} {rest:?}: {err}"
        );
        assert!(err.contains(". Nothing was changed.\nNext: "), "{err}");
        assert!(
            err.contains("copy the files to a larger card: mkdir FOLDER; goofs get "),
            "{err}"
        );
        assert!(!err.contains("goofs rm "), "{err}");
    }
    for (number, command, rest) in [
        (9, "rm", &["none"][..]),
        (9, "mv", &["none", "other"]),
        (9, "mv", &["ab", "other", "none", "ab"]),
        (8, "mv", &["ab", "a b"]),
        (8, "put", &[&new, "--as", "a b"]),
        (10, "put", &[&new, "--id", "900"]),
    ] {
        let err = bad(command, &card, rest, 1);
        assert!(err.contains(&format!("refused ({number})")), "{err}");
    }
    good("mv", &card, &["ab", "ab"]);
    good("mv", &card, &["ab", "ab", "a", "a"]);
    good("resize", &card, &["cab", "600"]);
    assert!(good("repair", &card, &[]).starts_with("nothing to do"));
    assert!(good("recover", &card, &[]).starts_with("nothing to do"));
    let [writes, ..] = numbers_of_trial(&card, &["get", "cab"]);
    assert_eq!(writes, 0);
}

/// What the command advises: the files go to a larger card, whole. On an equal card not all of them fit.
#[test]
fn advice_ends_well() {
    for (edition, options) in [
        (Edition::First, &[][..]),
        (Edition::Second, &["--edition", "2"]),
    ] {
        let folder = Folder::new(&format!("frozen-copied-{}", edition.number()));
        let card = foreign(&folder, edition, &[]);
        let image = fs::read(&card).unwrap();
        let frozen = line(&card, "frozen").unwrap();
        assert_eq!(frozen.contains("--edition 2"), !options.is_empty());

        let copies = folder.file("copies");
        fs::create_dir(&copies).unwrap();
        let names = ["a", "ab", "abc", "c", "cab"];
        good(
            "get",
            &card,
            &[&names[..], &["--as", copies.to_str().unwrap()]].concat(),
        );
        let files: Vec<String> = names
            .iter()
            .map(|name| copies.join(name).to_str().unwrap().to_string())
            .collect();
        let files: Vec<&str> = files.iter().map(String::as_str).collect();

        let formatted = |name: &str, extents: u64| {
            let card = folder.file(name);
            let sectors = (546 + 255 + 128 * extents).to_string();
            let words = [&["--sectors", &sectors], options].concat();
            good("format", &card, &words);
            card
        };
        let equal = formatted("equal", 6);
        let err = bad("put", &equal, &files, 1);
        assert!(
            err.contains("refused (13)") && err.contains("goofs rm"),
            "{err}"
        );
        let larger = formatted("larger", 7);
        good("put", &larger, &files);
        assert_eq!(good("check", &larger, &[]), "sound, 5 files\n");
        assert_eq!(line(&larger, "frozen"), None);
        for name in names {
            let copied = on("get", &larger, &[name]).out;
            assert!(copied == oracle_bytes(&image, name.as_bytes()), "{name}");
        }
        // And there it can be changed.
        good("rm", &larger, &["ab"]);
    }
}

/// With exactly as many free as must stay free, all but what needs an extent is done; the advice is to
/// remove a file, and that ends well.
#[test]
fn full_but_not_frozen() {
    let folder = Folder::new("foreign-full");
    let new = folder.write("new", &[1; 5]);
    let new = new.to_str().unwrap();
    for free in [0, 2, 5] {
        let card = foreign(&folder, Edition::First, &[free]);
        assert_eq!(
            line(&card, "extents free").unwrap(),
            "1, of which 1 must stay free; 0 (0 bytes) for files"
        );
        assert_eq!(line(&card, "frozen"), None);
        let err = bad("put", &card, &[new], 1);
        assert!(
            err.contains("refused (13)") && err.contains("goofs rm"),
            "{err}"
        );
        let err = bad("resize", &card, &["a", "1"], 1);
        assert!(
            err.contains("refused (13)") && err.contains("goofs rm"),
            "{err}"
        );
        good("mv", &card, &["a", "b"]);
        good("resize", &card, &["cab", "599"]);
        good("put", &card, &[new, "--as", "cab", "--in-place"]);
        let [_, _, _, _, _, _, different] = numbers_of_trial(&card, &["mv", "c", "ab"]);
        assert_eq!(different, 0);
        good("rm", &card, &["abc"]);
        good("put", &card, &[new]);
        assert_eq!(on("get", &card, &["new"]).out, [1; 5]);
        assert_eq!(good("check", &card, &[]), "sound, 5 files\n");
    }
}

/// A leak in the last extents is mended as any other. Leaks that leave too few extents free are not, and
/// the advice doesn't lead back to repair.
#[test]
fn repairs() {
    let folder = Folder::new("foreign-repaired");
    let mut volume = foreign_volume(Edition::First, &[1, 4, 5]);
    let geometry = volume.ledger.geometry();
    let mut leak = |extent| {
        let at = table_entry(geometry, extent);
        volume.image[at..at + 4].copy_from_slice(&[0, 9, 0, 0]);
        folder.write("card", &volume.image)
    };
    leak(5);
    let card = leak(4);
    let said = good("repair", &card, &["--yes"]);
    assert!(
        said.contains("extent 4: of entry 9") && said.ends_with("freed: 2 extents\n"),
        "{said}"
    );
    good("check", &card, &[]);

    let card = leak(1);
    let frozen = line(&card, "frozen").unwrap();
    assert!(frozen.ends_with("see state and sound above"), "{frozen}");
    let err = bad("check", &card, &[], 1);
    assert!(
        err.contains("fault 25") && err.contains("goofs repair"),
        "{err}"
    );
    let err = bad("repair", &card, &["--yes"], 1);
    assert!(
        err.contains("refused (13)") && err.contains("no command mends this volume"),
        "{err}"
    );
    let next = err.split("Next: ").nth(1).unwrap();
    assert!(
        next.contains("goofs format") && !next.contains("goofs repair"),
        "{err}"
    );
}
