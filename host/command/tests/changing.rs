//! The commands that change a volume without writing to a file on it: format, rm, recover and trial;
//! what they refuse, and a recovery after a cut that is made by hand.

mod shared;

use std::fs::{self, File};
use std::os::unix::fs::MetadataExt;
use std::path::Path;

use goofs::change::Change;
use goofs::image::Image;
use shared::{
    bad, formatted, good, numbers_of_trial, on, on_failing_medium, trial, with_limit, Folder,
};

/// Puts an empty file on the card with the library, as put does for an empty file.
fn create(card: &Path, name: &[u8], id: u64) {
    let mut image = Image::new(fs::read(card).unwrap()).unwrap();
    let list = image.list_of(&new(name, id)).unwrap();
    image.carry_out(&list).unwrap();
    let mut bytes = fs::read(card).unwrap();
    bytes[..image.bytes().len()].copy_from_slice(image.bytes());
    fs::write(card, bytes).unwrap();
}

fn new(name: &[u8], id: u64) -> Change<'_> {
    Change::Create {
        name,
        id,
        mode: 0o644,
        time: 5,
    }
}

#[test]
fn format_makes_an_empty_volume() {
    let folder = Folder::new("format");
    let card = formatted(&folder);
    assert_eq!(fs::metadata(&card).unwrap().len(), 1_313 * 512);
    assert_eq!(good("ls", &card, &[]), "");
    assert_eq!(good("check", &card, &[]), "sound, 0 files\n");
    let info = good("info", &card, &[]);
    assert!(
        info.contains("id 1, mode 755, version 0, changed 1970-01-01 00:16:40 UTC"),
        "{info}"
    );

    let other = folder.file("other");
    let options = [
        "--sectors=3000",
        "--files",
        "300",
        "--id",
        "77",
        "--mode",
        "700",
        "--time",
        "9",
    ];
    good("format", &other, &options);
    let info = good("info", &other, &[]);
    assert!(info.contains("files at most    300"), "{info}");
    assert!(
        info.contains("id 77, mode 700, version 0, changed 1970-01-01 00:00:09 UTC"),
        "{info}"
    );
}

/// A size in bytes, and counts with a unit.
#[test]
fn format_by_size() {
    let folder = Folder::new("format-size");
    let by_sectors = folder.file("by-sectors");
    good(
        "format",
        &by_sectors,
        &["--sectors=8192", "--files=1024", "--time=5"],
    );
    for (name, options) in [
        ("by-size", ["--size=4M", "--files=1K", "--time=5"]),
        ("by-count", ["--sectors=8K", "--files=1k", "--time=5"]),
    ] {
        let card = folder.file(name);
        good("format", &card, &options);
        assert!(fs::read(&card).unwrap() == fs::read(&by_sectors).unwrap());
    }
    let new = folder.file("new");
    for (options, what) in [
        (&["--size=4M", "--sectors=8192"][..], "give one of them"),
        (&["--size=1000001"], "no whole number of sectors"),
        (&[], "--size or --sectors is needed"),
        (&["--size=4X"], "--size: 4X is not a whole number"),
    ] {
        let err = bad("format", &new, options, 2);
        assert!(err.contains(what), "{err}");
    }
    assert!(!new.exists());
    // No file is made, and a slice of a recovery takes a count, too.
    assert!(bad("format", &new, &["--size=512"], 1).contains("too few"));
    good("recover", &by_sectors, &["--budget=1K"]);
}

#[test]
fn format_takes_care_of_what_is_there() {
    let folder = Folder::new("care");
    let card = formatted(&folder);
    let err = bad("format", &card, &["--sectors", "1313"], 1);
    assert!(
        err.contains("already holds a volume") && err.contains("--yes"),
        "{err}"
    );
    for wrong in [
        ["--sectors", "1056"],
        ["--files", "254"],
        ["--files", "1025"],
    ] {
        let said = bad("format", &card, &[wrong[0], wrong[1], "--yes"], 1);
        assert!(said.contains("refused (8)"), "{said}");
    }
    let none = folder.file("none");
    bad("format", &none, &["--sectors", "1056"], 1);
    bad("format", &none, &[], 2);
    assert!(!none.exists());
    let other = folder.write("other", &[1; 1_313 * 512]);
    assert!(bad("format", &other, &[], 1).contains("other data"));
    good("format", &other, &["--yes"]);
    // Zeros are nothing that could be lost.
    let zeros = folder.write("zeros", &[0; 1_400 * 512]);
    good("format", &zeros, &[]);
    create(&card, b"f", 2);
    assert_eq!(good("check", &card, &[]), "sound, 1 files\n");
    good("format", &card, &["--yes"]);
    assert_eq!(good("check", &card, &[]), "sound, 0 files\n");
}

#[test]
fn files_are_removed() {
    let folder = Folder::new("removed");
    let card = formatted(&folder);
    create(&card, b"f", 2);
    create(&card, b"g", 3);
    assert!(bad("rm", &card, &["h"], 1).contains("refused (9)"));
    bad("rm", &card, &["f", "--time", "18446744073709551616"], 2);
    bad("rm", &card, &["f", "f"], 2);
    good("rm", &card, &["f", "--time", "11"]);
    let ls = good("ls", &card, &[]);
    assert!(ls.ends_with("  g\n") && ls.lines().count() == 1, "{ls}");
    assert!(good("info", &card, &[]).contains("changed 1970-01-01 00:00:11 UTC"));

    let holder = File::open(&card).unwrap();
    holder.lock_shared().unwrap();
    for (command, rest) in [
        ("rm", &["g", "--wait=0"][..]),
        ("recover", &["--wait=0"]),
        ("format", &["--yes", "--wait=0"]),
    ] {
        let err = bad(command, &card, rest, 1);
        assert!(err.contains("another program has it open"), "{err}");
    }
}

#[test]
fn recovery_after_a_cut_by_hand() {
    let folder = Folder::new("cut");
    let card = formatted(&folder);
    create(&card, b"f", 2);
    let image = Image::new(fs::read(&card).unwrap()).unwrap();
    let list = image.list_of(&new(b"g", 3)).unwrap();
    let groups = list.groups();
    // Before the start mark the change is not done; after it, it is.
    for (whole, part, done) in [(0, 2, false), (1, 0, false), (2, 0, true), (2, 1, true)] {
        let mut cut = Image::new(image.bytes().to_vec()).unwrap();
        for write in groups[..whole]
            .iter()
            .flatten()
            .chain(&groups[whole][..part])
        {
            cut.land(*write).unwrap();
        }
        fs::write(&card, cut.bytes()).unwrap();
        if done {
            let err = bad("get", &card, &["f"], 1);
            assert!(
                err.contains("refused (5)") && err.contains("goofs recover"),
                "{err}"
            );
            bad("rm", &card, &["f"], 1);
            assert!(good("recover", &card, &[]).starts_with("recovered"));
        }
        assert!(good("recover", &card, &[]).starts_with("nothing to do"));
        let files = if done { 2 } else { 1 };
        assert_eq!(good("check", &card, &[]), format!("sound, {files} files\n"));
    }
}

/// One sector at a time: a call for each target that is still to be copied, and one more.
#[test]
fn recovery_in_slices() {
    let folder = Folder::new("slices");
    let card = formatted(&folder);
    let image = Image::new(fs::read(&card).unwrap()).unwrap();
    let list = image.list_of(&new(b"g", 3)).unwrap();
    let mut cut = Image::new(image.bytes().to_vec()).unwrap();
    for write in list.groups()[..2].iter().flatten() {
        cut.land(*write).unwrap();
    }
    fs::write(&card, cut.bytes()).unwrap();
    assert!(bad("recover", &card, &["--budget", "0"], 1).contains("refused (8)"));
    for _ in 0..2 {
        let said = good("recover", &card, &["--budget", "1"]);
        assert_eq!(said, "sectors written: 1; not finished: recover again\n");
    }
    assert!(good("recover", &card, &["--budget", "1"]).starts_with("recovered"));
    assert!(good("recover", &card, &["--budget", "1"]).starts_with("nothing to recover"));
    assert_eq!(good("check", &card, &[]), "sound, 1 files\n");
}

/// The copies of a change stand behind sector 674 of the sample, so its first write fails.
#[test]
fn a_failing_medium_is_reported() {
    let folder = Folder::new("failing");
    let card = formatted(&folder);
    create(&card, b"f", 2);
    let before = fs::read(&card).unwrap();
    let said = on_failing_medium(300, "rm", &card, &["f"]);
    assert_eq!(said.status, 1);
    for part in [
        "the medium failed",
        "of 7 sector writes 0 are on it",
        "goofs recover",
    ] {
        assert!(said.err.contains(part), "{}", said.err);
    }
    assert!(fs::read(&card).unwrap() == before);

    // A format fails behind the superblock that says that it is unfinished.
    let said = on_failing_medium(100, "format", &card, &["--yes"]);
    assert_eq!(said.status, 1);
    assert!(
        said.err.contains("give the command again, with --yes"),
        "{}",
        said.err
    );
    assert!(bad("ls", &card, &[], 1).contains("refused (4)"));
    // A file that was made for a format does not stay behind.
    let new = folder.file("new");
    let said = on_failing_medium(100, "format", &new, &["--sectors", "1313"]);
    assert_eq!(said.status, 1);
    assert!(!new.exists());
}

/// An image file has its blocks from the start, so that its disk can't run full in a change. What it
/// was asked to leave out stays out.
#[test]
fn format_takes_the_blocks_of_an_image() {
    let folder = Folder::new("blocks");
    let allocated = |card: &Path| fs::metadata(card).unwrap().blocks() * 512;
    let length = 8_192 * 512;
    let new = folder.file("new");
    good("format", &new, &["--sectors", "8192"]);
    assert!(allocated(&new) >= length);
    // A file that is there and has holes.
    let there = folder.file("there");
    File::create(&there).unwrap().set_len(length).unwrap();
    good("format", &there, &[]);
    assert!(allocated(&there) >= length);
    let sparse = folder.file("sparse");
    good("format", &sparse, &["--sectors", "8192", "--sparse"]);
    assert!(allocated(&sparse) < length / 2);
    // Where they can't be had nothing is changed: a file that is there keeps its length and bytes.
    let short = folder.write("short", &[0; 100 * 512]);
    let said = with_limit("-f 2000", "format", &short, &["--sectors", "8192"]);
    assert_eq!(said.status, 1);
    assert!(said.err.contains("Nothing was changed"), "{}", said.err);
    assert!(fs::read(&short).unwrap() == [0; 100 * 512]);
    // More than any disk has: the one here is not filled before that is told.
    let huge = folder.file("huge");
    File::create(&huge).unwrap().set_len(15 << 40).unwrap();
    let said = on("format", &huge, &[]);
    assert_eq!(said.status, 1);
    assert!(said.err.contains("No space left"), "{}", said.err);
    assert!(allocated(&huge) < length);
}

#[test]
fn a_cut_format_is_unfinished() {
    let folder = Folder::new("unfinished");
    let card = formatted(&folder);
    let mut bytes = fs::read(&card).unwrap();
    bytes[18..20].fill(255);
    fs::write(&card, bytes).unwrap();
    let err = bad("recover", &card, &[], 1);
    assert!(
        err.contains("refused (4)") && err.contains("format again"),
        "{err}"
    );
    assert!(good("info", &card, &[]).contains("unfinished"));
    bad("format", &card, &[], 1);
    good("format", &card, &["--yes"]);
}

#[test]
fn trials_of_create_and_rm() {
    let folder = Folder::new("trials");
    let card = formatted(&folder);
    create(&card, b"f", 2);
    for change in [&["create", "g"], &["rm", "f"]] {
        let [writes, cuts, recoveries, before, part, after, different] =
            numbers_of_trial(&card, change);
        // Groups of 3, 1, 2 and 1 writes: 8 + 2 + 4 + 2 cuts.
        assert_eq!((writes, cuts), (7, 16), "{change:?}");
        assert!(recoveries > cuts && before > 0 && after > 0, "{change:?}");
        assert_eq!((part, different), (0, 0), "{change:?}");
    }
    let left = folder.file("left");
    let words = ["create", "g", "--leave", left.to_str().unwrap()];
    numbers_of_trial(&card, &words);
    assert!(bad("ls", &left, &[], 1).contains("refused (5)"));
    good("recover", &left, &[]);
    assert_eq!(good("check", &left, &[]), "sound, 2 files\n");
    // The file to be left must be new.
    let held = fs::read(&left).unwrap();
    bad("trial", &card, &words, 1);
    assert!(fs::read(&left).unwrap() == held);

    assert!(bad("trial", &card, &["rm", "g"], 1).contains("refused (9)"));
    assert!(bad("trial", &card, &["create", "f"], 1).contains("refused (10)"));
    bad("trial", &card, &["shake", "g"], 2);
    bad("trial", &card, &["rm", "g", "h"], 2);
}

/// A file with extents in four table sectors: its removal has six targets, and a recovery can be cut
/// in 64 + 2 ways, more than are tried unless all are asked for. The closing line says so.
#[test]
fn recoveries_that_are_not_cut_in_every_way() {
    let folder = Folder::new("every");
    let card = folder.file("card");
    // 512 extents of 65,536 bytes, 128 of them in a table sector.
    let sectors = (546 + 255 + 512 * 128).to_string();
    good("format", &card, &["--sectors", &sectors, "--time", "1"]);
    create(&card, b"f", 2);
    let mut bytes = fs::read(&card).unwrap();
    bytes[2 * 512 + 2..2 * 512 + 10].copy_from_slice(&(4_u64 * 65_536).to_be_bytes());
    for offset in 0..4 {
        let at = (34 + 255 + offset as usize) * 512;
        bytes[at..at + 4].copy_from_slice(&[0, 0, 0, offset]);
    }
    fs::write(&card, bytes).unwrap();
    assert_eq!(good("check", &card, &[]), "sound, 1 files\n");

    let ([writes, cuts, ..], [tried, ways]) = trial(&card, &["rm", "f"]);
    // Groups of 7, 1, 6 and 1 writes. 1 + 64 + 1 of the cuts leave something to recover.
    assert_eq!((writes, cuts), (15, 128 + 2 + 64 + 2));
    assert_eq!((tried, ways), (66 * 64, 66 * 66));
    let ([_, _, recoveries, ..], [tried, ways]) = trial(&card, &["rm", "f", "--every"]);
    assert_eq!((tried, ways), (66 * 66, 66 * 66));
    assert!(recoveries > 2 * tried);
    let said = good("trial", &card, &["rm", "f"]);
    assert!(said.ends_with("ways; --every tries them all\n"), "{said}");
    // Which ways are left out is drawn, and so is how many recoveries there are after them.
    let with_seed = |seed: u64| good("trial", &card, &["rm", "f", "--seed", &seed.to_string()]);
    assert_eq!(with_seed(1), said);
    assert!((0..4).any(|k| with_seed(2 * k) != with_seed(2 * k + 1)));
    bad("trial", &card, &["rm", "f", "--every=1"], 2);
}

/// A group of more than eight writes is not cut in every subset, and that is said.
#[test]
fn groups_that_are_not_cut_in_every_subset() {
    let folder = Folder::new("subsets");
    let card = formatted(&folder);
    create(&card, b"f", 2);
    let file = folder.write("source", &[1; 5_000]);
    let words = ["write", "f", "0", file.to_str().unwrap()];
    let said = good("trial", &card, &words);
    let line = "groups of more than 8 writes: 1, cut in some of their subsets only\n";
    assert!(said.contains(line), "{said}");
    assert!(!good("trial", &card, &["rm", "f"]).contains("groups of more"));
}
