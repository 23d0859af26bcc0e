//! Cards held against the log of their calls: right ones, and wrong ones made by hand, each found out.

mod shared;

use std::ffi::OsStr;
use std::fs;
use std::path::{Path, PathBuf};

use oracle::layout::Edition;
use oracle::testing::foreign::foreign_volume;
use shared::{good, goofs, on, Folder, Said};

const SECTOR: usize = 512;
/// A card of ten extents, and its areas: table and data.
const SECTORS: &str = "2081";
const TABLE: usize = 289;
const DATA: usize = 290;

fn audit(log: &Path, card: &Path, rest: &[&str]) -> Said {
    let mut words = vec![OsStr::new("audit"), log.as_os_str(), card.as_os_str()];
    words.extend(rest.iter().map(OsStr::new));
    let before = fs::read(card).ok();
    let said = goofs(&words);
    assert!(
        fs::read(card).ok() == before,
        "an audit only reads the card"
    );
    said
}

/// The audit's line; the card must be what the log gives.
fn right(log: &Path, card: &Path, rest: &[&str]) -> String {
    let said = audit(log, card, rest);
    assert_eq!(said.status, 0, "{}", said.err);
    let text = said.text();
    assert_eq!(text.lines().count(), 1, "{text}");
    text
}

/// What the audit says of a card that is not what the log gives.
fn wrong(log: &Path, card: &Path, rest: &[&str]) -> String {
    let said = audit(log, card, rest);
    assert_eq!((said.status, &said.text()[..]), (1, ""), "{}", said.err);
    assert!(said.err.contains("\nNext: "), "{}", said.err);
    said.err
}

struct Sample {
    folder: Folder,
    card: PathBuf,
    log: PathBuf,
}

impl Sample {
    /// "a" of 700 bytes in entry 0 and extent 0, "b" of 70,000 in entry 1 and extents 1 and 2.
    fn new(test: &str) -> Sample {
        let folder = Folder::new(test);
        let (card, log) = (folder.file("card"), folder.file("log"));
        let sample = Sample { folder, card, log };
        sample.good("format", &["--sectors", SECTORS, "--time", "1000"]);
        sample.put("a", &[7; 700], &["--in-place", "--time", "1001"]);
        sample.put("b", &[8; 70_000], &["--in-place", "--time", "1002"]);
        sample
    }

    /// A command with the log.
    fn good(&self, command: &str, rest: &[&str]) {
        let log = self.log.to_str().unwrap();
        let said = on(command, &self.card, &[rest, &["--log", log]].concat());
        assert_eq!(said.status, 0, "{}", said.err);
    }

    fn put(&self, name: &str, contents: &[u8], rest: &[&str]) {
        let file = self.folder.write(name, contents);
        self.good("put", &[&[file.to_str().unwrap()], rest].concat());
    }

    fn image(&self) -> Vec<u8> {
        fs::read(&self.card).unwrap()
    }

    fn copy(&self, image: &[u8]) -> PathBuf {
        self.folder.write("copy", image)
    }

    /// The log without its last line, which says that the last call is done.
    fn open_log(&self) -> PathBuf {
        let log = fs::read_to_string(&self.log).unwrap();
        let end = log.trim_end().rfind('\n').unwrap();
        assert!(log[end..].starts_with("\ngoofs done "));
        self.folder.write("open-log", &log.as_bytes()[..end + 1])
    }
}

/// Every command that changes a card logs its calls, and the card is what they give.
#[test]
fn every_command_logs() {
    let sample = Sample::new("audit-commands");
    let copy = sample.folder.file("out");
    sample.put("a", &[9; 900], &["--time", "1003"]);
    sample.put(
        "c c'%",
        &[1; 9],
        &["--as", "c%", "--mode", "600", "--time", "1004"],
    );
    sample.good("mv", &["c%", "d=e", "--time", "1005"]);
    sample.good("resize", &["b", "10", "--time", "1006"]);
    sample.good("resize", &["b", "150000", "--time", "1007"]);
    sample.good(
        "get",
        &[
            "a",
            "--as",
            copy.to_str().unwrap(),
            "--touch",
            "--time",
            "1008",
        ],
    );
    sample.good("ls", &["--touch", "--time", "1009"]);
    sample.good("rm", &["d=e", "--time", "1010"]);
    let piece = sample.folder.write("piece", &[3; 70_000]);
    sample.good(
        "write",
        &["b", "100", piece.to_str().unwrap(), "--time", "1011"],
    );
    for name in ["e", "f", "g"] {
        sample.put(name, &[4; 10], &["--time", "1012"]);
    }
    sample.good("rm", &["g", "e", "--time", "1013"]);
    let all = sample.folder.file("all");
    sample.good(
        "get",
        &["--all", all.to_str().unwrap(), "--touch", "--time", "1014"],
    );
    sample.good("mv", &["a", "t", "f", "a", "t", "f", "--time", "1015"]);
    let set = ["f", "h"].map(|name| sample.folder.write(name, &[5; 20]));
    let set = set.each_ref().map(|file| file.to_str().unwrap());
    sample.good(
        "put",
        &[&set[..], &["--together", "--time", "1016"]].concat(),
    );
    sample.good("recover", &[]);
    sample.good("repair", &[]);
    let log = fs::read_to_string(&sample.log).unwrap();
    for call in [
        "format",
        "create",
        "write",
        "rename",
        "rename_set",
        "resize",
        "read",
        "list",
        "delete",
    ] {
        assert!(log.contains(&format!("\ngoofs {call} ")), "{call}");
    }
    // One call for each name, and for each piece of a long write.
    for (call, count) in [
        ("delete name=g ", 1),
        ("delete name=e ", 1),
        ("write name=b offset=100 time=1011 ", 1),
        ("write name=b offset=65636 time=1011 ", 1),
        ("time=1014 ", 3),
        // Of several renames one, and of files that are put together one with all of their names.
        ("time=1015 ", 1),
        ("rename_set old=a new=t old=f new=a old=t new=f ", 1),
        (
            "rename_set old=f.goofs-saving new=f old=h.goofs-saving new=h ",
            1,
        ),
    ] {
        let found = log.lines().filter(|line| line.contains(call)).count();
        assert_eq!(found, count, "{call}");
    }
    let calls = log.lines().filter(|line| line.contains(" done ")).count();
    let said = right(&sample.log, &sample.card, &[]);
    let all = format!("as the log says, with all of its {calls} calls done\n");
    assert!(said.ends_with(&all), "{said}");
    // A refused command, and one that has nothing to do, leave the log as it is.
    for (command, rest) in [
        ("rm", &["x"][..]),
        ("mv", &["a", "a"]),
        ("mv", &["a", "y", "x", "a"]),
        ("recover", &[]),
    ] {
        let log = sample.log.to_str().unwrap();
        on(command, &sample.card, &[rest, &["--log", log]].concat());
    }
    assert_eq!(fs::read_to_string(&sample.log).unwrap(), log);
}

/// One byte, field or extent of the card is another; the audit names the file and what it is.
#[test]
fn wrong_cards() {
    let sample = Sample::new("audit-wrong");
    let image = sample.image();
    right(&sample.log, &sample.card, &[]);
    let entry = |index: usize, at: usize| (2 + index) * SECTOR + at;
    let table = |extent: usize| TABLE * SECTOR + 4 * extent;
    let data = |extent: usize, at: usize| (DATA + 128 * extent) * SECTOR + at;
    for (at, bytes, found) in [
        (data(0, 699), &[8][..], "a: byte 699 is 8, not 7"),
        (
            data(1, 512),
            &[7; 512],
            "b: byte 512 is 7, not 8, the first of 1 sectors",
        ),
        (
            data(2, 0),
            &[0; 1_024],
            "b: byte 65536 is 0, not 8, the first of 2 sectors",
        ),
        (entry(0, 10), &[0, 0, 0, 9], "a: version is 9, not 1"),
        (entry(0, 14), &[1; 8], "a: id is 72340172838076673, not 2"),
        (entry(1, 22), &[0, 0, 1, 0o200], "b: mode is 600, not 644"),
        (entry(1, 26), &[0, 0, 0, 1], "b: access time is 1, not 1002"),
        (entry(1, 30), &[0, 0, 0, 2], "b: change time is 2, not 1002"),
        (
            entry(0, 36),
            b"x",
            "a: is missing\n  x: is on the card, of 700 bytes",
        ),
        (
            entry(0, 2),
            &[0, 0, 0, 0, 0, 0, 2, 187],
            "a: size is 699, not 700",
        ),
        (SECTOR, &[0, 0, 0, 3], "the root: version is 3, not 2"),
        (SECTOR + 4, &[9], "the root: id is "),
        (SECTOR + 12, &[0, 0, 0, 0], "the root: mode is 0, not 755"),
        (
            SECTOR + 16,
            &[0, 0, 0, 0],
            "the root: access time is 0, not 1000",
        ),
        (
            SECTOR + 20,
            &[0, 0, 0, 0],
            "the root: change time is 0, not 1002",
        ),
        // An extent that leaks, and two files that have changed places.
        (
            table(3),
            &[0, 0, 0, 1],
            "extent 3: is taken and belongs to no file",
        ),
        (
            table(1),
            &[0, 1, 0, 1, 0, 1, 0, 0],
            "b: list of extents is 2 1, not 1 2",
        ),
        // A volume of another edition, and a journal that can't be.
        (16, &[0, 2], "it is another volume"),
        (18, &[4, 1], "journal is damaged"),
        (8, b"/no/FS/", "there is no volume"),
    ] {
        let mut other = image.clone();
        assert!(other[at..at + bytes.len()] != *bytes, "{found}");
        other[at..at + bytes.len()].copy_from_slice(bytes);
        let said = wrong(&sample.log, &sample.copy(&other), &[]);
        assert!(said.contains(found), "{found}: {said}");
    }
    // A file is missing without a trace.
    let mut other = image.clone();
    other[entry(1, 0)..entry(2, 0)].fill(0);
    other[table(1)..table(3)].fill(255);
    let said = wrong(&sample.log, &sample.copy(&other), &[]);
    assert!(said.contains("  b: is missing\n"), "{said}");
    // Bytes that no file has are no difference.
    let mut other = image.clone();
    other[data(0, 700)] = 1;
    other[data(3, 0)..].fill(1);
    other[257 * SECTOR] = 1;
    right(&sample.log, &sample.copy(&other), &[]);
}

/// Of the targets of the last call some stand on the card and some don't: each such part is found out,
/// and none and all are right.
#[test]
fn calls_half_done() {
    for (command, rest, last) in [
        ("put", &["n", "--in-place"][..], "create n"),
        ("rm", &["b"], "delete b"),
        ("mv", &["a", "b"], "rename a to b"),
        ("mv", &["a", "c"], "rename a to c"),
        (
            "mv",
            &["a", "t", "b", "a", "t", "b"],
            "rename a to t, b to a, t to b",
        ),
        ("mv", &["a", "c", "b", "a"], "rename a to c, b to a"),
        ("mv", &["a", "b", "b", "a"], "rename a to b, b to a"),
        ("resize", &["b", "1"], "resize b to 1"),
        ("resize", &["a", "66236"], "resize a to 66236"),
    ] {
        let sample = Sample::new("audit-half");
        let before = sample.image();
        let empty = sample.folder.write("n", b"");
        let mut words = rest.to_vec();
        if command == "put" {
            words[0] = empty.to_str().unwrap();
        }
        sample.good(command, &[&words[..], &["--time", "1003"]].concat());
        let after = sample.image();
        let log = sample.open_log();
        let targets: Vec<usize> = (1..DATA)
            .filter(|sector| !(257..TABLE).contains(sector))
            .filter(|sector| {
                let at = sector * SECTOR;
                before[at..at + SECTOR] != after[at..at + SECTOR]
            })
            .collect();
        assert!(!targets.is_empty());
        let all = (1 << targets.len()) - 1;
        for landed in 0..=all {
            let mut image = before.clone();
            for (i, target) in targets.iter().enumerate() {
                if landed >> i & 1 == 1 {
                    let at = target * SECTOR;
                    image[at..at + SECTOR].copy_from_slice(&after[at..at + SECTOR]);
                }
            }
            let card = sample.copy(&image);
            let is_whole = landed == 0 || landed == all;
            match is_whole {
                false => drop(wrong(&log, &card, &[])),
                true => {
                    let said = right(&log, &card, &[]);
                    let end = if landed == 0 { "not done" } else { "done" };
                    assert!(said.contains(&format!(": {last}) is {end}")), "{said}");
                }
            }
            // Where the log says that it is done, only that is right.
            assert_eq!(
                audit(&sample.log, &card, &[]).status == 0,
                landed == all,
                "{last}"
            );
        }
    }
}

/// A write over old bytes that was cut: any of its sectors may be there, each whole, and none of another
/// call's.
#[test]
fn data_sectors() {
    let sample = Sample::new("audit-sectors");
    let before = sample.image();
    sample.put("b", &[3; 70_000], &["--in-place", "--time", "1003"]);
    let log = fs::read_to_string(&sample.log).unwrap();
    let second = log.rfind("goofs write ").unwrap();
    let log = sample.folder.write("open-log", &log.as_bytes()[..second]);
    let cut = fs::read_to_string(&log).unwrap();
    let log = sample.folder.write(
        "open-log",
        cut.trim_end().rsplit_once('\n').unwrap().0.as_bytes(),
    );
    let extent_1 = (DATA + 128) * SECTOR;
    let with = |sectors: &[usize]| {
        let mut image = before.clone();
        for sector in sectors {
            image[extent_1 + sector * SECTOR..][..SECTOR].fill(3);
        }
        sample.copy(&image)
    };
    let said = right(&log, &with(&[]), &[]);
    assert!(
        said.contains("(line 17: write 65536 bytes at 0 of b) is not done, and shows none of"),
        "{said}"
    );
    for sectors in [&[0][..], &[5, 127], &[0, 1, 2, 3], &[126]] {
        let said = right(&log, &with(sectors), &[]);
        let places: Vec<String> = sectors.iter().map(usize::to_string).collect();
        let end = format!(
            "is not done, and its data sectors {} landed\n",
            places.join(", ")
        );
        assert!(said.ends_with(&end), "{said}");
    }
    // A torn sector, one behind the write, and bytes of neither file.
    let mut image = before.clone();
    image[extent_1..extent_1 + 100].fill(3);
    assert!(wrong(&log, &sample.copy(&image), &[]).contains("b: byte 100 is 8, not 3"));
    let mut image = before.clone();
    image[extent_1 + 128 * SECTOR..][..SECTOR].fill(3);
    assert!(wrong(&log, &sample.copy(&image), &[]).contains("b: byte 65536 is 3, not 8"));
    let mut image = before.clone();
    image[extent_1..extent_1 + SECTOR].fill(4);
    wrong(&log, &sample.copy(&image), &[]);
    // A sector of a file that this call doesn't name, beside one that may have landed.
    let mut image = before.clone();
    image[extent_1..extent_1 + SECTOR].fill(3);
    image[DATA * SECTOR..][..SECTOR].fill(3);
    assert!(wrong(&log, &sample.copy(&image), &[]).contains("  a: byte 0 is 3, not 7"));
    // Noted in the log, it is what later calls begin with; also where a box has printed more.
    let card = with(&[0, 2]);
    let noisy = [b"boot 3.2\r\n", &fs::read(&log).unwrap()[..]].concat();
    let noisy = sample.folder.write("noisy", &noisy);
    right(&noisy, &card, &["--settle"]);
    assert!(right(&noisy, &card, &[]).ends_with("with 6 of its 7 calls done\n"));
    right(&log, &card, &["--settle"]);
    let noted = fs::read_to_string(&log).unwrap();
    assert!(
        noted
            .lines()
            .last()
            .unwrap()
            .starts_with("goofs cut landed=0,2 sum="),
        "{noted}"
    );
    assert!(right(&log, &card, &[]).ends_with("with 6 of its 7 calls done\n"));
    wrong(&log, &with(&[0]), &[]);
    wrong(&log, &with(&[]), &[]);
}

/// The power failed while a line was written: wherever that is, its call had not begun.
#[test]
fn cut_logs() {
    let sample = Sample::new("audit-cut-log");
    let before = sample.image();
    let whole = fs::read(&sample.log).unwrap();
    sample.good("mv", &["a", "c", "--time", "1003"]);
    let longer = fs::read(&sample.log).unwrap();
    let added = String::from_utf8(longer[whole.len()..].to_vec()).unwrap();
    let line = added.find("goofs rename ").unwrap();
    let end = line + added[line..].find('\n').unwrap();
    let card = sample.copy(&before);
    for at in (line + 6..end).step_by(5) {
        let log = sample.folder.write("cut-log", &longer[..whole.len() + at]);
        let said = right(&log, &card, &[]);
        assert!(
            said.contains("; line 17 is cut off, so what it was to say had not begun"),
            "{said}"
        );
        // The rename has begun: then the line would be whole.
        assert!(wrong(&log, &sample.card, &[]).contains("a: is missing"));
        // The log goes on behind it.
        let again = Sample {
            folder: Folder::new("audit-cut-log-2"),
            card: card.clone(),
            log,
        };
        again.good("rm", &["b", "--time", "1004"]);
        let said = right(&again.log, &card, &[]);
        assert!(said.ends_with("with all of its 7 calls done\n"), "{said}");
        fs::write(&card, &before).unwrap();
    }
    // Damage in the middle of a log can't be passed over.
    let mut damaged = longer.clone();
    let at = damaged
        .windows(13)
        .position(|bytes| bytes == b"goofs create ")
        .unwrap();
    damaged[at + 20] ^= 1;
    let log = sample.folder.write("damaged-log", &damaged);
    let said = wrong(&log, &sample.card, &[]);
    assert!(said.contains("line 5: it is damaged"), "{said}");
}

/// Another card's log, a log without a beginning, none at all, and words that are not understood.
#[test]
fn wrong_logs() {
    let sample = Sample::new("audit-wrong-log");
    let other = Sample::new("audit-other-log");
    other.good("rm", &["b", "--time", "1003"]);
    assert!(wrong(&other.log, &sample.card, &[]).contains("b: is on the card, of 70000 bytes"));
    assert!(wrong(&sample.log, &other.card, &[]).contains("b: is missing"));
    other.good("format", &["--size", "1131008", "--yes", "--time", "1000"]);
    let said = wrong(&sample.log, &other.card, &[]);
    assert!(
        said.contains("the volume: extents is 11, not 10: it is another volume"),
        "{said}"
    );

    let log = fs::read_to_string(&sample.log).unwrap();
    let second = log.find("goofs create ").unwrap();
    let rest = sample.folder.write("rest", &log.as_bytes()[second..]);
    let said = wrong(&rest, &sample.card, &[]);
    assert!(
        said.contains("line 1: the log begins with a create a, not with a format"),
        "{said}"
    );
    let from = sample.folder.file("from");
    good("format", &from, &["--sectors", SECTORS, "--time", "1000"]);
    right(&rest, &sample.card, &["--from", from.to_str().unwrap()]);
    let from = sample.card.to_str().unwrap();
    let said = wrong(&rest, &sample.card, &["--from", from]);
    assert!(
        said.contains("line 1: create a was done by the log, and the ledger refuses it (10)"),
        "{said}"
    );

    let empty = sample.folder.write("empty", b"");
    assert!(wrong(&empty, &sample.card, &[]).contains("the log has no call"));
    right(&empty, &sample.card, &["--from", from]);
    let said = wrong(&sample.folder.file("none"), &sample.card, &[]);
    assert!(said.contains("No such file"), "{said}");
    let said = audit(&sample.log, &sample.card, &["--to", "x"]);
    assert_eq!(said.status, 2, "{}", said.err);

    // Nor is a card or another file taken for a log, and nothing is done without one.
    let before = sample.image();
    for file in [&sample.card, &sample.folder.file("a")] {
        let rest = ["b", "--log", file.to_str().unwrap()];
        let said = on("rm", &sample.card, &rest);
        assert_eq!(said.status, 1, "{}", said.err);
        assert!(said.err.contains("Nothing was changed"), "{}", said.err);
        assert!(sample.image() == before);
    }
}

/// A volume that another writer has filled, its last extents too: the log begins from a copy of it.
#[test]
fn volumes_of_other_writers() {
    for edition in Edition::BOTH {
        for free in [&[1, 3][..], &[0, 2, 4], &[0, 1, 2, 3, 5]] {
            let folder = Folder::new("audit-foreign");
            let card = folder.write("card", &foreign_volume(edition, free).image);
            let from = folder.file("from");
            fs::copy(&card, &from).unwrap();
            let log = folder.file("log");
            let sample = Sample { folder, card, log };
            sample.put("n", b"new", &["--time", "1003"]);
            sample.good("rm", &["abc", "--time", "1004"]);
            sample.good("resize", &["ab", "1", "--time", "1005"]);
            let from = ["--from", from.to_str().unwrap()];
            right(&sample.log, &sample.card, &from);
            let mut image = sample.image();
            let byte = 6 * SECTOR - 1;
            image[byte] ^= 1;
            // Behind a name an entry says nothing.
            right(&sample.log, &sample.copy(&image), &from);
            image[5 * SECTOR + 13] ^= 1;
            wrong(&sample.log, &sample.copy(&image), &from);
        }
    }
}

/// A format that was cut leaves what was there, an unfinished volume, or the new one.
#[test]
fn cut_formats() {
    let folder = Folder::new("audit-format");
    let (card, log) = (folder.file("card"), folder.file("log"));
    let words = [
        "--sectors",
        "1313",
        "--time",
        "1000",
        "--log",
        log.to_str().unwrap(),
    ];
    assert_eq!(on("format", &card, &words).status, 0);
    let whole = fs::read_to_string(&log).unwrap();
    let open = folder.write(
        "open",
        whole
            .split_inclusive('\n')
            .take(2)
            .collect::<String>()
            .as_bytes(),
    );
    let image = fs::read(&card).unwrap();
    let said = right(&open, &card, &[]);
    assert!(said.contains("the last (line 2: format) is done"), "{said}");
    let blank = folder.write("blank", &vec![0; image.len()]);
    assert!(right(&open, &blank, &[]).contains("is not done; next: format again"));
    let mut unfinished = image.clone();
    unfinished[18..20].fill(255);
    let unfinished = folder.write("unfinished", &unfinished);
    assert!(right(&open, &unfinished, &[]).contains("is not done; next: format again"));
    assert!(wrong(&log, &unfinished, &[]).contains("unfinished"));
    assert!(wrong(&log, &blank, &[]).contains("there is no volume"));
    right(&open, &blank, &["--settle"]);
    assert!(wrong(&open, &card, &[]).contains("no format of the log was done"));
}

/// After a cut the log goes on without a note of what became of the call: both ends are followed.
#[test]
fn logs_that_go_on() {
    let sample = Sample::new("audit-goes-on");
    let before = sample.image();
    sample.good("mv", &["a", "c", "--time", "1003"]);
    for is_done in [true, false] {
        let log = sample.open_log();
        let card = match is_done {
            true => sample.copy(&sample.image()),
            false => sample.copy(&before),
        };
        let again = Sample {
            folder: Folder::new("audit-goes-on-2"),
            card,
            log,
        };
        again.good("resize", &["b", "3", "--time", "1004"]);
        let said = right(&again.log, &again.card, &[]);
        let count = if is_done { "all" } else { "7" };
        assert!(
            said.ends_with(&format!("with {count} of its 8 calls done\n")),
            "{said}"
        );
        // Both ends are right, a third is not.
        let mut image = again.image();
        image[2 * SECTOR + 36] = b'e';
        fs::write(&again.card, &image).unwrap();
        wrong(&again.log, &again.card, &[]);
    }
}
