//! The commands that only read, on images that the oracle made: what they print, and how they fail.

mod shared;

use std::ffi::OsStr;
use std::fs::{self, File, Permissions};
use std::os::unix::ffi::OsStrExt;
use std::os::unix::fs::{MetadataExt, PermissionsExt};
use std::path::PathBuf;
use std::process::Command;
use std::thread;
use std::time::Duration;

use oracle::lists::RECORD;
use oracle::{FormatRequest, Request};
use shared::{
    bad, good, goofs, name_by_hand, numbers_of_trial, on, on_failing_medium, run, start, Folder,
};

/// The sample volume with one file, and a tail past the volume's end.
fn sample(folder: &Folder) -> PathBuf {
    let request = FormatRequest {
        edition: 1,
        sectors: 1_313,
        files: 255,
        id: 900,
        mode: 0o755,
        time: 1_000,
    };
    let mut image = vec![0; 1_313 * 512];
    let records = request.records().expect("the sample has a geometry");
    let mut format = vec![0; records as usize * RECORD];
    for (position, record) in (0..).zip(format.chunks_mut(RECORD)) {
        oracle::format_record(&request, position, record);
    }
    assert_eq!(oracle::carry_out(&mut image, &format), 0);
    let name = b"dark-frame".to_vec();
    for change in [
        Request::Create {
            name: name.clone(),
            id: 7,
            mode: 0o644,
            time: 1_001,
        },
        Request::Write {
            name,
            offset: 0,
            data: b"counts".to_vec(),
            time: 1_002,
        },
    ] {
        let mut list = vec![0; 200 * RECORD];
        let answer = match &change {
            Request::Create {
                name,
                id,
                mode,
                time,
            } => oracle::create(&image, name, *id, *mode, *time, &mut list),
            Request::Write {
                name,
                offset,
                data,
                time,
            } => oracle::write(&image, name, *offset, data, *time, &mut list),
            _ => unreachable!(),
        };
        assert_eq!(answer.code, 0);
        oracle::carry_out(&mut image, &list[..answer.length as usize]);
    }
    let card = folder.write("card", &image);
    // A name that only an older volume has.
    name_by_hand(&card, 0, b"dark frame");
    card
}

#[test]
fn what_stands_on_a_volume() {
    let folder = Folder::new("stands");
    let card = sample(&folder);
    let info = good("info", &card, &[]);
    for line in [
        "state            clean",
        "edition          1: times of 32 bits, up to the year 2106",
        "files at most    255",
        "extents          4 of 128 sectors (65536 bytes)",
        "journal at       257",
        "table at         289, 1 sectors",
        "data at          290",
        "reserve at       674, 1 extents",
        "extents used     1",
        "extents free     3, of which 1 must stay free; 2 (131072 bytes) for files",
    ] {
        assert!(info.lines().any(|l| l == line), "{line} in\n{info}");
    }
    assert_eq!(good("check", &card, &[]), "sound, 1 files\n");
    let ls = good("ls", &card, &[]);
    assert!(ls.contains("6 bytes") && ls.contains("id 7"), "{ls}");
    assert!(
        ls.ends_with("changed 1970-01-01 00:16:42 UTC  'dark frame'\n"),
        "{ls}"
    );
    assert_eq!(good("get", &card, &["dark frame"]), "counts");
    let copy = folder.file("copy");
    good(
        "get",
        &card,
        &["dark frame", "--as", copy.to_str().unwrap()],
    );
    assert_eq!(fs::read(&copy).unwrap(), b"counts");
}

/// The image after a command with `--touch`, which sets 4 bytes of a time here and uses the first sectors
/// of the journal and of the last extent.
fn touched(before: &[u8], at: usize, time: u32, now: &[u8]) -> bool {
    let mut expected = before.to_vec();
    expected[at..at + 4].copy_from_slice(&time.to_be_bytes());
    for sector in [257, 674] {
        let staged = sector * 512..(sector + 1) * 512;
        expected[staged.clone()].copy_from_slice(&now[staged]);
    }
    now == expected
}

/// Access times stay, as with noatime; with `--touch` one is set and nothing else.
#[test]
fn access_times() {
    const ROOT: usize = 512 + 16;
    const FILE: usize = 2 * 512 + 26;
    let folder = Folder::new("access");
    let card = sample(&folder);
    let copy = folder.file("copy");
    let copy = copy.to_str().unwrap();
    let read = || fs::read(&card).unwrap();
    let before = read();
    let ls = good("ls", &card, &["--accessed", "--numeric"]);
    assert!(ls.ends_with("accessed 1001  'dark frame'\n"), "{ls}");
    good("get", &card, &["dark frame"]);
    good("get", &card, &["dark frame", "--as", copy]);
    assert!(read() == before, "a command that reads changed the card");

    let words = ["dark frame", "--touch", "--time=2000"];
    assert_eq!(good("get", &card, &words), "counts");
    assert!(touched(&before, FILE, 2_000, &read()));
    let ls = good("ls", &card, &["--accessed"]);
    assert!(
        ls.ends_with("accessed 1970-01-01 00:33:20 UTC  'dark frame'\n"),
        "{ls}"
    );
    let before = read();
    let ls = good("ls", &card, &["--touch", "--time=3000"]);
    assert!(ls.ends_with("UTC  'dark frame'\n"), "{ls}");
    assert!(touched(&before, ROOT, 3_000, &read()));
    let info = good("info", &card, &[]);
    assert!(
        info.contains("accessed 1970-01-01 00:50:00 UTC\n"),
        "{info}"
    );

    // Of several files each one's; and now, where no time is given.
    let source = folder.write("gain", b"1.25");
    good("put", &card, &[source.to_str().unwrap(), "--time=4000"]);
    let into = folder.file("into");
    fs::create_dir(&into).unwrap();
    let into = into.to_str().unwrap();
    good(
        "get",
        &card,
        &["gain", "dark frame", "--touch", "--as", into],
    );
    let ls = good("ls", &card, &["--accessed", "--numeric"]);
    for line in ls.lines() {
        let (_, time) = line.split_once("accessed ").expect("a time");
        let (time, _) = time.split_once(' ').expect("a name behind it");
        assert!(time.parse::<u64>().unwrap() > 1_700_000_000, "{ls}");
    }
    good("check", &card, &[]);

    // Refused before anything is written.
    bad("get", &card, &["gain", "light", "--touch", "--as", into], 1);
    bad("get", &card, &["gain", "--time=5"], 2);
    bad("ls", &card, &["--time=5"], 2);
    for rest in [&["ls", "--time=9"][..], &["get", "gain", "--time=9"]] {
        let numbers = numbers_of_trial(&card, rest);
        let [writes, _, _, undone, _, done, different] = numbers;
        assert_eq!((writes, different), (5, 0), "{rest:?}");
        assert!(undone > 0 && done > 0, "{rest:?}");
    }
    // There is no file whose listing could set a time.
    let empty = folder.file("empty");
    good("format", &empty, &["--sectors=1313", "--time=7"]);
    let before = fs::read(&empty).unwrap();
    assert_eq!(good("ls", &empty, &["--touch"]), "");
    assert!(fs::read(&empty).unwrap() == before);
}

/// A card that can't be written, or that others read, is read all the same; only `--touch` fails.
#[test]
fn a_card_to_be_read_only() {
    let folder = Folder::new("read-only");
    let card = sample(&folder);
    let before = fs::read(&card).unwrap();
    let holder = File::open(&card).unwrap();
    for rest in [&["ls"][..], &["get", "dark frame"]] {
        let touching = [rest, &["--touch", "--wait=0"]].concat();
        // No write goes through.
        assert_eq!(on_failing_medium(0, rest[0], &card, &rest[1..]).status, 0);
        let said = on_failing_medium(0, rest[0], &card, &touching[1..]);
        assert_eq!((said.status, said.text()), (1, String::new()));

        holder.lock_shared().unwrap();
        good(rest[0], &card, &rest[1..]);
        let err = bad(rest[0], &card, &touching[1..], 1);
        assert!(err.contains("another program has it open"), "{err}");
        holder.unlock().unwrap();
    }
    assert!(fs::read(&card).unwrap() == before);
}

#[test]
fn refusals_say_number_and_next_step() {
    let folder = Folder::new("refusals");
    let card = sample(&folder);
    let err = bad("get", &card, &["light", "--as", "unmade"], 1);
    assert!(err.contains("refused (9)"), "{err}");
    assert!(err.contains("goofs ls"), "{err}");
    assert!(!fs::exists("unmade").unwrap());

    let mut image = fs::read(&card).unwrap();
    // The journal length says that a change of two sectors waits.
    image[19] = 2;
    let waiting = folder.write("waiting", &image);
    let err = bad("ls", &waiting, &[], 1);
    assert!(err.contains("refused (5)"), "{err}");
    assert!(
        err.contains(&format!(
            "recover first: goofs recover {}",
            waiting.display()
        )),
        "{err}"
    );
    assert!(good("info", &waiting, &[]).contains("waiting: a change of 2 sectors was cut"));

    // A mark that is neither free nor occupied.
    image[19] = 0;
    image[5 * 512] = 1;
    let unsound = folder.write("unsound", &image);
    let err = bad("check", &unsound, &[], 1);
    assert!(err.contains("refused (7)"), "{err}");
    assert!(err.contains("fault 21, directory entry 3"), "{err}");

    let short = folder.write("short", &image[..512 * 700]);
    assert!(bad("info", &short, &[], 1).contains("refused (3)"));
    let zeros = folder.write("zeros", &[0; 1_024]);
    assert!(bad("check", &zeros, &[], 1).contains("refused (2)"));
    let odd = folder.write("odd", &image[..700]);
    assert!(bad("check", &odd, &[], 1).contains("refused (1)"));
    assert!(bad("check", &folder.write("empty", b""), &[], 1).contains("refused (1)"));
    assert_eq!(on("check", &folder.file("nothing"), &[]).status, 1);
}

#[test]
fn the_card_is_not_written_over_by_get() {
    let folder = Folder::new("itself");
    let card = sample(&folder);
    let err = bad(
        "get",
        &card,
        &["dark frame", "--as", card.to_str().unwrap()],
        1,
    );
    assert!(err.contains("is the card itself"), "{err}");
}

/// A second word is not a file to be written to: it may be a local file that the shell has found.
#[test]
fn get_writes_only_to_what_is_named() {
    let folder = Folder::new("named");
    let card = sample(&folder);
    let local = folder.write("local", b"mine");
    let local = local.to_str().unwrap();
    let err = bad("get", &card, &["dark frame", local], 2);
    assert!(err.contains("--as FILE"), "{err}");
    bad(
        "get",
        &card,
        &["dark frame", "dark frame", "--as", local],
        2,
    );
    assert_eq!(fs::read(local).unwrap(), b"mine");
    // No file is written if one of the names is not there.
    let into = folder.file("into");
    fs::create_dir(&into).unwrap();
    let into = into.to_str().unwrap();
    bad("get", &card, &["dark frame", "light", "--as", into], 1);
    assert_eq!(fs::read_dir(into).unwrap().count(), 0);
    bad("get", &card, &["dark frame", "--as", ""], 1);
    for output in ["-", "/dev/stdout", "/proc/self/fd/1"] {
        assert_eq!(
            good("get", &card, &["dark frame", "--as", output]),
            "counts"
        );
    }
}

/// A file in the place of an old one keeps who may use it; a folder takes files by their names.
#[test]
fn get_writes_files_as_cp_does() {
    let folder = Folder::new("as-cp");
    let card = sample(&folder);
    let source = folder.write("gain", b"1.25");
    good("put", &card, &[source.to_str().unwrap()]);
    let old = folder.write("old", b"longer than what comes");
    let old_name = old.to_str().unwrap();
    fs::set_permissions(&old, Permissions::from_mode(0o640)).unwrap();
    good("get", &card, &["gain", "--as", old_name]);
    assert_eq!(fs::read(&old).unwrap(), b"1.25");
    assert_eq!(fs::metadata(&old).unwrap().mode() & 0o777, 0o640);
    // A link stays one, and the file behind it is written.
    let link = folder.file("link");
    std::os::unix::fs::symlink("old", &link).unwrap();
    good(
        "get",
        &card,
        &["dark frame", "--as", link.to_str().unwrap()],
    );
    assert!(fs::symlink_metadata(&link).unwrap().is_symlink());
    assert_eq!(fs::read(&old).unwrap(), b"counts");

    let into = folder.file("into");
    fs::create_dir(&into).unwrap();
    let into_name = into.to_str().unwrap();
    good("get", &card, &["gain", "dark frame", "--as", into_name]);
    assert_eq!(fs::read(into.join("gain")).unwrap(), b"1.25");
    assert_eq!(fs::read(into.join("dark frame")).unwrap(), b"counts");
    assert_eq!(fs::read_dir(&into).unwrap().count(), 2);
    // A name on the card may not lead out of the folder.
    for name in ["../out", "..", "sub/gain"] {
        good("put", &card, &[source.to_str().unwrap(), "--as=led"]);
        name_by_hand(&card, 2, name.as_bytes());
        bad("get", &card, &[name, "--as", into_name], 2);
        good("rm", &card, &[name]);
    }
    assert!(!folder.file("out").exists());
    fs::create_dir(into.join("gain2")).unwrap();
    good("put", &card, &[source.to_str().unwrap(), "--as=gain2"]);
    bad("get", &card, &["gain2", "--as", into_name], 1);
    let missing = folder.file("missing/");
    bad(
        "get",
        &card,
        &["gain", "--as", missing.to_str().unwrap()],
        1,
    );
}

/// FILE is not emptied before its bytes are there, also if the command ends by a kill.
#[test]
fn get_never_leaves_half_a_file() {
    let folder = Folder::new("half");
    let card = folder.file("card");
    good("format", &card, &["--sectors", "20000"]);
    let new = vec![7; 6_000_000];
    let source = folder.write("f", &new);
    good("put", &card, &[source.to_str().unwrap()]);
    let target = folder.write("target", b"old");
    for step in 0..40 {
        let mut child = start(
            Command::new(env!("CARGO_BIN_EXE_goofs"))
                .arg("get")
                .arg(&card)
                .args(["f", "--as"])
                .arg(&target),
        );
        thread::sleep(Duration::from_micros(step * 250));
        let _ = child.kill();
        child.wait().unwrap();
        let found = fs::read(&target).unwrap();
        assert!(
            found == b"old" || found == new,
            "{} bytes after {step} steps",
            found.len()
        );
        fs::write(&target, b"old").unwrap();
    }
}

/// Names are printed so that the shell gives them back, and never change the terminal.
#[test]
fn names_can_be_given_back() {
    let folder = Folder::new("given-back");
    let card = sample(&folder);
    let source = folder.write("source", b"");
    let source = source.to_str().unwrap();
    let names: [&[u8]; 6] = [
        b"plain-1.cal",
        b"it's",
        b"$HOME `id`",
        b"\xff\ttab\n2",
        "right\u{202e}left\u{2066}".as_bytes(),
        b"\x1b[2Jback\\slash'",
    ];
    for (i, name) in names.into_iter().enumerate() {
        good("put", &card, &[source, "--as=given"]);
        name_by_hand(&card, 1 + i, name);
    }
    let ls = good("ls", &card, &[]);
    assert_eq!(ls.lines().count(), 1 + names.len(), "{ls}");
    assert!(
        !ls.chars()
            .any(|letter| letter != '\n' && letter.is_control())
            && !ls.contains('\u{202e}')
            && !ls.contains('\u{2066}'),
        "{ls:?}"
    );
    for (line, name) in ls.lines().skip(1).zip(names) {
        let (_, word) = line.split_once(" UTC  ").expect("a time and a name");
        let said = run(Command::new("bash").args(["-c", &format!("printf %s {word}")]));
        assert_eq!(said.out, name, "{word}");
        // An error prints the name in the same way.
        let name = OsStr::from_bytes(name);
        let said = goofs(&[OsStr::new("rm"), card.as_os_str(), name, name]);
        assert!(said.status == 2 && said.err.contains(word), "{}", said.err);
    }
    let numeric = good("ls", &card, &["--numeric"]);
    assert!(
        numeric
            .lines()
            .next()
            .unwrap()
            .ends_with("changed 1002  'dark frame'"),
        "{numeric}"
    );
}

/// A volume that is clean but not sound is not passed over by info and recover.
#[test]
fn a_volume_that_is_not_sound() {
    let folder = Folder::new("not-sound");
    let card = sample(&folder);
    assert!(good("info", &card, &[]).contains("\nsound            yes\n"));
    let mut image = fs::read(&card).unwrap();
    image[5 * 512] = 1;
    let unsound = folder.write("unsound", &image);
    let info = good("info", &unsound, &[]);
    assert!(
        info.contains("\nsound            no: fault 21, directory entry 3")
            && info.contains("goofs check"),
        "{info}"
    );
    let err = bad("recover", &unsound, &[], 1);
    assert!(
        err.contains("fault 21, directory entry 3") && err.contains("Next: "),
        "{err}"
    );
    assert!(good("recover", &card, &[]).ends_with("the volume is clean and sound\n"));
}

#[test]
fn a_locked_card_is_left_alone() {
    let folder = Folder::new("locked");
    let card = sample(&folder);
    let holder = File::open(&card).unwrap();
    holder.lock().unwrap();
    assert!(bad("ls", &card, &["--wait=0"], 1).contains("another program has it open"));
    // Readers do not keep each other out.
    holder.unlock().unwrap();
    holder.lock_shared().unwrap();
    good("ls", &card, &[]);
}

#[test]
fn words_that_are_not_understood() {
    for words in [
        &["nonsense"][..],
        &["ls"],
        &["ls", "a", "b"],
        &["check", "a", "--loud", "1"],
        &["check", "a", "--loud"],
    ] {
        let said = goofs(words);
        assert_eq!(said.status, 2, "{words:?}: {}", said.err);
        assert!(said.out.is_empty());
    }
    assert_eq!(goofs::<&str>(&[]).status, 2);
    // A word that is no command takes two lines, not the whole help.
    for words in [&["nonsense"][..], &["help", "nonsense"]] {
        let said = goofs(words);
        assert_eq!((said.status, said.text()), (2, String::new()));
        assert_eq!(
            said.err,
            "goofs: there is no command nonsense.\nNext: goofs --help shows which there are.\n"
        );
    }
    assert!(goofs(&["help", "put"]).text().starts_with("goofs put CARD"));
    let version = goofs(&["--version"]);
    assert_eq!(version.status, 0);
    let number = format!("goofs {}\n", env!("CARGO_PKG_VERSION"));
    assert_eq!(version.text(), number);
}

#[test]
fn help_for_each_command() {
    let overview = goofs(&["--help"]);
    assert_eq!(overview.status, 0);
    for command in [
        "info", "check", "map", "ls", "get", "put", "write", "rm", "mv", "resize", "recover",
        "repair", "salvage", "format", "trial",
    ] {
        let said = goofs(&[command, "--help"]);
        assert_eq!(said.status, 0);
        assert!(said.text().starts_with(&format!("goofs {command} CARD")));
        assert!(overview.text().contains(&format!("  goofs {command} CARD")));
    }
}
