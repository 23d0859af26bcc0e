//! get with `--all` and `-p`: names in a folder, what is never written over, times and modes.

mod shared;

use std::ffi::OsStr;
use std::fs::{self, Permissions};
use std::os::unix::ffi::OsStrExt;
use std::os::unix::fs::{MetadataExt, PermissionsExt};
use std::path::{Path, PathBuf};
use std::process::Command;

use shared::{bad, good, name_by_hand, on, preloaded, run, with_limit, Folder};

/// A volume with these files, given their names by hand.
fn sample(folder: &Folder, files: &[(&[u8], &[u8])]) -> PathBuf {
    let card = folder.file("card");
    let size = ["--size=2M", "--time=1000"];
    good("format", &card, &size);
    for (i, (name, contents)) in files.iter().enumerate() {
        let source = folder.write("source", contents);
        let words = [source.to_str().unwrap(), "--as=new", "--time=1001"];
        good("put", &card, &words);
        name_by_hand(&card, i, name);
    }
    good("check", &card, &[]);
    card
}

/// All files under a folder, by their paths in it.
fn files_in(folder: &Path) -> Vec<PathBuf> {
    let mut found = Vec::new();
    let mut folders = vec![folder.to_path_buf()];
    while let Some(next) = folders.pop() {
        for entry in fs::read_dir(next).unwrap() {
            let path = entry.unwrap().path();
            match path.is_dir() {
                true => folders.push(path),
                false => found.push(path.strip_prefix(folder).unwrap().to_path_buf()),
            }
        }
    }
    found.sort();
    found
}

#[test]
fn every_file_into_a_folder() {
    let folder = Folder::new("get-all");
    let long = [b'n'; 300];
    let files: [(&[u8], &[u8]); 9] = [
        (b"gain", b"1.25"),
        (b"dark frame", b""),
        (b"../out", b"led out"),
        (b"/etc/passwd", b"led to the root"),
        (b"..", b"dots"),
        (b"50%", b"a percent sign"),
        (b"50%25", b"one more"),
        (b"\xff\x1b[2J", b"no text"),
        (&long, b"a long name"),
    ];
    let card = sample(&folder, &files);
    let before = fs::read(&card).unwrap();
    let into = folder.file("into");
    let into_word = into.to_str().unwrap();
    let said = good("get", &card, &["--all", into_word]);
    assert!(fs::read(&card).unwrap() == before);
    let bytes: usize = files.iter().map(|(_, contents)| contents.len()).sum();
    let escaped = [
        ("../out", "..%2Fout"),
        ("/etc/passwd", "%2Fetc%2Fpasswd"),
        ("..", "%2E%2E"),
        ("50%25", "50%2525"),
        (r"$'\377\033[2J'", "%FF%1B[2J"),
    ];
    for (name, path) in escaped {
        let path = match path.contains('[') {
            true => format!("'{into_word}/{path}'"),
            false => format!("{into_word}/{path}"),
        };
        let line = format!("{name} is {path}");
        assert!(said.lines().any(|said| said == line), "{line} in\n{said}");
    }
    assert!(
        said.ends_with(&format!("copied: 9 files, {bytes} bytes, to {into_word}\n")),
        "{said}"
    );
    assert_eq!(said.lines().count(), 1 + escaped.len() + 1, "{said}");
    assert!(!folder.file("out").exists());
    // Each comes back by its name, decoded as the help says.
    let found = files_in(&into);
    assert_eq!(found.len(), files.len());
    for path in found {
        let name = decoded(path.as_os_str().as_bytes());
        let (_, contents) = files
            .iter()
            .find(|(other, _)| *other == name)
            .expect("a file's name");
        assert_eq!(fs::read(into.join(&path)).unwrap(), *contents, "{path:?}");
    }
}

/// A disk that does not take some signs in names, as that of a memory stick.
#[test]
fn a_disk_that_does_not_take_all_names() {
    let folder = Folder::new("get-all-strict");
    let files: [(&[u8], &[u8]); 4] = [
        (b"gain", b"1.25"),
        (b"12:30 <x>", b"signs"),
        (b"end.", b"a dot at the end"),
        (b"50%3A", b"an escape already"),
    ];
    let card = sample(&folder, &files);
    let shared = preloaded(&folder, "strict_folder");
    for (into, settings) in [
        ("other", vec![]),
        ("stick", vec![("LD_PRELOAD", shared.as_path())]),
    ] {
        let is_strict = !settings.is_empty();
        let into = folder.file(into);
        let said = run(Command::new(env!("CARGO_BIN_EXE_goofs"))
            .arg("get")
            .arg(&card)
            .arg("--all")
            .arg(&into)
            .envs(settings));
        assert_eq!(said.status, 0, "{}", said.err);
        assert_eq!(
            said.text().contains("12%3A30 %3Cx%3E"),
            is_strict,
            "{}",
            said.text()
        );
        let found = files_in(&into);
        assert_eq!(found.len(), files.len());
        for path in found {
            let bytes = path.as_os_str().as_bytes();
            let name = decoded(bytes);
            assert!(!is_strict || !bytes.contains(&b':') && !bytes.ends_with(b"."));
            let (_, contents) = files
                .iter()
                .find(|(other, _)| *other == name)
                .expect("a file's name");
            assert_eq!(fs::read(into.join(&path)).unwrap(), *contents, "{path:?}");
        }
    }
}

/// Percent-decoding, after the parts of a long name are joined.
fn decoded(path: &[u8]) -> Vec<u8> {
    let mut name = Vec::new();
    let mut at = 0;
    while at < path.len() {
        let digits = path
            .get(at + 1..at + 3)
            .and_then(|digits| std::str::from_utf8(digits).ok());
        let byte = digits.and_then(|digits| u8::from_str_radix(digits, 16).ok());
        match (path[at], byte) {
            (b'%', Some(byte)) if path[at + 1] != b'+' => {
                name.push(byte);
                at += 3;
            }
            (b'%', _) if path[at..].starts_with(b"%+/") => at += 3,
            (byte, _) => {
                name.push(byte);
                at += 1;
            }
        }
    }
    name
}

#[test]
fn nothing_is_written_over_unasked() {
    let folder = Folder::new("get-all-over");
    let card = sample(
        &folder,
        &[(b"gain", b"new"), (b"beam", b"new"), (b"..", b"dots")],
    );
    let into = folder.file("into");
    let into_word = into.to_str().unwrap();
    fs::create_dir(&into).unwrap();
    fs::write(into.join("beam"), b"mine").unwrap();
    let err = bad("get", &card, &["--all", into_word], 1);
    assert!(
        err.contains(&format!("a file would be written over: {into_word}/beam."))
            && err.contains("--replace"),
        "{err}"
    );
    assert_eq!(files_in(&into), [Path::new("beam")]);
    assert_eq!(fs::read(into.join("beam")).unwrap(), b"mine");
    // As the advice says: another folder, or --replace, which names what it replaces.
    let other = folder.file("other");
    good("get", &card, &["--all", other.to_str().unwrap()]);
    let said = good("get", &card, &["--all", into_word, "--replace"]);
    assert!(
        said.starts_with(&format!("replaced: {into_word}/beam\n")),
        "{said}"
    );
    assert_eq!(fs::read(into.join("beam")).unwrap(), b"new");
    assert_eq!(files_in(&into).len(), 3);
    let err = bad("get", &card, &["--all", into_word], 1);
    assert!(err.contains("3 files would be written over"), "{err}");
    // A link that leads nowhere yet is something that is there.
    let linked = folder.file("linked");
    fs::create_dir(&linked).unwrap();
    std::os::unix::fs::symlink("../elsewhere", linked.join("gain")).unwrap();
    bad("get", &card, &["--all", linked.to_str().unwrap()], 1);
    assert!(!folder.file("elsewhere").exists());
    // Two names of one file.
    let one = folder.file("one");
    fs::create_dir(&one).unwrap();
    fs::write(one.join("gain"), b"mine").unwrap();
    fs::hard_link(one.join("gain"), one.join("beam")).unwrap();
    let err = bad(
        "get",
        &card,
        &["--all", one.to_str().unwrap(), "--replace"],
        1,
    );
    assert!(err.contains("are one file there"), "{err}");
    assert_eq!(fs::read(one.join("gain")).unwrap(), b"mine");
}

#[test]
fn folders_that_can_not_be() {
    let folder = Folder::new("get-all-refused");
    let card = sample(
        &folder,
        &[(b"gain", b"1.25"), (b"beam", &[7; 90_000]), (b"last", b"x")],
    );
    let file = folder.write("file", b"mine");
    let file = file.to_str().unwrap();
    let into = folder.file("into");
    let into_word = into.to_str().unwrap();
    for (rest, status, what) in [
        (&["--all", file][..], 1, "name a folder"),
        (&["--all", &format!("{file}/sub")], 1, "Next: "),
        (
            &["--all", &format!("{into_word}/sub")],
            1,
            "its folder is right",
        ),
        (&["gain", "--all", into_word], 2, "leave the NAMEs out"),
        (
            &["--all", into_word, "--as", into_word],
            2,
            "leave --as out",
        ),
        (&["gain", "--replace"], 2, "--replace is for --all"),
        (&["gain", "-p"], 2, "-p keeps time and mode"),
        (&["gain", "-p", "--as", "-"], 2, "-p keeps time and mode"),
        (&["gain", "-p", "--as", "/dev/null"], 1, "leave -p out"),
    ] {
        let err = bad("get", &card, rest, status);
        assert!(err.contains(what), "{rest:?}: {err}");
    }
    assert!(!into.exists());
    // A folder, or the card itself, where a file would go.
    fs::create_dir_all(into.join("gain")).unwrap();
    bad("get", &card, &["--all", into_word, "--replace"], 1);
    fs::remove_dir(into.join("gain")).unwrap();
    std::os::unix::fs::symlink(&card, into.join("gain")).unwrap();
    let err = bad("get", &card, &["--all", into_word, "--replace"], 1);
    assert!(err.contains("is the card itself"), "{err}");
    fs::remove_file(into.join("gain")).unwrap();
    // In the middle: what is copied is told, and the advice ends well.
    let said = with_limit("-f 20", "get", &card, &["--all", into_word]);
    assert_eq!(said.status, 1);
    assert!(
        said.err.contains(
            "Copied: 1 of 3 files, in the order of goofs ls up to gain; not copied: beam"
        ) && said.err.contains("\nNext: "),
        "{}",
        said.err
    );
    assert_eq!(files_in(&into), [Path::new("gain")]);
    let said = good("get", &card, &["--all", into_word, "--replace"]);
    assert!(said.contains("copied: 3 files"), "{said}");
    // Names that no folder holds are told with what to do.
    let long = [b'n'; 300];
    name_by_hand(&card, 0, &long);
    let long = OsStr::from_bytes(&long).to_str().unwrap();
    let err = bad("get", &card, &[long, "--as", into_word], 1);
    assert!(err.contains("--as FILE"), "{err}");
    let copy = folder.file("copy");
    good("get", &card, &[long, "--as", copy.to_str().unwrap()]);
    assert_eq!(fs::read(copy).unwrap(), b"1.25");
}

/// The copy has the file's times and mode; of several files each its own.
#[test]
fn times_and_modes_are_kept() {
    let folder = Folder::new("get-p");
    let card = folder.file("card");
    good("format", &card, &["--size=1M", "--edition=2"]);
    let source = folder.write("source", b"1.25");
    let source = source.to_str().unwrap();
    let last = 4_294_967_296;
    for (name, mode, time) in [
        ("a", "640", 1_000),
        ("b", "104755", 1_600_000_000),
        ("c", "0", last),
    ] {
        let (name, time) = (format!("--as={name}"), format!("--time={time}"));
        good("put", &card, &[source, &name, "--mode", mode, &time]);
    }
    good("get", &card, &["a", "--touch", "--time=2000"]);
    let copy = folder.file("copy");
    let copy_word = copy.to_str().unwrap();
    let found = || {
        let found = fs::metadata(&copy).unwrap();
        (found.mode() & 0o7777, found.mtime(), found.atime())
    };
    // Beside an old file, too, which has another mode.
    fs::write(&copy, b"old").unwrap();
    fs::set_permissions(&copy, Permissions::from_mode(0o600)).unwrap();
    good("get", &card, &["a", "-p", "--as", copy_word]);
    assert_eq!(found(), (0o640, 1_000, 2_000));
    assert_eq!(fs::read(&copy).unwrap(), b"1.25");
    good("get", &card, &["b", "--preserve", "--as", copy_word]);
    assert_eq!(found(), (0o755, 1_600_000_000, 1_600_000_000));
    good("get", &card, &["c", "-p", "--as", copy_word]);
    assert_eq!(found(), (0, last, last));
    let into = folder.file("into");
    good("get", &card, &["-p", "--all", into.to_str().unwrap()]);
    let time = |name| fs::metadata(into.join(name)).unwrap().mtime();
    assert_eq!(
        [time("a"), time("b"), time("c")],
        [1_000, 1_600_000_000, last]
    );
    // Without it the copy is of now, and has the mode that new files have.
    fs::remove_file(&copy).unwrap();
    good("get", &card, &["a", "--as", copy_word]);
    assert!(found().1 > 1_700_000_000);
}

/// With `--touch` the access times are set before the first copy, unless the copies are refused.
#[test]
fn access_times_of_copies() {
    let folder = Folder::new("get-touch");
    let card = sample(&folder, &[(b"gain", b"1.25"), (b"beam", b"wide")]);
    let into = folder.file("into");
    let into_word = into.to_str().unwrap();
    let touch = ["--touch", "--time=3000"];
    good("get", &card, &[&["--all", into_word][..], &touch].concat());
    let accessed = || good("ls", &card, &["--accessed", "--numeric"]);
    assert_eq!(accessed().matches("accessed 3000 ").count(), 2);
    // Refused: the times stay.
    let later = ["--touch", "--time=4000"];
    bad(
        "get",
        &card,
        &[&["--all", into_word][..], &later].concat(),
        1,
    );
    // A copy that fails after that does not say that nothing was changed.
    let said = on(
        "get",
        &card,
        &[&["gain", "--as", "nowhere/f"][..], &later].concat(),
    );
    assert_eq!(said.status, 1);
    assert!(
        said.err
            .contains("On the card the access times were set, and nothing else"),
        "{}",
        said.err
    );
    assert_eq!(accessed().matches("accessed 4000 ").count(), 1);
    let said = on("get", &card, &["gain", "--as", "nowhere/f"]);
    assert!(
        said.err.contains("Nothing was changed on the card."),
        "{}",
        said.err
    );
}

/// A time that the system or its disk does not store: said, and nothing is left.
#[test]
fn a_time_that_is_not_kept() {
    let folder = Folder::new("get-p-late");
    let card = folder.file("card");
    good("format", &card, &["--size=1M", "--edition=2"]);
    let latest = u64::MAX.to_string();
    good("put", &card, &["/dev/null", "--as=f", "--time", &latest]);
    let copy = folder.write("copy", b"old");
    let copy_word = copy.to_str().unwrap();
    let said = on("get", &card, &["f", "-p", "--as", copy_word]);
    assert_eq!(said.status, 1, "{}", said.err);
    assert!(
        said.err.contains("does not store the time +584554051223")
            && said.err.contains("leave -p out"),
        "{}",
        said.err
    );
    assert_eq!(fs::read(&copy).unwrap(), b"old");
    good("get", &card, &["f", "--as", copy_word]);
    assert_eq!(fs::read(&copy).unwrap(), b"");
}
