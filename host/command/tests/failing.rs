//! Errors as a person meets them: each says what happened and what to do next, ends with its status,
//! and leaves the card as it was; outputs that can't be written.

mod shared;

use std::fs::{self, File, OpenOptions};
use std::io::{self, Write};
use std::path::Path;
use std::process::{Command, Stdio};

use shared::{bad, formatted, good, goofs, on, run, shim, start, with_limit, Folder, Said};

/// Runs the command with its standard output there.
fn into(output: Stdio, command: &str, card: &Path, rest: &[&str]) -> Said {
    let child = start(
        Command::new(env!("CARGO_BIN_EXE_goofs"))
            .arg(command)
            .arg(card)
            .args(rest)
            .stdin(Stdio::null())
            .stdout(output)
            .stderr(Stdio::piped()),
    );
    Said::of(child.wait_with_output().unwrap())
}

fn full() -> Stdio {
    OpenOptions::new()
        .write(true)
        .open("/dev/full")
        .expect("the system has a device that is always full")
        .into()
}

/// A card with the file f of 100,000 bytes.
fn with_file(folder: &Folder) -> std::path::PathBuf {
    let card = formatted(folder);
    let source = folder.write("f", &[b'x'; 100_000]);
    good("put", &card, &[source.to_str().unwrap()]);
    card
}

#[test]
fn output_that_can_not_be_written() {
    let folder = Folder::new("full");
    let card = with_file(&folder);
    let held = fs::read(&card).unwrap();
    let reading: [(&str, &[&str]); 5] = [
        ("get", &["f"]),
        ("ls", &[]),
        ("info", &[]),
        ("check", &[]),
        ("trial", &["rm", "f"]),
    ];
    for (command, rest) in reading {
        let said = into(full(), command, &card, rest);
        assert_eq!(said.status, 1, "{command}");
        assert!(
            said.err
                .contains("the standard output could not be written")
                && said.err.contains("Next: "),
            "{command}: {}",
            said.err
        );
        // A pipe that no one reads.
        let (reader, writer) = io::pipe().unwrap();
        drop(reader);
        let said = into(writer.into(), command, &card, rest);
        assert_eq!(said.status, 1, "{command}");
        assert!(
            said.err.contains("the standard output was closed"),
            "{command}: {}",
            said.err
        );
    }
    assert_eq!(into(full(), "ls", Path::new("--help"), &[]).status, 1);
    // After a change, the error says that the change is done.
    let said = into(full(), "recover", &card, &[]);
    assert!(
        said.status == 1 && said.err.contains("done, but"),
        "{said:?}"
    );
    assert!(fs::read(&card).unwrap() == held);
    let said = into(full(), "format", &card, &["--yes"]);
    assert!(
        said.status == 1 && said.err.contains("done, but"),
        "{said:?}"
    );
    assert_eq!(good("check", &card, &[]), "sound, 0 files\n");
}

/// A full standard error takes away the words, but not the status.
#[test]
fn errors_that_can_not_be_written() {
    let folder = Folder::new("full-error");
    for (words, status) in [(&["ls", "nothing"][..], 1), (&["nonsense"], 2)] {
        let mut command = Command::new(env!("CARGO_BIN_EXE_goofs"));
        command.args(words).current_dir(folder.file("."));
        let ended = start(command.stderr(full())).wait().unwrap();
        assert_eq!(ended.code(), Some(status));
    }
}

#[test]
fn files_that_can_not_be_written_by_get() {
    let folder = Folder::new("unwritten");
    let card = with_file(&folder);
    // No more than a few blocks of a file can be written. A new one is removed again.
    let new = folder.file("new");
    let said = with_limit("-f 10", "get", &card, &["f", "--as", new.to_str().unwrap()]);
    assert_eq!(said.status, 1);
    assert!(
        said.err.contains("Nothing was changed on the card"),
        "{}",
        said.err
    );
    assert!(!new.exists());
    let old = folder.write("old", b"old");
    let said = with_limit("-f 10", "get", &card, &["f", "--as", old.to_str().unwrap()]);
    assert_eq!(said.status, 1);
    assert_eq!(fs::read(&old).unwrap(), b"old");
    let mut names: Vec<_> = fs::read_dir(folder.file("."))
        .unwrap()
        .map(|entry| entry.unwrap().file_name())
        .collect();
    names.sort();
    assert_eq!(names, ["card", "f", "old"], "nothing else is left");
    // An image that is left is removed again, too.
    let left = folder.file("left");
    let words = ["rm", "f", "--leave", left.to_str().unwrap()];
    let said = with_limit("-f 10", "trial", &card, &words);
    assert_eq!(said.status, 1);
    assert!(!left.exists());
    let err = bad("get", &card, &["f", "--as=/no/such/folder/f"], 1);
    assert!(
        err.contains("/no/such/folder/f") && err.contains("Next: "),
        "{err}"
    );
    let err = bad("get", &card, &["f", "--as=/dev/full"], 1);
    assert!(err.contains("No space left"), "{err}");
    // A link to a file that isn't there yet.
    let (link, behind) = (folder.file("link"), folder.file("behind"));
    std::os::unix::fs::symlink(&behind, &link).unwrap();
    good("get", &card, &["f", "--as", link.to_str().unwrap()]);
    assert_eq!(fs::read(&behind).unwrap(), [b'x'; 100_000]);
    // What is no file has nothing to be synced.
    good("get", &card, &["f", "--as=/dev/null"]);
    good("get", &card, &["f", "--as", old.to_str().unwrap()]);
    assert_eq!(fs::read(&old).unwrap(), [b'x'; 100_000]);
}

/// A program may be started with a stack that is smaller than a call takes, 322 KiB.
#[test]
fn a_small_stack() {
    let folder = Folder::new("stack");
    let card = folder.file("card");
    let source = folder.write("f", &[b'x'; 100_000]);
    let source = source.to_str().unwrap();
    let commands: [(&str, &[&str]); 10] = [
        ("format", &["--sectors", "1313"]),
        ("put", &[source]),
        ("info", &[]),
        ("check", &[]),
        ("ls", &[]),
        ("get", &["f"]),
        ("trial", &["create", "g"]),
        ("resize", &["f", "10"]),
        ("recover", &[]),
        ("rm", &["f"]),
    ];
    for (command, rest) in commands {
        let said = with_limit("-s 256", command, &card, rest);
        assert_eq!(said.status, 0, "{command}: {}", said.err);
    }
}

/// A write past the length that files may have is told, and ends no program by its signal.
#[test]
fn files_that_may_not_be_so_long() {
    let folder = Folder::new("length");
    let card = with_file(&folder);
    let run_limited = |words: &[&str]| {
        let script = "ulimit -f 300; exec \"$@\"";
        run(Command::new("sh")
            .args(["-c", script, "sh", env!("CARGO_BIN_EXE_goofs"), words[0]])
            .arg(&card)
            .args(&words[1..]))
    };
    let said = run_limited(&["rm", "f"]);
    assert_eq!(said.status, 1);
    assert!(
        said.err.contains("the medium failed (File too large")
            && said.err.contains("goofs recover"),
        "{}",
        said.err
    );
    assert!(good("recover", &card, &[]).starts_with("nothing to do"));
    good("rm", &card, &["f"]);
}

/// For each kind of error the number, where it is a refusal, and a word of the advice.
#[test]
fn errors_say_what_to_do_next() {
    let folder = Folder::new("next");
    let card = with_file(&folder);
    let source = folder.write("small", b"s");
    let source = source.to_str().unwrap();
    let image = fs::read(&card).unwrap();
    let changed = |name: &str, at: usize, bytes: &[u8]| {
        let mut image = image.clone();
        image[at..at + bytes.len()].copy_from_slice(bytes);
        folder.write(name, &image)
    };
    let other = changed("other", 8, b"another!");
    let unsound = changed("not sound", 5 * 512, &[1]);
    let waiting = changed("waiting", 18, &[0, 2]);
    let damaged = changed("damaged", 18, &[8, 0]);
    // Its journal's first entry names sector 0 as the source.
    let bad_journal = changed("bad-journal", 257 * 512, &[0; 8]);
    let mut bytes = fs::read(&bad_journal).unwrap();
    bytes[19] = 2;
    fs::write(&bad_journal, bytes).unwrap();
    let unfinished = changed("unfinished", 18, &[255, 255]);
    let short = folder.write("short", &image[..512 * 700]);
    let odd = folder.write("odd", &image[..700]);
    let missing = folder.file("missing");
    let long = "n".repeat(477);
    let big = folder.write("big", &[1; 200_000]);
    let big = big.to_str().unwrap();
    let pipe = folder.file("pipe");
    assert!(run(Command::new("mkfifo").arg(&pipe)).status == 0);
    let folder_itself = folder.file(".");

    let cases: [(&str, &Path, &[&str], &str, &str); 25] = [
        ("ls", &odd, &[], "refused (1)", "the right file"),
        ("ls", &other, &[], "refused (2)", "goofs format"),
        ("ls", &short, &[], "refused (3)", "copy the whole card"),
        ("put", &unfinished, &[source], "refused (4)", "--yes"),
        ("put", &waiting, &[source], "refused (5)", "goofs recover"),
        ("recover", &damaged, &[], "refused (6)", "goofs format"),
        ("recover", &bad_journal, &[], "refused (6)", "goofs format"),
        ("rm", &unsound, &["f"], "fault 21", "goofs format '"),
        (
            "put",
            &card,
            &[source, "--as", &long],
            "477 bytes",
            "1 to 476",
        ),
        (
            "put",
            &card,
            &[source, "--as="],
            "name is empty",
            "1 to 476",
        ),
        ("put", &card, &[source, "--id=0"], "refused (8)", "--id"),
        ("get", &card, &["g"], "refused (9)", "goofs ls"),
        (
            "put",
            &card,
            &[source, "--id=1"],
            "refused (10)",
            "goofs ls",
        ),
        (
            "trial",
            &card,
            &["write", "f", "100001", source],
            "refused (12)",
            "goofs ls",
        ),
        ("put", &card, &[big], "refused (13)", "goofs info"),
        (
            "ls",
            &missing,
            &[],
            "no such file or device",
            "goofs format",
        ),
        (
            "put",
            &missing,
            &[source],
            "no such file or device",
            "goofs format",
        ),
        (
            "ls",
            Path::new("/dev/no-card"),
            &[],
            "no such file",
            "lsblk",
        ),
        (
            "format",
            Path::new("/dev/no-card"),
            &["--sectors=2000"],
            "no such file",
            "lsblk",
        ),
        (
            "ls",
            &pipe,
            &[],
            "neither an image file",
            "the name is right",
        ),
        (
            "rm",
            &folder_itself,
            &["f"],
            "neither an image file",
            "the name is right",
        ),
        ("put", &card, &["/no/file"], "/no/file", "name of this file"),
        ("format", &card, &[], "already holds a volume", "--yes"),
        (
            "format",
            &card,
            &["--yes", "--sectors=1056"],
            "refused (8)",
            "1057 sectors",
        ),
        (
            "format",
            &card,
            &["--yes", "--files=254"],
            "refused (8)",
            "255 to 65535",
        ),
    ];
    for (command, card, rest, what, next) in cases {
        let err = match card.is_file() {
            true => bad(command, card, rest, 1),
            false => {
                let said = on(command, card, rest);
                assert_eq!(said.status, 1, "{command} {rest:?}");
                said.err
            }
        };
        let (happened, advice) = err.split_once("Next: ").expect("there is an advice");
        assert!(happened.contains(what), "{command} {rest:?}: {err}");
        assert!(
            happened.contains("Nothing was changed"),
            "{command} {rest:?}: {err}"
        );
        assert!(advice.contains(next), "{command} {rest:?}: {err}");
    }
    assert!(!missing.exists() && !Path::new("/dev/no-card").exists());
}

/// The directory is full: one more file is refused with 11.
#[test]
fn a_full_directory() {
    let folder = Folder::new("directory");
    let card = formatted(&folder);
    let mut image = goofs::image::Image::new(fs::read(&card).unwrap()).unwrap();
    for i in 0..255 {
        let name = format!("f{i}").into_bytes();
        let create = goofs::change::Change::Create {
            name: &name,
            id: 10 + i,
            mode: 0,
            time: 1,
        };
        let list = image.list_of(&create).unwrap();
        image.carry_out(&list).unwrap();
    }
    let mut bytes = fs::read(&card).unwrap();
    bytes[..image.bytes().len()].copy_from_slice(image.bytes());
    fs::write(&card, bytes).unwrap();
    let source = folder.write("small", b"s");
    let source = source.to_str().unwrap();
    let err = bad("put", &card, &[source], 1);
    assert!(
        err.contains("refused (11)") && err.contains("goofs rm") && !err.contains("--in-place"),
        "{err}"
    );
    // Over an old one, too, as it is saved beside; in place there is an entry.
    let over = [source, "--as=f7"];
    for words in [&["put"][..], &["trial", "put"]] {
        let err = bad(words[0], &card, &[&words[1..], &over].concat(), 1);
        assert!(
            err.contains("refused (11)") && err.contains("no room for both"),
            "{err}"
        );
    }
    good("put", &card, &[&over[..], &["--in-place"]].concat());
    assert_eq!(good("get", &card, &["f7"]), "s");
    good("rm", &card, &["f8"]);
    good("put", &card, &over);
    assert_eq!(good("check", &card, &[]), "sound, 254 files\n");
}

#[test]
fn a_format_that_would_lose_something() {
    let folder = Folder::new("lose");
    // Many file systems leave the first sectors free.
    let mut bytes = vec![0; 1_313 * 512];
    bytes[3 * 512] = 1;
    let other = folder.write("other", &bytes);
    assert!(bad("format", &other, &[], 1).contains("other data"));
    good("format", &other, &["--yes"]);
    // Bytes far behind the metadata are lost as well, and so are those of a part of a sector.
    for at in [400 * 512, 1_313 * 512 - 1] {
        let mut bytes = vec![0; 1_313 * 512];
        bytes[at] = 1;
        let behind = folder.write("behind", &bytes);
        let err = bad("format", &behind, &[], 1);
        assert!(
            err.contains(&format!("other data, from byte {at}")),
            "{err}"
        );
        good("format", &behind, &["--yes"]);
    }
    let mut bytes = vec![0; 700];
    bytes[699] = 1;
    let part = folder.write("part", &bytes);
    assert!(bad("format", &part, &["--sectors=1313"], 1).contains("other data"));
    // What lies behind the volume is not lost.
    let mut bytes = vec![0; 2_000 * 512];
    bytes[1_313 * 512] = 1;
    let past = folder.write("past", &bytes);
    good("format", &past, &["--sectors=1313"]);
    assert_eq!(fs::read(&past).unwrap()[1_313 * 512], 1);
    // Not whole sectors: what was formatted could not be read.
    let odd = folder.write("odd", &[0; 1_313 * 512 + 100]);
    assert!(bad("format", &odd, &[], 1).contains("refused (1)"));
    assert!(bad("format", &odd, &["--sectors", "1313"], 1).contains("refused (1)"));
    good("format", &odd, &["--sectors", "1314"]);
    assert_eq!(good("check", &odd, &[]), "sound, 0 files\n");
}

#[test]
fn options_are_those_of_the_command() {
    let folder = Folder::new("options");
    let card = formatted(&folder);
    let words: [(&str, &[&str], &str); 17] = [
        ("ls", &["--long"], "there is no option --long here"),
        ("ls", &["--yes"], "there is no option --yes here"),
        ("rm", &["f", "--id", "3"], "there is no option --id here"),
        ("rm", &["f", "--time"], "--time needs a value"),
        (
            "rm",
            &["f", "--time=1", "--time=2"],
            "--time is given twice",
        ),
        ("format", &["--yes=no"], "--yes takes no value"),
        // One dash, as other programs take it: not a name, and not passed over.
        (
            "format",
            &["-y"],
            "no option -y here; if it is a name, give it behind --",
        ),
        (
            "rm",
            &["-f"],
            "no option -f here; if it is a name, give it behind --",
        ),
        ("put", &["f", "--as", "--time", "5"], "--as needs a value"),
        ("ls", &["--wait=x"], "--wait: x is not a whole number"),
        // What is missing, by its name.
        ("rm", &[], "NAME is missing"),
        ("get", &[], "NAME is missing"),
        ("put", &[], "FILE is missing"),
        ("resize", &["f"], "SIZE is missing"),
        ("trial", &[], "CHANGE is missing"),
        ("trial", &["rm"], "NAME is missing"),
        ("trial", &["write", "f"], "OFFSET is missing"),
    ];
    for (command, rest, what) in words {
        let err = bad(command, &card, rest, 2);
        assert!(err.contains(what), "{err}");
        // The usage stands below.
        assert!(err.contains(&format!("\ngoofs {command} CARD")), "{err}");
    }
    assert_eq!(goofs(&["ls", "--help", "--long"]).status, 2);
    let said = goofs(&["ls"]);
    assert!(said.err.contains("CARD is missing"), "{}", said.err);
    // Behind `--` such a word is a name.
    let err = bad("rm", &card, &["--", "-f"], 1);
    assert!(err.contains("the name was -f"), "{err}");
}

/// The command is fed more than a pipe holds.
#[test]
fn a_put_from_the_standard_input() {
    let folder = Folder::new("stdin");
    let card = formatted(&folder);
    let mut child = start(
        Command::new(env!("CARGO_BIN_EXE_goofs"))
            .arg("put")
            .arg(&card)
            .args(["-", "--as=f"])
            .stdin(Stdio::piped()),
    );
    child
        .stdin
        .take()
        .unwrap()
        .write_all(&[7; 150_000])
        .unwrap();
    assert!(child.wait().unwrap().success());
    let copy = folder.file("copy");
    good("get", &card, &["f", "--as", copy.to_str().unwrap()]);
    assert_eq!(fs::read(copy).unwrap(), [7; 150_000]);
    assert!(File::open(&card).unwrap().try_lock().is_ok());
    let err = bad("put", &card, &["-"], 2);
    assert!(err.contains("--as NAME"), "{err}");
}

/// Sectors that the card does not give. Who needs one is told so, and ends with an error and not by a signal;
/// then nothing is written. Who needs none of them does not notice.
#[test]
fn sectors_that_can_not_be_read() {
    let folder = Folder::new("unreadable");
    let whole = with_file(&folder);
    let shim = shim(&folder);
    let (card, medium) = (folder.file("faulty-card"), folder.file("medium"));
    let copy = folder.file("copy");
    let into = folder.file("into");
    let [copy_word, into_word] = [&copy, &into].map(|path| path.to_str().unwrap());
    let source = folder.write("source", &[b'y'; 1_000]);
    let source = source.to_str().unwrap();
    let held = fs::read(&whole).unwrap();
    // f lies in sectors 290 to 417 and 418 to 485; the copies of a change are near the end.
    let (first, second) = (290, 418);
    let metadata = [0, 1, 2, 256, 288, 289];
    let mut unreadable = 0;
    for sector in [first, first + 3, second, 600].iter().chain(&metadata) {
        let is_metadata = metadata.contains(sector);
        let is_of = |sectors: &[u64]| is_metadata || sectors.contains(sector);
        for (command, words, needs_it) in [
            (
                "get",
                &["f", "--as", copy_word][..],
                is_of(&[first, first + 3, second]),
            ),
            (
                "get",
                &["--all", into_word],
                is_of(&[first, first + 3, second]),
            ),
            ("write", &["f", "1", source], is_of(&[first])),
            ("write", &["f", "1536", source], is_of(&[])),
            ("write", &["f", "512", source], is_of(&[])),
            ("write", &["f", "65530", source], is_of(&[])),
            ("put", &[source, "--as=f", "--in-place"], is_of(&[])),
            ("put", &[source, "--as=g"], is_of(&[])),
            ("resize", &["f", "7"], is_of(&[])),
            ("rm", &["f"], is_of(&[])),
            ("mv", &["f", "h"], is_of(&[])),
            ("check", &[], is_of(&[])),
            ("ls", &[], is_of(&[])),
            ("info", &[], is_of(&[])),
            ("map", &[], is_of(&[])),
            ("recover", &[], is_of(&[])),
            ("recover", &["--budget=3"], is_of(&[])),
            ("repair", &["--yes"], is_of(&[])),
            ("trial", &["rm", "f"], is_of(&[])),
        ] {
            for path in [&card, &medium] {
                fs::write(path, &held).unwrap();
            }
            let _ = fs::remove_dir_all(&into);
            let said = run(Command::new(env!("CARGO_BIN_EXE_goofs"))
                .arg(command)
                .arg(&card)
                .args(words)
                .env("CARD", &card)
                .env("MEDIUM", &medium)
                .env("UNREADABLE", sector.to_string())
                .env("LD_PRELOAD", &shim));
            let what = format!("{command} {words:?}, sector {sector}: {}", said.err);
            assert_eq!(said.status, i32::from(needs_it), "{what}");
            if needs_it {
                unreadable += 1;
                assert!(said.err.contains("the medium could not be read"), "{what}");
                assert!(said.err.contains("Nothing was changed"), "{what}");
                assert!(said.err.contains("Next: "), "{what}");
                assert!(fs::read(&card).unwrap() == held, "{what}");
            }
        }
    }
    assert!(unreadable > 100, "{unreadable}");
}

/// A change was cut, and a copy of it can't be read: it is not finished, and salvage copies what there is.
#[test]
fn a_copy_that_can_not_be_read() {
    let folder = Folder::new("unreadable-copy");
    let card = with_file(&folder);
    let shim = shim(&folder);
    let mut image = goofs::image::Image::new(fs::read(&card).unwrap()).unwrap();
    let list = image.list_of(&goofs::change::Change::Rename {
        old: b"f",
        new: b"g",
        time: 9,
    });
    let list = list.unwrap();
    let groups = list.groups();
    for write in groups.iter().take(2).flatten() {
        image.land(*write).unwrap();
    }
    let copy = groups[0][1].sector;
    fs::write(&card, image.bytes()).unwrap();
    let held = fs::read(&card).unwrap();
    let medium = folder.write("medium", &held);
    let into = folder.file("into");
    let faulty = |command: &str, words: &[&str]| {
        run(Command::new(env!("CARGO_BIN_EXE_goofs"))
            .arg(command)
            .arg(&card)
            .args(words)
            .env("CARD", &card)
            .env("MEDIUM", &medium)
            .env("UNREADABLE", copy.to_string())
            .env("LD_PRELOAD", &shim))
    };
    for words in [&[][..], &["--budget=1"], &["--budget=9"]] {
        let said = faulty("recover", words);
        assert_eq!(said.status, 1, "{}", said.err);
        assert!(
            said.err.contains("the medium could not be read"),
            "{}",
            said.err
        );
        assert!(said.err.contains("Nothing was changed"), "{}", said.err);
        assert!(fs::read(&card).unwrap() == held);
    }
    let said = faulty("salvage", &[into.to_str().unwrap()]);
    assert_eq!(said.status, 0, "{}", said.err);
    assert!(said
        .text()
        .starts_with("a change was cut, and its copies can't be read"));
    assert!(fs::read(into.join("f")).unwrap() == [b'x'; 100_000]);
    // A card that gives the copy again.
    assert!(good("recover", &card, &[]).starts_with("recovered"));
    good("get", &card, &["g"]);
}
