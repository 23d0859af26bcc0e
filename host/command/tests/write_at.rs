//! The command write: bytes at an offset, what it refuses, and what a write that breaks off has done.

mod shared;

use std::fs;
use std::path::{Path, PathBuf};
use std::process::Command;

use shared::{bad, faulty, formatted, good, run, with_limit, Folder};

fn pattern(length: usize, first: usize) -> Vec<u8> {
    (first..first + length).map(|i| (i % 251) as u8).collect()
}

/// The sample volume with the file f of 1,000 bytes.
fn sample(folder: &Folder) -> PathBuf {
    let card = formatted(folder);
    let file = folder.write("f", &pattern(1_000, 0));
    good("put", &card, &[file.to_str().unwrap(), "--time=1001"]);
    card
}

fn get(folder: &Folder, card: &Path) -> Vec<u8> {
    let copy = folder.file("copy");
    good("get", card, &["f", "--as", copy.to_str().unwrap()]);
    fs::read(copy).unwrap()
}

#[test]
fn bytes_at_an_offset() {
    let folder = Folder::new("write-at");
    let card = sample(&folder);
    let mut expected = pattern(1_000, 0);
    for (offset, length) in [
        ("0", 1),
        ("500", 100),
        ("990", 30),
        ("1020", 5),
        ("1K", 1),
        // More than one change, over an extent's edge.
        ("100", 100_000),
        ("64K", 65_536),
    ] {
        let data = pattern(length, 77);
        let file = folder.write("data", &data);
        let words = ["f", offset, file.to_str().unwrap(), "--time=1002"];
        assert_eq!(good("write", &card, &words), "");
        let at = match offset {
            "1K" => 1_024,
            "64K" => 65_536,
            _ => offset.parse().unwrap(),
        };
        expected.resize(expected.len().max(at + length), 0);
        expected[at..at + length].copy_from_slice(&data);
        assert!(get(&folder, &card) == expected, "{offset}");
        assert_eq!(good("check", &card, &[]), "sound, 1 files\n");
    }
    assert!(good("ls", &card, &["--numeric"]).contains("changed 1002  f"));
    // From a pipe.
    let script = "printf abc | \"$1\" write \"$2\" f 2 -";
    let said = run(Command::new("sh")
        .args(["-c", script, "sh", env!("CARGO_BIN_EXE_goofs")])
        .arg(&card));
    assert_eq!(said.status, 0, "{}", said.err);
    expected[2..5].copy_from_slice(b"abc");
    assert!(get(&folder, &card) == expected);
    let before = fs::read(&card).unwrap();
    assert_eq!(
        good("write", &card, &["f", "3", "/dev/null"]),
        "nothing to do: /dev/null has no bytes\n"
    );
    assert!(fs::read(&card).unwrap() == before);
}

#[test]
fn what_is_refused() {
    let folder = Folder::new("write-refused");
    let card = sample(&folder);
    let file = folder.write("data", b"data");
    let data = file.to_str().unwrap();
    let err = bad("write", &card, &["f", "1001", data], 1);
    assert!(
        err.contains("refused (12)") && err.contains("f has 1000 bytes"),
        "{err}"
    );
    // As the advice says.
    assert!(
        err.contains(&format!("goofs resize {} -- f 1001", card.display())),
        "{err}"
    );
    good("resize", &card, &["--", "f", "1001"]);
    good("write", &card, &["f", "1001", data]);
    let expected = [pattern(1_000, 0), b"\0data".to_vec()].concat();
    assert!(get(&folder, &card) == expected);

    assert!(bad("write", &card, &["g", "0", data], 1).contains("refused (9)"));
    assert!(bad("write", &card, &["f", "0", "nothing-there"], 1).contains("nothing-there: "));
    assert!(bad("write", &card, &["f", "0"], 2).contains("FILE is missing"));
    bad("write", &card, &["f", "x", data], 2);
    // The whole file must fit before a byte is written.
    let long = folder.write("long", &pattern(200_000, 3));
    let err = bad("write", &card, &["f", "500", long.to_str().unwrap()], 1);
    assert!(err.contains("refused (13)"), "{err}");
    bad("write", &card, &["f", "0", "/dev/zero"], 1);
}

/// Wherever the card fails, the bytes that are said to be written are, and giving the command again
/// after the recovery ends well.
#[test]
fn a_write_that_breaks_off() {
    let folder = Folder::new("write-breaks-off");
    let base = sample(&folder);
    let data = pattern(150_000, 33);
    let file = folder.write("data", &data);
    let words = ["f", "500", file.to_str().unwrap(), "--time=1002"];
    let mut expected = pattern(500, 0);
    expected.extend(&data);
    let mut broken = 0;
    for at in 2.. {
        let said = faulty(&folder, &base, "lost", at, "write", &words);
        let card = folder.file("faulty-card");
        if said.status == 0 {
            break;
        }
        broken += 1;
        let line = said.err.lines().find(|line| line.starts_with("Written: "));
        let line = line.expect("it says what is written");
        let count: usize = line.split_whitespace().nth(3).unwrap().parse().unwrap();
        good("recover", &card, &[]);
        assert!(get(&folder, &card)[500..].starts_with(&data[..count]));
        good("write", &card, &words);
        assert!(get(&folder, &card) == expected);
    }
    assert!(broken > 20, "{broken}");
}

/// The log's disk is full before the second call: what is said of the bytes is true.
#[test]
fn a_write_that_cannot_be_logged() {
    let folder = Folder::new("write-unlogged");
    let base = sample(&folder);
    let card = folder.file("unlogged");
    let data = pattern(131_072, 77);
    let file = folder.write("data", &data);
    let mut halves = 0;
    // A block of the limit has 512 or 1,024 bytes, as the shell likes. The card is shorter than the limit.
    for block in [512, 1_024] {
        fs::copy(&base, &card).unwrap();
        let mut before = b"goofs ".to_vec();
        before.resize(2_000 * block - 200_001, b'x');
        before.push(b'\n');
        let log = folder.write("log", &before);
        let words = [
            "f",
            "0",
            file.to_str().unwrap(),
            "--log",
            log.to_str().unwrap(),
        ];
        let said = with_limit("-f 2000", "write", &card, &words);
        if said
            .err
            .contains("Written: the first 65536 of 131072 bytes; no more.")
        {
            assert_eq!(said.status, 1);
            assert!(get(&folder, &card) == data[..65_536]);
            halves += 1;
        }
    }
    assert_eq!(halves, 1);
}
