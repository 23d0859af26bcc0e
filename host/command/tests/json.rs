//! What `--json` prints: read by python's json, with the fields that docs/JSON.md has, and the values
//! that the text has.

mod shared;

use std::fs;
use std::io::Write;
use std::path::{Path, PathBuf};
use std::process::{Command, Stdio};

use shared::{formatted, good, name_by_hand, on, start, Folder};

/// What python prints of a JSON text, which it has as `said`. None, with a message, without python.
fn python(json: &str, script: &str) -> Option<String> {
    if Command::new("python3").arg("--version").output().is_err() {
        eprintln!("python3 is not there: the JSON is not read");
        return None;
    }
    let script = format!("import json, sys\nsaid = json.load(sys.stdin)\n{script}");
    let mut child = start(
        Command::new("python3")
            .args(["-c", &script])
            .stdin(Stdio::piped())
            .stdout(Stdio::piped()),
    );
    child
        .stdin
        .take()
        .unwrap()
        .write_all(json.as_bytes())
        .unwrap();
    let output = child.wait_with_output().unwrap();
    assert!(output.status.success(), "{script}\n{json}");
    Some(String::from_utf8(output.stdout).unwrap())
}

/// The fields in the first table behind these words in the document.
fn documented(after: &str) -> String {
    let document = include_str!("../../../docs/JSON.md");
    let (_, rest) = document.split_once(after).expect("the document has it");
    let fields: Vec<&str> = rest
        .lines()
        .skip_while(|line| !line.starts_with("|---"))
        .skip(1)
        .take_while(|line| line.starts_with('|'))
        .map(|line| line.split('`').nth(1).expect("a field"))
        .collect();
    assert!(!fields.is_empty());
    fields.join(" ") + "\n"
}

const INFO: &str = "## `goofs info";
const CHECK: &str = "## `goofs check";
const FILE: &str = "| Field of a file";
const FAULT: &str = "| Field of a fault";
const ROOT: &str = "| Field of the root";

fn must_be(json: &str, script: &str, expected: &str) {
    if let Some(said) = python(json, script) {
        assert_eq!(said, expected, "{json}");
    }
}

/// A card with a file of each kind of name, one of them left by a put that was cut.
fn sample(folder: &Folder) -> PathBuf {
    let card = formatted(folder);
    let source = folder.write("source", b"1.25");
    let source = source.to_str().unwrap();
    let names: [&[u8]; 5] = [
        b"gain",
        b"quote\"back\\slash \x1b[2J\n",
        b"\xff\xfe",
        "gr\u{f6}\u{df}e \u{202e}\u{1f41f}".as_bytes(),
        b"gain.goofs-saving",
    ];
    for (i, name) in names.into_iter().enumerate() {
        let id = (u64::MAX - i as u64).to_string();
        let words = [source, "--as=new", "--time=4294967295", "--id", &id];
        // There is room for three files with bytes.
        let empty = ["/dev/null", "--as=new", "--time=4294967295", "--id", &id];
        good("put", &card, if i < 3 { &words } else { &empty });
        name_by_hand(&card, i, name);
    }
    card
}

fn json(command: &str, card: &Path, status: i32) -> String {
    let said = on(command, card, &["--json"]);
    assert_eq!(said.status, status, "{}", said.err);
    assert_eq!(said.err.contains("\nNext: "), status != 0, "{}", said.err);
    let text = said.text();
    let shown = |letter: char| letter == '\n' || !letter.is_control() && letter != '\u{202e}';
    assert!(text.chars().all(shown), "{text:?}");
    text
}

#[test]
fn files() {
    let folder = Folder::new("json-ls");
    let card = sample(&folder);
    let ls = json("ls", &card, 0);
    must_be(&ls, "print(*said)", "files\n");
    must_be(&ls, "print(*said['files'][0])", &documented(FILE));
    must_be(
        &ls,
        "for f in said['files']: print(f['index'], ascii(f['name']), f['name_hex'], f['leftover'])",
        "0 'gain' 6761696e False\n\
         1 'quote\"back\\\\slash \\x1b[2J\\n' 71756f7465226261636b5c736c617368201b5b324a0a False\n\
         2 None fffe False\n\
         3 'gr\\xf6\\xdfe \\u202e\\U0001f41f' 6772c3b6c39f6520e280aef09f909f False\n\
         4 'gain.goofs-saving' 6761696e2e676f6f66732d736176696e67 True\n",
    );
    // Each name again from its digits, as python gives it to the shell.
    must_be(
        &ls,
        "print(all(f['name'] is None or f['name'].encode() == bytes.fromhex(f['name_hex']) for f in said['files']))",
        "True\n",
    );
    // Exact, also where floating point is not.
    must_be(
        &ls,
        "f = said['files'][2]; print(f['size'], f['version'], f['id'], oct(f['mode']), f['access_time'], f['change_time'])",
        "4 2 18446744073709551613 0o644 4294967295 4294967295\n",
    );
    let empty = folder.file("empty");
    good("format", &empty, &["--sectors=1313"]);
    must_be(&json("ls", &empty, 0), "print(said)", "{'files': []}\n");
    for option in ["--accessed", "--numeric"] {
        assert_eq!(on("ls", &card, &["--json", option]).status, 2);
    }
}

#[test]
fn a_volume() {
    let folder = Folder::new("json-info");
    let card = sample(&folder);
    let info = json("info", &card, 0);
    must_be(&info, "print(*said)", &documented(INFO));
    must_be(&info, "print(*said['root'])", &documented(ROOT));
    must_be(
        &info,
        "del said['root']; print(*said.values())",
        "clean None True None 1 802 255 4 128 257 289 1 290 1 1 0\n",
    );
    good("rm", &card, &["gain", "--time=2000"]);
    must_be(
        &json("info", &card, 0),
        "print(said['free_extents'], said['reserve_extents'], said['room_bytes'], said['root']['change_time'])",
        "2 1 65536 2000\n",
    );
    let image = fs::read(&card).unwrap();
    let changed = |at: usize, bytes: &[u8]| {
        let mut image = image.clone();
        image[at..at + bytes.len()].copy_from_slice(bytes);
        folder.write("changed", &image)
    };
    let fields = "print(said['state'], said['waiting_sectors'], said['sound'], said['free_extents'], said['root'] is None)";
    for (at, bytes, expected) in [
        (18, [0, 2], "waiting 2 None 2 False\n"),
        (18, [5, 0], "damaged None None 2 False\n"),
        (18, [255, 255], "unfinished None None None True\n"),
        (7 * 512, [1, 2], "clean None False 2 False\n"),
    ] {
        must_be(&json("info", &changed(at, &bytes), 0), fields, expected);
    }
    let unsound = json("info", &changed(7 * 512, &[1, 2]), 0);
    must_be(&unsound, "print(*said['fault'])", &documented(FAULT));
}

#[test]
fn checks() {
    let folder = Folder::new("json-check");
    let card = sample(&folder);
    let check = json("check", &card, 0);
    must_be(&check, "print(*said)", &documented(CHECK));
    must_be(&check, "print(*said['leftovers'][0])", &documented(FILE));
    must_be(
        &check,
        "print(said['sound'], said['refusal'], said['text'], said['fault'], said['files'], len(said['leftovers']))",
        "True None None None 5 1\n",
    );
    let image = fs::read(&card).unwrap();
    let fields = "fault = said['fault']; print(*list(said)); print(said['sound'], said['refusal'], type(said['text']) is str, \
                  fault and (fault['number'], fault['place'], fault['place_is'], type(fault['text']) is str), said['files'])";
    for (length, at, bytes, expected) in [
        (700, 0, &[][..], "False 1 True None None"),
        (1_024, 8, &[0], "False 2 True None None"),
        (801 * 512, 0, &[], "False 3 True None None"),
        (1_313 * 512, 18, &[255, 255], "False 4 True None None"),
        (1_313 * 512, 18, &[0, 2], "False 5 True None None"),
        (1_313 * 512, 18, &[5, 0], "False 6 True None None"),
        (
            1_313 * 512,
            7 * 512,
            &[1],
            "False 7 True (21, 5, 'entry', True) None",
        ),
        (
            1_313 * 512,
            289 * 512,
            &[0, 9],
            "False 7 True (25, 0, 'extent', True) None",
        ),
        (
            1_313 * 512,
            289 * 512,
            &[255, 255],
            "False 7 True (26, 0, 'entry', True) None",
        ),
    ] {
        let mut image = image[..length].to_vec();
        image[at..at + bytes.len()].copy_from_slice(bytes);
        let changed = folder.write("changed", &image);
        let expected = format!("{}{expected}\n", documented(CHECK));
        must_be(&json("check", &changed, 1), fields, &expected);
    }
    // A card that isn't there is no volume that was checked.
    assert_eq!(json("check", &folder.file("nothing"), 1), "");
}
