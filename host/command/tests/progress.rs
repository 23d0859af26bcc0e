//! Progress of long work: a line on the terminal, cleared at the end, and nothing anywhere else.

mod shared;

use std::fs;
use std::process::Command;

use shared::{formatted, good, program_on_terminal, run, shim, Folder};

/// The line is written over and cleared: what is left on the terminal has none of it.
fn shows(said: &str, what: &str) {
    let shown = format!("\r{what}: ");
    assert!(said.contains(&shown), "{what} in {said:?}");
    let cleared = format!("\r{:76}\r", "");
    let (_, rest) = said.rsplit_once(&shown).unwrap();
    assert!(rest.contains(&cleared), "{said:?}");
}

/// Bytes that come slowly, into put and write.
#[test]
fn slow_sources() {
    let folder = Folder::new("progress-put");
    let card = formatted(&folder);
    for (command, rest) in [("put", "- --as f"), ("write", "f 1 -")] {
        let script = format!(
            "(printf a; sleep 0.7; printf b; sleep 0.3; printf c) | '{}' {command} '{}' {rest}",
            env!("CARGO_BIN_EXE_goofs"),
            card.display()
        );
        // Not on a terminal: not a byte.
        let said = run(Command::new("sh").args(["-c", &script]));
        assert_eq!(
            (said.status, said.err, said.out),
            (0, String::new(), vec![])
        );
        if let Some(said) = program_on_terminal(&["sh", "-c", &script], &[]) {
            shows(&said, "bytes read");
            assert!(said.contains("bytes read: 2   "), "{said:?}");
        }
    }
    assert_eq!(good("get", &card, &["f"]), "aabc");
}

/// A slow card: the reading of the files, as salvage does it.
#[test]
fn slow_cards() {
    let folder = Folder::new("progress-card");
    let card = folder.file("card");
    good("format", &card, &["--size=2M"]);
    let file = folder.write("f", &vec![7; 700_000]);
    good("put", &card, &[file.to_str().unwrap()]);
    let shim = shim(&folder);
    let into = folder.file("into");
    let words = [
        env!("CARGO_BIN_EXE_goofs"),
        "salvage",
        card.to_str().unwrap(),
        into.to_str().unwrap(),
    ];
    let settings = [
        ("CARD", card.to_str().unwrap()),
        ("LD_PRELOAD", shim.to_str().unwrap()),
        ("SLOW", "90"),
    ];
    if let Some(said) = program_on_terminal(&words, &settings) {
        shows(&said, "bytes read");
        assert!(said.contains(" of 700000   "), "{said:?}");
        fs::remove_dir_all(&into).unwrap();
    }
    let said = run(Command::new(words[0]).args(&words[1..]).envs(settings));
    assert_eq!((said.status, said.err), (0, String::new()));
}
