//! Two programs with one card: a command waits for the lock. (That only who holds it removes a file is
//! tried in `tests/faults`.)

mod shared;

use std::fs::{self, File};
use std::io::Read;
use std::path::Path;
use std::process::{Child, Command, Stdio};
use std::thread;
use std::time::{Duration, Instant};

use shared::{bad, formatted, good, run, start, Folder, Said};

fn begin(command: &str, card: &Path, rest: &[&str]) -> Child {
    start(
        Command::new(env!("CARGO_BIN_EXE_goofs"))
            .arg(command)
            .arg(card)
            .args(rest)
            .stdin(Stdio::null())
            .stdout(Stdio::piped())
            .stderr(Stdio::piped()),
    )
}

fn end(child: Child) -> Said {
    Said::of(child.wait_with_output().expect("the command runs"))
}

/// A save does not fail because someone lists the files, and a list does not because of a save.
#[test]
fn commands_wait_for_each_other() {
    let folder = Folder::new("wait");
    let card = formatted(&folder);
    let source = folder.write("f", b"x");
    let source = source.to_str().unwrap();
    let holder = File::open(&card).unwrap();
    for (command, rest) in [
        ("put", &[source, "--wait=600"][..]),
        ("ls", &["--wait=600"]),
        ("rm", &["f", "--wait=600"]),
        ("recover", &["--wait", "600"]),
    ] {
        holder.lock().unwrap();
        let child = begin(command, &card, rest);
        thread::sleep(Duration::from_millis(300));
        holder.unlock().unwrap();
        let said = end(child);
        assert_eq!(said.status, 0, "{command}: {}", said.err);
    }
    assert_eq!(good("check", &card, &[]), "sound, 0 files\n");

    // Not for ever: as long as is asked for, else 5 seconds.
    holder.lock_shared().unwrap();
    for (words, seconds) in [(&[source, "--wait", "1"][..], 1), (&[source], 5)] {
        let begun = Instant::now();
        let err = bad("put", &card, words, 1);
        assert!(begun.elapsed() >= Duration::from_secs(seconds));
        assert!(
            err.contains("another program has it open") && err.contains("--wait SECONDS"),
            "{err}"
        );
    }
    // And no longer. A machine that is busy may hold some of the tries up.
    let is_short = |_| {
        let begun = Instant::now();
        bad("put", &card, &[source, "--wait=0"], 1);
        begun.elapsed() < Duration::from_secs(4)
    };
    assert!((0..20).any(is_short));
}

/// A put that reads what a get of the same card writes: it takes the lock when it has all of it.
#[test]
fn a_pipe_from_the_card_to_itself() {
    let folder = Folder::new("pipe");
    let card = formatted(&folder);
    let source = folder.write("f", &[b'x'; 60_000]);
    good("put", &card, &[source.to_str().unwrap()]);
    let script = r#"(sleep 0.2; "$1" get "$2" f --wait 1) | "$1" put "$2" - --as g"#;
    let said = run(Command::new("sh")
        .args(["-c", script, "sh", env!("CARGO_BIN_EXE_goofs")])
        .arg(&card));
    assert_eq!((said.status, &*said.err), (0, ""));
    assert_eq!(good("get", &card, &["g"]).len(), 60_000);
}

/// A get whose output is read slowly has read the card already, and does not hold others up.
#[test]
fn output_that_is_read_slowly() {
    let folder = Folder::new("slow");
    let card = formatted(&folder);
    // More than a pipe takes.
    let source = folder.write("f", &[b'x'; 190_000]);
    good("put", &card, &[source.to_str().unwrap()]);
    let mut child = begin("get", &card, &["f"]);
    let mut output = child.stdout.take().unwrap();
    let mut bytes = vec![0; 1];
    output.read_exact(&mut bytes).unwrap();
    good("rm", &card, &["f", "--wait=0"]);
    output.read_to_end(&mut bytes).unwrap();
    assert_eq!(bytes, [b'x'; 190_000]);
    assert_eq!(end(child).status, 0);
}

/// A card that is replaced while a command waits for it: the change goes to the new one.
#[test]
fn a_card_that_is_replaced() {
    let folder = Folder::new("replaced");
    let card = formatted(&folder);
    let other = folder.write("other", &fs::read(&card).unwrap());
    let source = folder.write("f", b"x");
    let holder = File::open(&card).unwrap();
    holder.lock().unwrap();
    let child = begin("put", &card, &[source.to_str().unwrap(), "--wait=600"]);
    thread::sleep(Duration::from_millis(300));
    fs::rename(&other, &card).unwrap();
    drop(holder);
    let said = end(child);
    assert_eq!(said.status, 0, "{}", said.err);
    assert_eq!(good("check", &card, &[]), "sound, 1 files\n");
}

/// Of two formats one makes the volume, and the other finds it.
#[test]
fn two_formats_at_once() {
    let folder = Folder::new("at-once");
    for round in 0..20 {
        let card = folder.file(&format!("card-{round}"));
        let both = [(); 2].map(|()| begin("format", &card, &["--sectors=1313", "--wait=600"]));
        let mut ends = both.map(end);
        ends.sort_by_key(|said| said.status);
        assert_eq!(ends[0].status, 0, "{ends:?}");
        assert!(
            ends[1].status == 1 && ends[1].err.contains("already holds a volume"),
            "{ends:?}"
        );
        assert_eq!(good("check", &card, &[]), "sound, 0 files\n");
    }
}
