//! What the tests share: a folder of their own, and the command run as a user would.

// Each test program uses a part of it.
#![allow(dead_code)]

use std::env;
use std::ffi::OsStr;
use std::fs;
use std::path::{Path, PathBuf};
use std::process::{Child, Command, Output, Stdio};
use std::sync::{Mutex, PoisonError};

/// A folder that is removed with the test.
pub struct Folder(PathBuf);

impl Folder {
    pub fn new(test: &str) -> Folder {
        let path = Path::new(env!("CARGO_TARGET_TMPDIR"))
            .join(format!("goofs-{test}-{}", std::process::id()));
        let _ = fs::remove_dir_all(&path);
        fs::create_dir_all(&path).expect("the folder is made");
        Folder(path)
    }

    pub fn file(&self, name: &str) -> PathBuf {
        self.0.join(name)
    }

    pub fn write(&self, name: &str, contents: &[u8]) -> PathBuf {
        let path = self.file(name);
        fs::write(&path, contents).expect("the file is written");
        path
    }
}

impl Drop for Folder {
    fn drop(&mut self) {
        let _ = fs::remove_dir_all(&self.0);
    }
}

/// What the command said.
#[derive(Debug)]
pub struct Said {
    pub status: i32,
    pub out: Vec<u8>,
    pub err: String,
}

impl Said {
    pub fn of(output: Output) -> Said {
        Said {
            status: output.status.code().expect("it ends by itself"),
            out: output.stdout,
            err: String::from_utf8_lossy(&output.stderr).into_owned(),
        }
    }

    pub fn text(&self) -> String {
        String::from_utf8_lossy(&self.out).into_owned()
    }
}

pub fn goofs<W: AsRef<OsStr>>(words: &[W]) -> Said {
    run(Command::new(env!("CARGO_BIN_EXE_goofs")).args(words))
}

/// Runs the command on a medium that fails: writes past this many blocks of a file are errors. A
/// block has 512 or 1,024 bytes, as the shell likes.
pub fn on_failing_medium(blocks: u64, command: &str, card: &Path, rest: &[&str]) -> Said {
    with_limit(&format!("-f {blocks}"), command, card, rest)
}

/// Runs the command with a limit, in the words of the shell's ulimit.
pub fn with_limit(limit: &str, command: &str, card: &Path, rest: &[&str]) -> Said {
    let script = format!("trap '' XFSZ; ulimit {limit}; exec \"$@\"");
    run(Command::new("sh")
        .args(["-c", &script, "sh", env!("CARGO_BIN_EXE_goofs"), command])
        .arg(card)
        .args(rest))
}

/// What comes between the command and a card that fails (see tests/faulty_card.c).
pub fn shim(folder: &Folder) -> PathBuf {
    preloaded(folder, "faulty_card")
}

/// A shared object of this source in the repository's tests.
pub fn preloaded(folder: &Folder, name: &str) -> PathBuf {
    let shared = folder.file(&format!("{name}.so"));
    if !shared.exists() {
        let source = format!("{}/../../tests/{name}.c", env!("CARGO_MANIFEST_DIR"));
        let cc = env::var("CC").unwrap_or("cc".to_string());
        let made = run(Command::new(cc)
            .args([
                "-O1", "-Wall", "-Wextra", "-Werror", "-shared", "-fPIC", "-o",
            ])
            .arg(&shared)
            .args([&source, "-ldl"]));
        assert_eq!(made.status, 0, "{}", made.err);
    }
    shared
}

/// Runs the command on a copy of the card, `faulty-card`, that does what `fault` says at one of its
/// writes and barriers (see tests/faulty_card.c).
pub fn faulty(
    folder: &Folder,
    base: &Path,
    fault: &str,
    at: usize,
    command: &str,
    rest: &[&str],
) -> Said {
    let shim = shim(folder);
    let (card, medium) = (folder.file("faulty-card"), folder.file("medium"));
    fs::copy(base, &card).unwrap();
    fs::copy(base, &medium).unwrap();
    let output = start(
        Command::new(env!("CARGO_BIN_EXE_goofs"))
            .arg(command)
            .arg(&card)
            .args(rest)
            .env("CARD", &card)
            .env("MEDIUM", medium)
            .env("FAULT", fault)
            .env("AT", at.to_string())
            .env("LD_PRELOAD", shim)
            .stdin(Stdio::null())
            .stdout(Stdio::piped())
            .stderr(Stdio::piped()),
    )
    .wait_with_output()
    .expect("the command runs");
    Said {
        // By a signal, as the shell says it.
        status: output.status.code().unwrap_or(130),
        out: output.stdout,
        err: String::from_utf8_lossy(&output.stderr).into_owned(),
    }
}

pub fn run(command: &mut Command) -> Said {
    let command = command
        .stdin(Stdio::null())
        .stdout(Stdio::piped())
        .stderr(Stdio::piped());
    let output = start(command).wait_with_output();
    Said::of(output.expect("the command runs"))
}

/// What the command writes to a terminal, with these settings in its environment. None, with a message,
/// where there is no python to make one.
pub fn on_terminal(words: &[&str], settings: &[(&str, &str)]) -> Option<String> {
    let words = [&[env!("CARGO_BIN_EXE_goofs")], words].concat();
    program_on_terminal(&words, settings)
}

/// The same for any program.
pub fn program_on_terminal(words: &[&str], settings: &[(&str, &str)]) -> Option<String> {
    if Command::new("python3").arg("--version").output().is_err() {
        eprintln!("python3 is not there: the command is not tried on a terminal");
        return None;
    }
    let script = "import pty, sys; sys.exit(pty.spawn(sys.argv[1:]) >> 8)";
    let said = run(Command::new("python3")
        .args(["-c", script])
        .args(words)
        .env_remove("NO_COLOR")
        .env("TERM", "xterm")
        .envs(settings.iter().copied()));
    assert_eq!(said.status, 0, "{words:?}: {}", said.text());
    Some(said.text())
}

/// Starts one process at a time: until it runs its own program, it has the files of all tests, and
/// with them their locks.
pub fn start(command: &mut Command) -> Child {
    static START: Mutex<()> = Mutex::new(());
    let _one = START.lock().unwrap_or_else(PoisonError::into_inner);
    command.spawn().expect("the command starts")
}

/// Runs the command on a card; it must succeed.
pub fn good(command: &str, card: &Path, rest: &[&str]) -> String {
    let said = on(command, card, rest);
    assert_eq!(said.status, 0, "{command} {rest:?}: {}", said.err);
    said.text()
}

/// Runs the command on a card; it must fail with this status and change no byte of the card.
pub fn bad(command: &str, card: &Path, rest: &[&str], status: i32) -> String {
    let before = fs::read(card).ok();
    let said = on(command, card, rest);
    assert_eq!(said.status, status, "{command} {rest:?}: {}", said.err);
    assert!(
        fs::read(card).ok() == before,
        "{command} {rest:?} changed the card"
    );
    said.err
}

pub fn on(command: &str, card: &Path, rest: &[&str]) -> Said {
    let mut words = vec![OsStr::new(command), card.as_os_str()];
    words.extend(rest.iter().map(OsStr::new));
    goofs(&words)
}

/// The sample volume, empty.
pub fn formatted(folder: &Folder) -> PathBuf {
    let card = folder.file("card");
    let said = good("format", &card, &["--sectors", "1313", "--time", "1000"]);
    assert_eq!(
        said,
        "formatted: 255 files at most, 196608 bytes for them\n"
    );
    card
}

/// Gives the file in this directory entry a name by hand, as a volume of before the rule of names may
/// have one.
pub fn name_by_hand(card: &Path, index: usize, name: &[u8]) {
    let mut image = fs::read(card).unwrap();
    let entry = &mut image[(2 + index) * 512..(3 + index) * 512];
    entry[34..36].copy_from_slice(&(name.len() as u16).to_be_bytes());
    entry[36..].fill(0);
    entry[36..36 + name.len()].copy_from_slice(name);
    fs::write(card, image).unwrap();
}

/// The numbers of a trial's last line in the table. The trial must find no difference and leave the
/// card alone.
pub fn numbers_of_trial(card: &Path, rest: &[&str]) -> [u64; 7] {
    trial(card, rest).0
}

/// The numbers of a trial's table and of its closing line: ways in which recoveries were cut, and all.
pub fn trial(card: &Path, rest: &[&str]) -> ([u64; 7], [u64; 2]) {
    let before = fs::read(card).unwrap();
    let said = good("trial", card, rest);
    assert!(
        fs::read(card).unwrap() == before,
        "a trial only reads the card"
    );
    let (closing, table): (Vec<&str>, Vec<&str>) = said.lines().partition(|line| {
        line.starts_with("recoveries cut in") || line.starts_with("groups of more than")
    });
    let last = table.last().unwrap();
    let words: Vec<&str> = last.split_whitespace().collect();
    let numbers = words[words.len() - 7..].iter();
    let numbers: Vec<u64> = numbers.map(|word| word.parse().unwrap()).collect();
    let ways = closing.last().expect("the trial has a closing line");
    let ways: Vec<u64> = ways
        .split_whitespace()
        .filter_map(|word| word.parse().ok())
        .collect();
    (numbers.try_into().unwrap(), ways.try_into().unwrap())
}

/// Runs the session of an indented text, line by line: each command prints what stands behind it. Gives
/// the number of commands.
pub fn run_session(text: &str, folder: &Folder) -> usize {
    let program = Path::new(env!("CARGO_BIN_EXE_goofs")).parent().unwrap();
    let path = format!("{}:{}", program.display(), std::env::var("PATH").unwrap());
    let lines: Vec<&str> = text
        .lines()
        .filter_map(|line| line.strip_prefix("    "))
        .collect();
    let mut lines = &lines[..];
    let mut commands = 0;
    while let Some((first, rest)) = lines.split_first() {
        let words = first
            .strip_prefix("$ ")
            .expect("a command stands before its output");
        let end = rest.iter().position(|line| line.starts_with("$ "));
        let (expected, next) = rest.split_at(end.unwrap_or(rest.len()));
        let said = run(Command::new("sh")
            .args(["-c", &format!("{words} 2>&1")])
            .env("PATH", &path)
            .current_dir(folder.file(".")));
        let printed = said.text();
        let printed: Vec<&str> = printed.lines().collect();
        assert_eq!(printed, expected, "{words}");
        lines = next;
        commands += 1;
    }
    commands
}
