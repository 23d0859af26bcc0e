//! The command killed at random moments, as a relay in the supply line cuts a box, and the card audited
//! after each kill: it must be what the log gives, and a copy with one wrong byte must not. What is done is
//! drawn from a seed, which is printed and can be given again with KILL_SEED; the moments of the kills
//! depend on the machine as well.

mod shared;

use std::env;
use std::ffi::OsStr;
use std::fs;
use std::os::unix::process::ExitStatusExt;
use std::path::{Path, PathBuf};
use std::process::{Command, Stdio};
use std::thread;
use std::time::{Duration, Instant, SystemTime, UNIX_EPOCH};

use oracle::draw::Draw;
use shared::{good, goofs, start, Folder, Said};

const SIGKILL: i32 = 9;
const SECTOR: usize = 512;
/// The metadata of the cards here: superblock, root, directory, journal and one table sector.
const JOURNAL_AT: usize = 257;
const TABLE_AT: usize = 289;
const NAMES: [&str; 4] = ["beam", "gain", "temperature", "clock"];
/// A log is replayed from its start, so a new one is begun now and then, with a copy of the card.
const KILLS_IN_A_LOG: u64 = 12;

struct Run {
    folder: Folder,
    card: PathBuf,
    log: PathBuf,
    /// The card when the log was begun, if it didn't begin with a format.
    from: Option<PathBuf>,
    draw: Draw,
    /// Every other card is of the second edition, with times past the first one's.
    edition: &'static str,
    time: u64,
}

/// How many kills came before the call that they cut, and how the others ended.
#[derive(Clone, Copy, Debug, Default)]
struct Counts {
    kills: u64,
    recovered: u64,
    done: u64,
    not_done: u64,
    landed: u64,
    between: u64,
    cut_off: u64,
    wrong: u64,
}

fn seed() -> u64 {
    let now = || SystemTime::now().duration_since(UNIX_EPOCH).unwrap();
    match env::var("KILL_SEED") {
        Ok(word) => word.parse().expect("KILL_SEED is a number"),
        Err(_) => now().as_nanos() as u64,
    }
}

impl Run {
    fn new(seed: u64) -> Run {
        let folder = Folder::new(&format!("audited-{seed}"));
        // Written once, so that the file system has no more to note at the barriers.
        let sectors = 546 + 255 + 30 * 128;
        let card = folder.write("card", &vec![0; sectors * SECTOR]);
        let log = folder.file("log");
        let (edition, time) = match seed % 2 {
            0 => ("1", 1_000),
            _ => ("2", 1 << 33),
        };
        Run {
            folder,
            card,
            log,
            from: None,
            draw: Draw::new(seed),
            edition,
            time,
        }
    }

    /// The words of a command with the log.
    fn with_log(&self, words: &[&str]) -> Vec<String> {
        let log = ["--log", self.log.to_str().unwrap()];
        [words, &log]
            .concat()
            .into_iter()
            .map(String::from)
            .collect()
    }

    fn format(&mut self) -> Vec<String> {
        self.time += 1;
        let time = self.time.to_string();
        self.with_log(&[
            "format",
            "--yes",
            "--edition",
            self.edition,
            "--time",
            &time,
        ])
    }

    fn names(&self) -> Vec<String> {
        let said = good("ls", &self.card, &[]);
        let names = said
            .lines()
            .filter_map(|line| line.split_whitespace().last());
        names.map(String::from).collect()
    }

    /// What is killed next.
    fn work(&mut self) -> Vec<String> {
        self.time += 1;
        let time = self.time.to_string();
        let there = self.names();
        let name = *self.draw.pick(&NAMES);
        let old = self.draw.pick(&NAMES).to_string();
        let is_there = there.contains(&old);
        let (copy, size) = (self.folder.file("copy"), self.draw.between(0, 150_000));
        let mut put = |size: u64, rest: &[&str]| {
            let contents = self.draw.bytes(size as usize);
            let file = self.folder.write(name, &contents);
            let words = [&["put", file.to_str().unwrap()], rest, &["--time", &time]].concat();
            self.with_log(&words)
        };
        match size % 14 {
            0 | 1 => put(size % 3_000, &[]),
            2 => put(size, &[]),
            3 | 4 => put(size, &["--in-place"]),
            5 if is_there => self.with_log(&["rm", &old, "--time", &time]),
            6 if is_there && old != name => self.with_log(&["mv", &old, name, "--time", &time]),
            7 if is_there => self.with_log(&["resize", &old, &size.to_string(), "--time", &time]),
            8 if is_there => {
                let copy = copy.to_str().unwrap();
                self.with_log(&["get", &old, "--touch", "--as", copy, "--time", &time])
            }
            9 if !there.is_empty() => self.with_log(&["ls", "--touch", "--time", &time]),
            10 if there.len() > 1 => {
                let names = there.iter().map(String::as_str);
                let words: Vec<&str> = ["rm"].into_iter().chain(names).collect();
                self.with_log(&[&words[..], &["--time", &time]].concat())
            }
            11 if is_there => {
                let piece = self.draw.bytes(size as usize);
                let piece = self.folder.write("piece", &piece);
                self.with_log(&["write", &old, "0", piece.to_str().unwrap(), "--time", &time])
            }
            12 => {
                let files = NAMES[1..].iter().map(|name| {
                    let length = self.draw.below(3_000);
                    let contents = self.draw.bytes(length as usize);
                    self.folder.write(name, &contents)
                });
                let files = Vec::from_iter(files);
                let files = files.iter().map(|file| file.to_str().unwrap());
                let words = Vec::from_iter(["put"].into_iter().chain(files));
                self.with_log(&[&words[..], &["--together", "--time", &time]].concat())
            }
            13 if is_there && old != name && there.iter().any(|there| there == name) => self
                .with_log(&[
                    "mv", &old, "third", name, &old, "third", name, "--time", &time,
                ]),
            _ => put(size % 3_000, &["--in-place"]),
        }
    }

    fn audit(&self, card: &Path, rest: &[&str]) -> Said {
        let mut words = vec![OsStr::new("audit"), self.log.as_os_str(), card.as_os_str()];
        words.extend(rest.iter().map(OsStr::new));
        if let Some(from) = &self.from {
            words.extend([OsStr::new("--from"), from.as_os_str()]);
        }
        goofs(&words)
    }

    /// A copy of the recovered card with one bit changed where a file, the root or the table says
    /// something.
    fn wrong_card(&mut self) -> Option<PathBuf> {
        let card = self.folder.file("wrong");
        fs::copy(&self.card, &card).unwrap();
        good("recover", &card, &[]);
        let mut image = fs::read(&card).unwrap();
        let entry = |index: usize| (2 + index) * SECTOR;
        let occupied: Vec<usize> = (0..255)
            .filter(|index| image[entry(*index)] == 255)
            .collect();
        let at = match self.draw.below(4) {
            0 => SECTOR + self.draw.below(24) as usize,
            1 => TABLE_AT * SECTOR + self.draw.below(30 * 4) as usize / 4 * 4,
            _ if occupied.is_empty() => return None,
            2 => entry(*self.draw.pick(&occupied)) + self.draw.below(36) as usize,
            _ => {
                // The first byte of an extent that a file holds.
                let table = &image[TABLE_AT * SECTOR..][..30 * 4];
                let taken = table
                    .chunks(4)
                    .enumerate()
                    .filter(|(_, entry)| entry[..2] != [255, 255]);
                let taken: Vec<usize> = taken.map(|(extent, _)| extent).collect();
                if taken.is_empty() {
                    return None;
                }
                (TABLE_AT + 1 + 128 * *self.draw.pick(&taken)) * SECTOR
            }
        };
        assert!(!(JOURNAL_AT * SECTOR..TABLE_AT * SECTOR).contains(&at));
        image[at] ^= 1 << self.draw.below(8);
        fs::write(&card, image).unwrap();
        Some(card)
    }
}

/// Runs the command for so long and kills it, if it hasn't ended by itself. Gives whether it was
/// killed.
fn killed_after(moment: Duration, card: &Path, words: &[String]) -> bool {
    let mut child = start(
        Command::new(env!("CARGO_BIN_EXE_goofs"))
            .arg(&words[0])
            .arg(card)
            .args(&words[1..])
            .stdin(Stdio::null())
            .stdout(Stdio::null()),
    );
    thread::sleep(moment);
    child.kill().expect("it is killed, or has ended");
    let status = child.wait().unwrap();
    match status.signal() {
        Some(signal) => assert_eq!(signal, SIGKILL, "{words:?}"),
        None => assert_eq!(status.code(), Some(0), "{words:?}"),
    }
    status.signal().is_some()
}

/// Runs the command to its end, and gives its time.
fn whole(card: &Path, words: &[String]) -> Duration {
    let begun = Instant::now();
    let rest: Vec<&str> = words[1..].iter().map(String::as_str).collect();
    good(&words[0], card, &rest);
    begun.elapsed()
}

/// So many kills on one card, the first of them within its format.
fn kills(seed: u64, most: u64) -> Counts {
    let mut run = Run::new(seed);
    let mut counts = Counts::default();
    let format = run.format();
    let mut longest = whole(&run.card, &format);
    while counts.kills < most {
        let is_format = run.draw.below(16) == 0;
        let words = match is_format {
            true => run.format(),
            false => run.work(),
        };
        // Now and then one goes through, and its time is taken.
        if run.draw.below(16) == 0 {
            longest = (longest + whole(&run.card, &words)) / 2;
        } else {
            let moment = run.draw.below(longest.as_nanos() as u64 + 1);
            counts.kills += u64::from(killed_after(
                Duration::from_nanos(moment),
                &run.card,
                &words,
            ));
        }
        let failed = |said: &Said| format!("KILL_SEED={seed}: {words:?}: {}", said.err);
        // Either the card is recovered before, or in memory.
        let mut rest = vec![];
        if run.draw.below(2) == 0 && !is_format {
            let log = run.log.to_str().unwrap();
            let said = good("recover", &run.card, &["--log", log]);
            counts.recovered += u64::from(said.starts_with("recovered"));
        }
        // A log may go on without a note, but then nothing is known of sectors that landed, and one bit
        // makes an access time the old one again.
        let is_checked = counts.kills % 4 == 0;
        let mut words_of = words.iter().map(String::as_str);
        let needs_note = words_of.any(|word| ["write", "--in-place", "--touch"].contains(&word));
        if is_checked || needs_note || run.draw.below(3) > 0 {
            rest.push("--settle");
        }
        let said = run.audit(&run.card, &rest);
        assert_eq!(said.status, 0, "{}", failed(&said));
        let line = said.text();
        assert_eq!(line.lines().count(), 1, "{line}");
        let has = |text: &str| u64::from(line.contains(text));
        counts.done += has(" is done");
        counts.not_done += has(" is not done");
        counts.landed += has(" landed");
        counts.between += 1 - has(" is done") - has(" is not done");
        counts.cut_off += has(" is cut off");
        if is_format && line.contains("format again") {
            // An unfinished volume, or none: the next one goes through, in the same log.
            let again = run.format();
            whole(&run.card, &again);
            assert_eq!(run.audit(&run.card, &[]).status, 0);
        }
        if is_checked {
            if let Some(card) = run.wrong_card() {
                let said = run.audit(&card, &[]);
                assert_eq!(
                    (said.status, &said.text()[..]),
                    (1, ""),
                    "{}",
                    failed(&said)
                );
                counts.wrong += 1;
            }
        }
        good("recover", &run.card, &[]);
        if counts.kills % KILLS_IN_A_LOG == KILLS_IN_A_LOG - 1 {
            let from = run.folder.file("from");
            fs::copy(&run.card, &from).unwrap();
            fs::remove_file(&run.log).unwrap();
            fs::write(&run.log, b"").unwrap();
            run.from = Some(from);
        }
    }
    counts
}

fn audited(cards: u64, each: u64) -> Counts {
    let seed = seed();
    println!("KILL_SEED={seed}");
    let counts: Vec<Counts> = thread::scope(|scope| {
        let runs: Vec<_> = (0..cards)
            .map(|card| scope.spawn(move || kills(seed.wrapping_add(card), each)))
            .collect();
        let counts = runs.into_iter().map(|run| run.join());
        counts
            .map(|counts| counts.expect("each card is what its log gives"))
            .collect()
    });
    let sum = |count: fn(&Counts) -> u64| counts.iter().map(count).sum::<u64>();
    let all = Counts {
        kills: sum(|c| c.kills),
        recovered: sum(|c| c.recovered),
        done: sum(|c| c.done),
        not_done: sum(|c| c.not_done),
        landed: sum(|c| c.landed),
        between: sum(|c| c.between),
        cut_off: sum(|c| c.cut_off),
        wrong: sum(|c| c.wrong),
    };
    println!("{all:?}");
    all
}

#[test]
fn sixty_kills_audited() {
    let all = audited(4, 15);
    assert_eq!(all.kills, 60);
    assert!(all.wrong > 0, "{all:?}");
}

/// Run with `cargo test --release -p command --test audited_kills -- --ignored --nocapture`.
#[test]
#[ignore = "takes some minutes"]
fn a_thousand_kills_audited() {
    let all = audited(4, 250);
    assert_eq!(all.kills, 1_000);
    // Else the moments were too early or too late to show anything.
    assert!(
        all.done > 0 && all.not_done > 0 && all.between > 0,
        "{all:?}"
    );
    assert!(
        all.recovered > 0 && all.landed > 0 && all.wrong > 100,
        "{all:?}"
    );
}
