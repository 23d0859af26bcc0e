//! The command killed at random moments: a thousand times within puts, of a new file and over an old
//! one, small and of 1 MiB, and of three together, and some times within the other changes. After each kill
//! and a recovery the oracle must find every file as the rules say; of a put that is the old file or the new
//! one, whole, and of three together all old or all new ones.
//! What is done is drawn from a seed, which is printed and can be given again with KILL_SEED; the
//! moments of the kills depend on the machine as well.

mod shared;

use std::env;
use std::fs;
use std::os::unix::process::ExitStatusExt;
use std::path::{Path, PathBuf};
use std::process::{Command, Stdio};
use std::thread;
use std::time::{Duration, Instant, SystemTime, UNIX_EPOCH};

use oracle::draw::Draw;
use oracle::ledger::{CutReport, File};
use oracle::lists::RECORD;
use oracle::{FormatRequest, Ledger, Lent, Request};
use shared::{good, start, Folder};

/// Of each kind, in the order of `KINDS`; a thousand are of puts.
const KILLS: [u64; 6] = [350, 350, 100, 100, 100, 60];
/// They are shared out among so many cards, as most of the time is spent at barriers.
const CARDS: u64 = 8;
const SIGKILL: i32 = 9;
const SECTOR: usize = 512;
/// The most bytes that one change adds or writes.
const PIECE: u64 = 65_536;
/// Longer than any list.
const LENT: Lent = Lent::both(1_100 * RECORD);
const SMALL: [&str; 4] = ["beam", "gain", "temperature", "clock"];
const LARGE: [&str; 1] = ["transect"];
const MIB: u64 = 1 << 20;

/// What is killed.
#[derive(Clone, Copy, Debug, PartialEq, Eq)]
enum Kind {
    Put {
        is_new: bool,
        is_large: bool,
    },
    /// Three files that change over together.
    Together,
    /// Rm, mv, of several names too, resize, a put in place, and a get that sets the access time.
    Other,
}

const fn put(is_new: bool, is_large: bool) -> Kind {
    Kind::Put { is_new, is_large }
}

const KINDS: [Kind; 6] = [
    put(true, false),
    put(false, false),
    put(true, true),
    put(false, true),
    Kind::Together,
    Kind::Other,
];

/// A command, and the calls that it comes to by its help.
struct Work {
    words: Vec<String>,
    calls: Vec<Request>,
    /// What a put saves, and under which name.
    saved: Vec<(&'static str, Vec<u8>)>,
}

struct Run {
    folder: Folder,
    card: PathBuf,
    ledger: Ledger,
    draw: Draw,
    time: u64,
}

fn seed() -> u64 {
    let now = || SystemTime::now().duration_since(UNIX_EPOCH).unwrap();
    match env::var("KILL_SEED") {
        Ok(word) => word.parse().expect("KILL_SEED is a number"),
        Err(_) => now().as_nanos() as u64,
    }
}

impl Run {
    fn new(seed: u64) -> Run {
        let folder = Folder::new(&format!("kills-{seed}"));
        // Every other card is of the second edition, with times past the first one's.
        let (edition, time) = match seed % 2 {
            0 => (1, 1_000),
            _ => (2, 1 << 33),
        };
        // Room for all files with what is left beside each, and the reserve.
        let format = FormatRequest {
            edition,
            sectors: 546 + 255 + 50 * 128,
            files: 255,
            id: 1,
            mode: 0o755,
            time,
        };
        // Written once, so that the file system has no more to note at the barriers.
        let card = folder.write("card", &vec![0; format.sectors as usize * SECTOR]);
        let words = [format!("--edition={edition}"), format!("--time={time}")];
        good("format", &card, &words.each_ref().map(String::as_str));
        Run {
            folder,
            card,
            ledger: Ledger::new(&format).expect("the format has a geometry"),
            draw: Draw::new(seed),
            time,
        }
    }

    fn file(&self, name: &str) -> Option<&File> {
        let mut files = self.ledger.slots().iter().flatten();
        files.find(|file| file.name == name.as_bytes())
    }

    /// What is killed next. What it needs is done before, without a kill.
    fn work(&mut self, kind: Kind) -> Work {
        self.time += 1;
        let mut work = match kind {
            Kind::Put { is_new, is_large } => {
                let (names, size) = match is_large {
                    true => (&LARGE[..], MIB),
                    false => (&SMALL[..], self.draw.between(1, 3_000)),
                };
                // One for which nothing is to be done before, if there is one.
                let mut fitting = names.to_vec();
                fitting.retain(|name| self.file(name).is_none() == is_new);
                let fitting = match fitting.is_empty() {
                    true => names,
                    false => &fitting,
                };
                let name = *self.draw.pick(fitting);
                match (is_new, self.file(name).is_some()) {
                    (true, true) => self.whole(rm(name, self.time)),
                    (false, false) => {
                        let first = self.save(name, size);
                        self.whole(first);
                    }
                    _ => (),
                }
                self.save(name, size)
            }
            Kind::Together => self.save_together(),
            Kind::Other => {
                let name = *self.draw.pick(&SMALL);
                if self.file(name).is_none() {
                    let first = self.save(name, 2_500);
                    self.whole(first);
                    // At the same time a get would set the access time that it has already.
                    self.time += 1;
                }
                let size = self.draw.below(2 * PIECE + 1);
                match self.draw.below(6) {
                    0 => rm(name, self.time),
                    1 => self.mv(name),
                    5 => self.mv_several(name),
                    2 => self.resize(name, size),
                    3 => self.get_touching(name),
                    _ => self.put_in_place(name, size),
                }
            }
        };
        let time = ["--time".to_string(), self.time.to_string()];
        work.words.extend(time);
        work
    }

    /// Does it without a kill.
    fn whole(&mut self, work: Work) {
        let time = self.time.to_string();
        let rest: Vec<&str> = work.words[1..].iter().map(String::as_str).collect();
        let rest = [&rest[..], &["--time", &time]].concat();
        good(&work.words[0], &self.card, &rest);
        for call in &work.calls {
            assert_eq!(self.ledger.call(call, LENT).answer.code(), 0, "{call:?}");
        }
    }

    /// Another name, which a file may have: that one is gone then.
    fn mv(&mut self, name: &'static str) -> Work {
        let mut others = SMALL.to_vec();
        others.retain(|other| *other != name);
        let new = *self.draw.pick(&others);
        Work {
            words: ["mv", name, new].map(String::from).to_vec(),
            calls: vec![Request::Rename {
                old: name.into(),
                new: new.into(),
                time: self.time,
            }],
            saved: Vec::new(),
        }
    }

    /// Another name through a third one; a file that has it gets this one's.
    fn mv_several(&mut self, name: &'static str) -> Work {
        let mut others = SMALL.to_vec();
        others.retain(|other| *other != name);
        let other = *self.draw.pick(&others);
        let names = match self.file(other) {
            Some(_) => vec![name, "spare", other, name, "spare", other],
            None => vec![name, "spare", "spare", other],
        };
        Work {
            calls: vec![self.rename_set(&names)],
            words: [&["mv"], &names[..]]
                .concat()
                .into_iter()
                .map(String::from)
                .collect(),
            saved: Vec::new(),
        }
    }

    fn rename_set(&self, names: &[&str]) -> Request {
        Request::RenameSet {
            names: names.concat().into(),
            lengths: names.iter().map(|name| name.len() as u64).collect(),
            time: self.time,
        }
    }

    fn get_touching(&self, name: &'static str) -> Work {
        let copy = self.folder.file("copy");
        Work {
            words: ["get", name, "--touch", "--as", copy.to_str().unwrap()]
                .map(String::from)
                .to_vec(),
            calls: vec![Request::Read {
                name: name.into(),
                offset: 0,
                count: 0,
                time: self.time,
            }],
            saved: Vec::new(),
        }
    }

    /// A file grows by at most a piece at a time.
    fn resize(&self, name: &'static str, size: u64) -> Work {
        let mut calls = Vec::new();
        let mut reached = self.file(name).expect("it is there").bytes.len() as u64;
        while reached != size {
            reached = size.min(reached + PIECE);
            calls.push(Request::Resize {
                name: name.into(),
                size: reached,
                time: self.time,
            });
        }
        Work {
            words: ["resize", name, &size.to_string()]
                .map(String::from)
                .to_vec(),
            calls,
            saved: Vec::new(),
        }
    }

    /// The contents in pieces, from the start of the file on.
    fn writes(&self, name: &str, contents: &[u8]) -> Vec<Request> {
        let pieces = contents.chunks(PIECE as usize).enumerate();
        pieces
            .map(|(i, data)| Request::Write {
                name: name.into(),
                offset: i as u64 * PIECE,
                data: data.to_vec(),
                time: self.time,
            })
            .collect()
    }

    /// What a put that was killed has left is removed by the next one.
    fn removal(&self, beside: &str) -> Vec<Request> {
        let time = self.time;
        let left = self.file(beside).map(|file| Request::Delete {
            name: file.name.clone(),
            time,
        });
        left.into_iter().collect()
    }

    /// A put beside and the rename.
    fn save(&mut self, name: &'static str, size: u64) -> Work {
        let contents = self.draw.bytes(size as usize);
        let file = self.folder.write(name, &contents);
        let beside = format!("{name}.goofs-saving");
        let files = self.ledger.slots().iter().flatten();
        let greatest = files.map(|file| file.id).max().unwrap_or(1);
        let mut calls = self.removal(&beside);
        calls.push(Request::Create {
            name: beside.clone().into(),
            id: greatest.max(1) + 1,
            mode: 0o644,
            time: self.time,
        });
        calls.extend(self.writes(&beside, &contents));
        calls.push(Request::Rename {
            old: beside.into(),
            new: name.into(),
            time: self.time,
        });
        Work {
            words: vec!["put".to_string(), file.to_str().unwrap().to_string()],
            calls,
            saved: vec![(name, contents)],
        }
    }

    /// Three files beside, and then their renames in one call. What was left goes first.
    fn save_together(&mut self) -> Work {
        let names = &SMALL[..3];
        let besides = Vec::from_iter(names.iter().map(|name| format!("{name}.goofs-saving")));
        let files = self.ledger.slots().iter().flatten();
        let greatest = files.map(|file| file.id).max().unwrap_or(1).max(1);
        let mut words = vec!["put".to_string(), "--together".to_string()];
        let mut calls: Vec<Request> = besides
            .iter()
            .flat_map(|beside| self.removal(beside))
            .collect();
        let (mut saved, mut renames) = (Vec::new(), Vec::new());
        for ((name, beside), id) in names.iter().zip(&besides).zip(greatest + 1..) {
            let size = self.draw.between(1, 3_000);
            let contents = self.draw.bytes(size as usize);
            let file = self.folder.write(name, &contents);
            words.push(file.to_str().unwrap().to_string());
            calls.push(Request::Create {
                name: beside.clone().into(),
                id,
                mode: 0o644,
                time: self.time,
            });
            calls.extend(self.writes(beside, &contents));
            saved.push((*name, contents));
            renames.extend([&beside[..], name]);
        }
        calls.push(self.rename_set(&renames));
        Work {
            words,
            calls,
            saved,
        }
    }

    fn put_in_place(&mut self, name: &'static str, size: u64) -> Work {
        let contents = self.draw.bytes(size as usize);
        let file = self.folder.write(name, &contents);
        let mut calls = self.removal(&format!("{name}.goofs-saving"));
        calls.extend(self.writes(name, &contents));
        if self.file(name).expect("it is there").bytes.len() as u64 > size {
            calls.push(Request::Resize {
                name: name.into(),
                size,
                time: self.time,
            });
        }
        let words = ["put", file.to_str().unwrap(), "--in-place"];
        Work {
            words: words.map(String::from).to_vec(),
            calls,
            saved: Vec::new(),
        }
    }
}

fn rm(name: &'static str, time: u64) -> Work {
    Work {
        words: ["rm", name].map(String::from).to_vec(),
        calls: vec![Request::Delete {
            name: name.into(),
            time,
        }],
        saved: Vec::new(),
    }
}

/// Runs the command for so long and kills it, if it hasn't ended by itself. Gives whether it was
/// killed.
fn killed_after(moment: Duration, card: &Path, words: &[String]) -> bool {
    let mut child = start(
        Command::new(env!("CARGO_BIN_EXE_goofs"))
            .arg(&words[0])
            .arg(card)
            .args(&words[1..])
            .stdin(Stdio::null()),
    );
    thread::sleep(moment);
    child.kill().expect("it is killed, or has ended");
    let status = child.wait().unwrap();
    match status.signal() {
        Some(signal) => assert_eq!(signal, SIGKILL, "{words:?}"),
        None => assert_eq!(status.code(), Some(0), "{words:?}"),
    }
    status.signal().is_some()
}

/// The ledger after the first calls, and after a cut one behind them if that is what the image shows,
/// with the number of whole calls. The error is the last difference.
fn found(ledger: &Ledger, calls: &[Request], image: &[u8]) -> Result<(usize, Ledger), String> {
    let mut ledger = ledger.clone();
    let mut last = String::new();
    for done in 0..=calls.len() {
        match ledger.compare(image) {
            Ok(()) => return Ok((done, ledger)),
            Err(difference) => last = difference,
        }
        let Some(call) = calls.get(done) else {
            break;
        };
        // Data sectors in the place of old ones may have landed before the start mark.
        if let Some(cut) = landed(&ledger, call, image) {
            let mut ledger = ledger.clone();
            ledger.cut_call(call, LENT, &cut);
            if ledger.compare(image).is_ok() {
                return Ok((done, ledger));
            }
        }
        assert_eq!(ledger.call(call, LENT).answer.code(), 0, "{call:?}");
    }
    Err(last)
}

/// Which data sectors of a write the image shows, as the oracle reads it.
fn landed(ledger: &Ledger, call: &Request, image: &[u8]) -> Option<CutReport> {
    let Request::Write {
        name, offset, data, ..
    } = call
    else {
        return None;
    };
    let mut now = vec![0; data.len()];
    let count = data.len() as u64;
    let mut list = [0; 9 * RECORD];
    let answer = oracle::read(image, name, *offset, count, 0, &mut now, &mut list);
    if answer.code != 0 {
        return None;
    }
    now.truncate(answer.count as usize);
    let old = ledger.slots().iter().flatten();
    let old = &old.into_iter().find(|file| file.name == *name)?.bytes[*offset as usize..];
    let sectors = now.chunks(SECTOR).enumerate();
    let data_sectors = sectors
        .filter(|(i, sector)| {
            let at = i * SECTOR;
            old.get(at..at + sector.len()) != Some(sector)
        })
        .map(|(i, _)| i)
        .collect();
    Some(CutReport {
        start_mark: false,
        data_sectors,
    })
}

/// How often a kill came so late that recovery had something to do, between two calls of a command,
/// and within a write that put bytes in the place of old ones; and, of the puts beside, after how many
/// kills the name stood for the old file (or for none), and for the new one.
#[derive(Clone, Copy, Debug, Default)]
struct Counts {
    recovered: u64,
    between: u64,
    within: u64,
    old: u64,
    new: u64,
}

/// So many kills of each kind on one card.
fn kills(seed: u64, mut most: [u64; 6]) -> Counts {
    let mut run = Run::new(seed);
    let mut counts = Counts::default();
    // The time of a command without a kill, by the number of its calls.
    let (mut first, mut each) = (Duration::ZERO, Duration::ZERO);
    for round in 0.. {
        let Some(kind) = most.iter().position(|left| *left > 0) else {
            break;
        };
        let work = run.work(KINDS[kind]);
        let words = &work.words;
        let calls = work.calls.len() as u32;
        // Now and then one goes through, and its time is taken.
        let was_killed = if round % 16 == 0 {
            let begun = Instant::now();
            let rest: Vec<&str> = words[1..].iter().map(String::as_str).collect();
            good(&words[0], &run.card, &rest);
            match calls {
                0 | 1 => first = begun.elapsed(),
                _ => each = begun.elapsed() / calls,
            }
            false
        } else {
            let longest = (first + each * calls).max(Duration::from_millis(2));
            let moment = run.draw.below(longest.as_nanos() as u64);
            killed_after(Duration::from_nanos(moment), &run.card, words)
        };
        most[kind] -= u64::from(was_killed);
        let was_cut = good("recover", &run.card, &[]).starts_with("recovered");
        assert!(was_killed || !was_cut, "KILL_SEED={seed}: {words:?}");

        let image = fs::read(&run.card).unwrap();
        let check = oracle::check(&image);
        assert_eq!(check.code, 0, "KILL_SEED={seed}: {words:?}: {check:?}");
        let (done, ledger) = found(&run.ledger, &work.calls, &image)
            .unwrap_or_else(|difference| panic!("KILL_SEED={seed}: {words:?}: {difference}"));
        let is_whole = done == work.calls.len();
        assert!(was_killed || is_whole, "KILL_SEED={seed}: {words:?}");
        let mut whole = run.ledger.clone();
        for call in &work.calls[..done] {
            whole.call(call, LENT);
        }
        let files_of = |run: &Run| {
            let files = work
                .saved
                .iter()
                .map(|(name, _)| run.file(name).map(|file| file.bytes.clone()));
            Vec::from_iter(files)
        };
        let old = files_of(&run);
        counts.recovered += u64::from(was_cut);
        counts.between += u64::from(done > 0 && !is_whole);
        counts.within += u64::from(whole != ledger);
        run.ledger = ledger;
        // In one sentence what the ledger says of a put: never a mixture, never a lost file.
        if !work.saved.is_empty() {
            let now = files_of(&run);
            let is_new = now
                .iter()
                .zip(&work.saved)
                .all(|(now, (_, new))| now.as_ref() == Some(new));
            assert!(is_new || now == old, "KILL_SEED={seed}: {words:?}");
            counts.new += u64::from(was_killed && is_new);
            counts.old += u64::from(was_killed && !is_new);
        }
    }
    counts
}

#[test]
fn a_thousand_kills() {
    let seed = seed();
    println!("KILL_SEED={seed}");
    // The first cards take what is left over.
    let share = |all: u64, card: u64| all / CARDS + u64::from(card < all % CARDS);
    let counts = thread::scope(|scope| {
        let cards: Vec<_> = (0..CARDS)
            .map(|card| {
                let most = KILLS.map(|all| share(all, card));
                scope.spawn(move || kills(seed.wrapping_add(card), most))
            })
            .collect();
        let counts = cards.into_iter().map(|run| run.join());
        counts
            .map(|counts| counts.expect("the files are as the rules say"))
            .collect::<Vec<_>>()
    });
    let sum = |count: fn(&Counts) -> u64| counts.iter().map(count).sum::<u64>();
    let (recovered, between) = (sum(|c| c.recovered), sum(|c| c.between));
    let (within, old, new) = (sum(|c| c.within), sum(|c| c.old), sum(|c| c.new));
    println!(
        "{recovered} recovered, {between} between two calls, {within} within a write in place; \
         of {} kills of puts {old} left the old file or none, {new} the new one",
        old + new
    );
    assert_eq!(old + new, 1_000);
    // Else the moments were too early or too late to show anything.
    assert!(
        recovered > 0 && between > 0 && old > 0 && new > 0,
        "KILL_SEED={seed}: {counts:?}"
    );
}
