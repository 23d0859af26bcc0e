//! `make soak`: cases for some minutes, then the sums; at the first difference the line that replays it.

use std::fs::File;
use std::io::{stderr, IsTerminal, Read, Write};
use std::panic;
use std::process::ExitCode;
use std::thread;
use std::time::{Duration, Instant};

use oracle::testing::Compared;
use soak::case::Case;
use soak::proved::Proved;
use soak::soaking::{put, soak, Difference, Limit, Settings};
use soak::sums::{with_commas, Counts, Sums};

const USAGE: &str = "soak [--minutes M | --cases N] [--seed S] [--threads T]
soak --replay KIND:SEED";

enum Wanted {
    Soak(Settings),
    Replay(Case),
}

fn main() -> ExitCode {
    match wanted(std::env::args().skip(1)) {
        Ok(Wanted::Soak(settings)) => soaked(&settings),
        Ok(Wanted::Replay(case)) => replayed(case),
        Err(error) => {
            eprintln!("soak: {error}\n{USAGE}");
            ExitCode::from(2)
        }
    }
}

fn wanted(mut arguments: impl Iterator<Item = String>) -> Result<Wanted, String> {
    let mut seed = None;
    let mut limit = Limit::Time(Duration::from_secs(3_600));
    let mut threads = thread::available_parallelism().map_or(1, usize::from);
    while let Some(option) = arguments.next() {
        let value = arguments.next();
        let value = value.ok_or_else(|| format!("{option} wants a value"))?;
        let bad = |_| format!("{option} {value} is no number");
        match &option[..] {
            "--minutes" => limit = Limit::Time(minutes(&value)?),
            "--cases" => limit = Limit::Cases(value.parse().map_err(bad)?),
            "--seed" => seed = Some(value.parse().map_err(bad)?),
            "--threads" => threads = value.parse().map_err(bad)?,
            "--replay" => return Ok(Wanted::Replay(value.parse()?)),
            _ => return Err(format!("{option} is no option")),
        }
    }
    let seed = match seed {
        Some(seed) => seed,
        None => fresh_seed().map_err(|error| format!("no fresh seed: {error}"))?,
    };
    Ok(Wanted::Soak(Settings {
        seed,
        threads: threads.max(1),
        limit,
    }))
}

fn minutes(text: &str) -> Result<Duration, String> {
    let minutes: Option<f64> = text.parse().ok();
    let seconds = minutes.map(|minutes| Duration::try_from_secs_f64(60.0 * minutes));
    match seconds {
        Some(Ok(time)) => Ok(time),
        _ => Err(format!("{text} is no number of minutes")),
    }
}

fn fresh_seed() -> std::io::Result<u64> {
    let mut bytes = [0; 8];
    File::open("/dev/urandom")?.read_exact(&mut bytes)?;
    Ok(u64::from_be_bytes(bytes))
}

fn soaked(settings: &Settings) -> ExitCode {
    println!("seed {}, {} threads", settings.seed, settings.threads);
    // A difference is told below, once.
    panic::set_hook(Box::new(|_| {}));
    let mut progress = Progress::new();
    let outcome = soak(settings, &Proved, |sums, time| progress.at(sums, time));
    progress.clear();
    print!("{}", outcome.sums.table(outcome.time));
    let minutes = outcome.time.as_secs_f64() / 60.0;
    match outcome.difference {
        None => {
            println!("no difference in {minutes:.1} minutes");
            ExitCode::SUCCESS
        }
        Some(difference) => told(&difference),
    }
}

fn told(Difference { case, what }: &Difference) -> ExitCode {
    println!("difference: {what}");
    println!("make soak REPLAY={case}");
    ExitCode::FAILURE
}

/// The place in the source is told too.
fn replayed(case: Case) -> ExitCode {
    match put(case, &Proved, &Counts::default()) {
        Ok(()) => {
            println!("{case}: no difference");
            ExitCode::SUCCESS
        }
        Err(difference) => told(&difference),
    }
}

/// One line on a terminal that is written over, and nothing elsewhere.
struct Progress {
    next: Instant,
    terminal: bool,
}

const EACH: Duration = Duration::from_millis(500);

impl Progress {
    fn new() -> Progress {
        Progress {
            next: Instant::now() + EACH,
            terminal: stderr().is_terminal(),
        }
    }

    fn at(&mut self, sums: &Sums, time: Duration) {
        if !self.terminal || Instant::now() < self.next {
            return;
        }
        self.next = Instant::now() + EACH;
        let [cuts, recoveries, images] = [
            Compared::Cuts,
            Compared::CutRecoveries,
            Compared::DamagedImages,
        ]
        .map(|compared| with_commas(sums.of(compared)));
        let seconds = time.as_secs();
        let time = format!("{}:{:02}", seconds / 60, seconds % 60);
        self.show(&format!(
            "{time} {cuts} cuts, {recoveries} cut recoveries, {images} damaged images"
        ));
    }

    fn clear(&mut self) {
        if self.terminal {
            self.show("");
        }
    }

    /// A terminal that is gone is no difference.
    fn show(&self, line: &str) {
        let _ = write!(stderr(), "\r{line:<100}\r");
    }
}
