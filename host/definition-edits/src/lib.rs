//! Wrong definitions. Each edit changes one place of `crates/model`, well formed there, and is tried over a copy of the crates
//! that stand on the definitions alone. The toolchain's own must-fail edits check one crate, so they can't try these.
//!
//! An edit says which statement becomes false by it (`false:`), or, where no theorem can see it, what guards it instead
//! (`guard:`). Of the first kind a proof must fail. What is said of the second kind is read, not tried: whether some proof
//! happens to spell the changed text out says nothing of the statements.

use std::fmt;
use std::fs;
use std::path::{Path, PathBuf};
use std::process::Command;

/// One place of a definition file, and what stands there instead.
#[derive(Clone, Debug)]
pub struct Edit {
    pub name: String,
    pub file: String,
    old: String,
    new: String,
    /// A `use` line that the new text needs.
    import: Option<String>,
    pub seen: Seen,
    /// Tried by the gate, not only by `make mutants`.
    pub gate: bool,
}

#[derive(Clone, Debug)]
pub enum Seen {
    /// The statement that becomes false, and the crate that proves it.
    By {
        crate_name: String,
        statement: String,
    },
    /// What guards the definition where no theorem speaks of it.
    Guarded(String),
}

/// How an edit ended.
#[derive(Clone, Debug)]
pub enum Outcome {
    /// The first error stands here.
    Refused(String),
    Proved,
    /// The edit could not be tried, or an error stands outside the proofs.
    Broken(String),
}

impl fmt::Display for Outcome {
    fn fmt(&self, f: &mut fmt::Formatter<'_>) -> fmt::Result {
        match self {
            Outcome::Refused(place) => write!(f, "refused at {place}"),
            Outcome::Proved => write!(f, "PROVED"),
            Outcome::Broken(reason) => write!(f, "BROKEN: {reason}"),
        }
    }
}

fn repository() -> PathBuf {
    PathBuf::from(env!("CARGO_MANIFEST_DIR")).join("../..")
}

/// All edits: `edits/FILE.edits` has those of `crates/model/specs/FILE.antt`, parted by empty lines.
pub fn edits() -> Vec<Edit> {
    let folder = PathBuf::from(env!("CARGO_MANIFEST_DIR")).join("edits");
    let mut files: Vec<PathBuf> = fs::read_dir(&folder)
        .expect("the folder of edits is read")
        .map(|entry| entry.expect("an entry is read").path())
        .collect();
    files.sort();
    let mut edits = Vec::new();
    for path in files {
        let text = fs::read_to_string(&path).unwrap_or_else(|e| panic!("{}: {e}", path.display()));
        let stem = path
            .file_stem()
            .and_then(|s| s.to_str())
            .expect("a file name in ASCII");
        for block in text.split("\n\n").filter(|b| !b.trim().is_empty()) {
            edits.push(parse(stem, block));
        }
    }
    edits
}

/// `name:`, `old:`, `new:` and either `false: CRATE STATEMENT` or `guard:`, a line each; perhaps `use:`; `gate` alone on a line; '#' comments.
fn parse(stem: &str, block: &str) -> Edit {
    let field = |key: &str| {
        let prefix = format!("{key}: ");
        let mut lines = block.lines().filter_map(|l| l.strip_prefix(&prefix));
        let value = lines.next().map(str::to_string);
        assert!(
            lines.next().is_none(),
            "{stem}: two lines '{key}:' in\n{block}"
        );
        value
    };
    let needed =
        |key: &str| field(key).unwrap_or_else(|| panic!("{stem}: no line '{key}:' in\n{block}"));
    let seen = match (field("false"), field("guard")) {
        (Some(text), None) => {
            let (crate_name, statement) = text
                .split_once(' ')
                .unwrap_or_else(|| panic!("{stem}: 'false: CRATE STATEMENT' in\n{block}"));
            Seen::By {
                crate_name: crate_name.to_string(),
                statement: statement.to_string(),
            }
        }
        (None, Some(text)) => Seen::Guarded(text),
        _ => panic!("{stem}: either 'false:' or 'guard:' in\n{block}"),
    };
    Edit {
        name: needed("name"),
        file: format!("specs/{stem}.antt"),
        old: needed("old"),
        new: needed("new"),
        import: field("use"),
        seen,
        gate: block.lines().any(|l| l == "gate"),
    }
}

fn copy_folder(from: &Path, to: &Path) {
    fs::create_dir_all(to).expect("a folder is made");
    for entry in fs::read_dir(from).expect("a folder is read") {
        let entry = entry.expect("an entry is read");
        let target = to.join(entry.file_name());
        if entry.file_type().expect("an entry has a type").is_dir() {
            // What earlier checks kept is no part of the copy.
            if entry.file_name() != "must-fail" && entry.file_name() != "out" {
                copy_folder(&entry.path(), &target);
            }
        } else {
            fs::copy(entry.path(), target).expect("a file is copied");
        }
    }
}

/// What a source file declares: all but its `impl` blocks, each of which ends with the next brace at a line's start.
fn declarations(code: &str) -> String {
    let mut kept = String::new();
    let mut rest = code;
    while let Some(at) = rest.find("\nimpl ") {
        kept.push_str(&rest[..at + 1]);
        let block = &rest[at..];
        let end = block.find("\n}\n").expect("an impl block ends");
        rest = &block[end + 3..];
    }
    kept + rest
}

/// The definitions alone: `model` also has rules and numbers as code, whose contracts would fail before any statement does.
fn copy_definitions(to: &Path, with_proofs: bool) {
    let model = repository().join("crates/model");
    copy_folder(&model.join("specs"), &to.join("specs"));
    fs::create_dir_all(to.join("src")).expect("a folder is made");
    let code = fs::read_to_string(model.join("src/lib.rt")).expect("the declarations are read");
    fs::write(to.join("src/lib.rt"), declarations(&code)).expect("the declarations are written");
    if !with_proofs {
        return;
    }
    fs::create_dir_all(to.join("proofs")).expect("a folder is made");
    for entry in fs::read_dir(model.join("proofs")).expect("a folder is read") {
        let entry = entry.expect("an entry is read");
        if entry.file_type().expect("an entry has a type").is_file() {
            fs::copy(entry.path(), to.join("proofs").join(entry.file_name()))
                .expect("a file is copied");
        }
    }
}

impl Edit {
    /// The definition file with the edit made; the place must stand there exactly once.
    fn edited(&self) -> Result<String, String> {
        let path = repository().join("crates/model").join(&self.file);
        let text = fs::read_to_string(&path).map_err(|e| format!("{}: {e}", path.display()))?;
        match text.matches(&self.old).count() {
            1 => {
                let edited = text.replace(&self.old, &self.new);
                Ok(match &self.import {
                    Some(import) => edited.replacen("\nuse ", &format!("\nuse {import}\nuse "), 1),
                    None => edited,
                })
            }
            n => Err(format!("'{}' stands {n} times in {}", self.old, self.file)),
        }
    }

    /// Proves the crate that sees the edit over the edited definitions, in a folder of this worker's own. Of an edit that is only guarded,
    /// `safety`.
    pub fn try_it(&self, worker: usize) -> Outcome {
        let text = match self.edited() {
            Ok(text) => text,
            Err(reason) => return Outcome::Broken(reason),
        };
        let by = match &self.seen {
            Seen::By { crate_name, .. } => crate_name.as_str(),
            Seen::Guarded(_) => "safety",
        };
        let folder =
            std::env::temp_dir().join(format!("definition-edits-{}-{worker}", std::process::id()));
        let _ = fs::remove_dir_all(&folder);
        let crates = folder.join("crates");
        // The cases stand on the definitions alone.
        let laws = by != "cases";
        copy_definitions(&crates.join("model"), laws);
        copy_folder(&repository().join("crates").join(by), &crates.join(by));
        if laws {
            copy_folder(&repository().join("crates/laws"), &crates.join("laws"));
        }
        let list = if laws {
            format!("model:\nlaws: model\n{by}: model laws\n")
        } else {
            format!("model:\n{by}: model\n")
        };
        fs::write(folder.join("crates.txt"), list).expect("crates.txt is written");
        fs::write(folder.join("crates/model").join(&self.file), text).expect("the edit is written");

        let run = Command::new("rt")
            .args(["check", "--jobs", "1"])
            .current_dir(crates.join(by))
            .output()
            .expect("rt runs");
        let log = String::from_utf8_lossy(&run.stdout).into_owned()
            + &String::from_utf8_lossy(&run.stderr);
        let _ = fs::remove_dir_all(&folder);
        if run.status.success() {
            return Outcome::Proved;
        }
        match first_error(&log) {
            Some((name, line)) if line.starts_with("./proofs/") => {
                Outcome::Refused(place(name, line))
            }
            Some((_, line)) => Outcome::Broken(line.chars().take(300).collect()),
            None => Outcome::Broken("refused without an error".to_string()),
        }
    }

    /// It ended as it should.
    pub fn holds(&self, outcome: &Outcome) -> bool {
        match (&self.seen, outcome) {
            (_, Outcome::Broken(_)) => false,
            (Seen::By { .. }, outcome) => matches!(outcome, Outcome::Refused(_)),
            (Seen::Guarded(_), _) => true,
        }
    }
}

/// The first error of a check and the crate that it stands in: the check goes from the lowest crate up, and ends each with a line
/// `crate NAME: ..`, so that the next such line names it.
fn first_error(log: &str) -> Option<(&str, &str)> {
    let mut lines = log.lines();
    let error = lines.find(|l| l.contains(": error: "))?;
    let name = lines
        .find_map(|l| l.strip_prefix("crate ")?.split_once(": "))
        .map_or("?", |(name, _)| name);
    Some((name, error))
}

/// Crate, proof file and line of an error, as `safety/proofs/Create.antt:12:3`: from `./proofs/Create.antt:12:3: error: ..`.
fn place(name: &str, line: &str) -> String {
    let file = line.trim_start_matches("./");
    let file = file.split(": error").next().unwrap_or(file);
    format!("{name}/{file}").chars().take(60).collect()
}

/// Tries these edits, as many at a time as the machine has processors, and tells each as it ends. Gives how many ended as they
/// should and how many did not.
pub fn try_all(edits: &[Edit], tell: impl Fn(&Edit, &Outcome) + Sync) -> (usize, usize) {
    use std::sync::atomic::{AtomicUsize, Ordering};
    let (next, good) = (AtomicUsize::new(0), AtomicUsize::new(0));
    let workers = std::thread::available_parallelism().map_or(1, |n| n.get());
    std::thread::scope(|scope| {
        for worker in 0..workers {
            let (next, good, tell) = (&next, &good, &tell);
            scope.spawn(move || loop {
                let Some(edit) = edits.get(next.fetch_add(1, Ordering::Relaxed)) else {
                    return;
                };
                let outcome = edit.try_it(worker);
                if edit.holds(&outcome) {
                    good.fetch_add(1, Ordering::Relaxed);
                }
                tell(edit, &outcome);
            });
        }
    });
    let good = good.into_inner();
    (good, edits.len() - good)
}
