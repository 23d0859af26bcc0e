//! Files of a card copied into a folder, with the names of `escape`: nothing there is written over
//! unless that is asked for, and then it is said.

use std::collections::BTreeSet;
use std::ffi::OsStr;
use std::fmt::Write;
use std::fs::{self, File};
use std::io::ErrorKind;
use std::os::unix::ffi::OsStrExt;
use std::os::unix::fs::MetadataExt;
use std::path::{Path, PathBuf};
use std::process;

use goofs::image::{Entry, Image};

use crate::copying::{contents, may_be_written};
use crate::escape;
use crate::failure::{of_file, quoted, Failure};
use crate::output::{folder_of, save, save_new, sync_folder, Kept};
use crate::picture::counted;
use crate::progress::Progress;
use crate::text;

/// So many names are shown of a longer list.
const SHOWN: usize = 5;

/// Where the files go.
pub struct Targets<'t> {
    folder: &'t OsStr,
    files: Vec<Target<'t>>,
}

struct Target<'t> {
    file: &'t Entry,
    path: PathBuf,
    is_escaped: bool,
    /// Whether something stands there, which is replaced.
    is_there: bool,
}

impl<'t> Targets<'t> {
    /// Finds out, before a byte is written, what can't be or would be written over.
    pub fn new(
        card: &OsStr,
        folder: &'t OsStr,
        files: &'t [Entry],
        replace: bool,
    ) -> Result<Targets<'t>, Failure> {
        match fs::metadata(folder) {
            Ok(found) if !found.is_dir() => {
                return Err(of_file(folder)(ErrorKind::NotADirectory.into()))
            }
            Err(error) if error.kind() != ErrorKind::NotFound => {
                return Err(of_file(folder)(error))
            }
            _ => (),
        }
        let has_signs =
            |file: &Entry| escape::path(&file.name, false) != escape::path(&file.name, true);
        let is_strict = files.iter().any(has_signs) && !takes_signs(folder);
        let targets = files.iter().map(|file| {
            let escaped = escape::path(&file.name, is_strict);
            let path = Path::new(folder).join(&escaped);
            let is_there = fs::symlink_metadata(&path).is_ok();
            if is_there {
                may_be_written(card, path.as_os_str())?;
            }
            Ok(Target {
                file,
                path,
                is_escaped: escaped.as_os_str().as_bytes() != file.name,
                is_there,
            })
        });
        let files = targets.collect::<Result<Vec<_>, Failure>>()?;
        let there: Vec<&Target> = files.iter().filter(|target| target.is_there).collect();
        if !there.is_empty() && !replace {
            return Err(already_there(folder, &there));
        }
        one_file_each(&there)?;
        Ok(Targets { folder, files })
    }

    /// Copies the files, and gives what is to be said of them.
    pub fn copy(&self, card: &OsStr, image: &Image, preserve: bool) -> Result<String, Failure> {
        let all = self.files.iter().map(|target| target.file.size).sum();
        let mut progress = Progress::new("bytes copied", all);
        self.make_folder()?;
        let mut folders = BTreeSet::from([Path::new(self.folder)]);
        let mut outcome = Ok(());
        for (i, target) in self.files.iter().enumerate() {
            outcome = contents(card, image, target.file, &mut progress)
                .and_then(|contents| target.save(card, self.folder, &contents, preserve))
                .map_err(|failure| failure.beside_others(self.so_far(i)));
            if outcome.is_err() {
                break;
            }
            // A long name has folders within folders.
            let above = target.path.ancestors().skip(1);
            folders.extend(above.take_while(|above| *above != Path::new(self.folder)));
        }
        drop(progress);
        // Once for all files in it, also if a later one has failed.
        for folder in folders {
            let synced = File::open(folder).and_then(|folder| folder.sync_all());
            outcome = outcome.and(synced.map_err(of_file(folder.as_os_str())));
        }
        outcome?;
        let mut said = String::new();
        for target in &self.files {
            let path = quoted(target.path.as_os_str());
            if target.is_escaped {
                let _ = writeln!(said, "{} is {path}", text::word(&target.file.name));
            }
            if target.is_there {
                let _ = writeln!(said, "replaced: {path}");
            }
        }
        let _ = writeln!(
            said,
            "copied: {}, {}, to {}",
            counted(self.files.len() as u64, "file"),
            counted(all, "byte"),
            quoted(self.folder)
        );
        Ok(said)
    }

    /// The folder itself is made, what it stands in is not.
    fn make_folder(&self) -> Result<(), Failure> {
        match fs::create_dir(self.folder) {
            Err(error) if error.kind() == ErrorKind::AlreadyExists => Ok(()),
            made => made.and_then(|()| sync_folder(Path::new(self.folder))),
        }
        .map_err(of_file(self.folder))
    }

    /// What became of the others, of which so many are done.
    fn so_far(&self, done: usize) -> String {
        let all = self.files.len();
        let next = text::word(&self.files[done].file.name);
        match done.checked_sub(1) {
            None => format!("Copied: none of {all} files."),
            Some(last) => format!(
                "Copied: {done} of {all} files, in the order of goofs ls up to {}; not copied: {next} and \
                 all behind it. To go on: the same command with --replace.",
                text::word(&self.files[last].file.name)
            ),
        }
    }
}

impl Target<'_> {
    fn save(
        &self,
        card: &OsStr,
        folder: &OsStr,
        contents: &[u8],
        preserve: bool,
    ) -> Result<(), Failure> {
        let path = self.path.as_os_str();
        let kept = preserve.then(|| Kept::of(self.file));
        // A long name has folders of its own.
        let parts = self
            .path
            .parent()
            .filter(|parent| *parent != Path::new(folder));
        if let Some(parts) = parts {
            fs::create_dir_all(parts).map_err(of_file(parts.as_os_str()))?;
        }
        match self.is_there {
            true => save(path, contents, kept),
            false => save_new(path, contents, kept).map_err(|failure| match failure {
                Failure::File { error, .. } if error.kind() == ErrorKind::AlreadyExists => {
                    self.came_meanwhile(card)
                }
                other => other,
            }),
        }
    }

    /// Where a file system takes large and small letters for the same, two names are one.
    fn came_meanwhile(&self, card: &OsStr) -> Failure {
        let (card, name) = (quoted(card), text::word(&self.file.name));
        Failure::Other(format!(
            "{} is there now and was not before: another program made it, or its disk takes large and small \
             letters for the same. It stays as it is. Nothing was changed on the card.\n\
             Next: copy this file alone, with another name: goofs get {card} --as FILE -- {name}; and those \
             that are not copied yet, by their names: goofs get {card} NAME... --as FOLDER.",
            quoted(self.path.as_os_str())
        ))
    }
}

/// Whether the disk of the folder takes all signs in names: a file with them is made and removed.
fn takes_signs(folder: &OsStr) -> bool {
    let folder = Path::new(folder);
    let there = match folder.is_dir() {
        true => folder,
        false => folder_of(folder),
    };
    let tried = there.join(format!(".goofs-{}-{}.", process::id(), escape::SIGNS));
    match File::create_new(&tried) {
        Ok(_) => {
            // Best effort; it is empty.
            let _ = fs::remove_file(&tried);
            true
        }
        // If nothing can be written there, the copy says so.
        Err(error) => matches!(
            error.kind(),
            ErrorKind::NotFound
                | ErrorKind::PermissionDenied
                | ErrorKind::ReadOnlyFilesystem
                | ErrorKind::StorageFull
        ),
    }
}

fn already_there(folder: &OsStr, there: &[&Target]) -> Failure {
    let shown = there.iter().take(SHOWN);
    let shown: Vec<String> = shown
        .map(|target| quoted(target.path.as_os_str()))
        .collect();
    let more = match there.len().saturating_sub(SHOWN) {
        0 => String::new(),
        more => format!(" and {more} more"),
    };
    Failure::Other(format!(
        "{} would be written over: {}{more}. Nothing was copied, and nothing was changed.\n\
         Next: name another folder, which is made if it is not there; or add --replace to replace the \
         files in {}.",
        match there.len() {
            1 => "a file".to_string(),
            count => format!("{count} files"),
        },
        shown.join(" "),
        quoted(folder)
    ))
}

/// Two names may lead to one file: by a link, or where a file system does not tell large letters from
/// small ones. The second would write over the first.
fn one_file_each(there: &[&Target]) -> Result<(), Failure> {
    let mut seen: Vec<((u64, u64), &Target)> = Vec::new();
    for target in there {
        let Ok(found) = fs::metadata(&target.path) else {
            continue;
        };
        seen.push(((found.dev(), found.ino()), target));
    }
    seen.sort_by_key(|(file, _)| *file);
    for pair in seen.windows(2) {
        let [(one, first), (other, second)] = pair else {
            continue;
        };
        if one == other {
            return Err(Failure::Other(format!(
                "{} and {} are one file there. Nothing was copied, and nothing was changed.\n\
                 Next: name another folder, which is made if it is not there.",
                quoted(first.path.as_os_str()),
                quoted(second.path.as_os_str())
            )));
        }
    }
    Ok(())
}

#[cfg(test)]
mod tests {
    use super::*;
    use std::env;

    /// What comes there after it was looked at is not written over.
    #[test]
    fn a_file_that_came_meanwhile() {
        let path = env::temp_dir().join(format!("goofs-meanwhile-{}", process::id()));
        let file = Entry {
            index: 0,
            name: b"-Gain".to_vec(),
            size: 3,
            version: 0,
            id: 1,
            mode: 0o644,
            access_time: 0,
            change_time: 0,
        };
        let target = Target {
            file: &file,
            path: path.clone(),
            is_escaped: false,
            is_there: false,
        };
        fs::write(&path, b"mine").unwrap();
        let folder = env::temp_dir();
        let saved = target.save(OsStr::new("card"), folder.as_os_str(), b"new", false);
        let said = saved.unwrap_err().to_string();
        assert!(said.contains("goofs get card --as FILE -- -Gain"), "{said}");
        assert_eq!(fs::read(&path).unwrap(), b"mine");
        fs::remove_file(&path).unwrap();
        target
            .save(OsStr::new("card"), folder.as_os_str(), b"new", false)
            .unwrap();
        assert_eq!(fs::read(&path).unwrap(), b"new");
        fs::remove_file(&path).unwrap();
    }
}
