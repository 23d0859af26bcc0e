//! What a picture of a volume shows: the areas, who holds each extent, and the files with most of them.

use std::collections::BTreeMap;

use goofs::image::{Image, State, Summary};

/// Who holds an extent.
#[derive(Clone, Copy, Debug, PartialEq, Eq)]
pub enum Owner {
    Free,
    /// A file, by its place among the picture's files.
    File(usize),
    /// A directory entry that is no file.
    Nobody,
}

pub struct Picture {
    pub summary: Summary,
    /// Directory entries that are not free.
    pub entries: usize,
    pub owners: Vec<Owner>,
    pub files: Vec<Shown>,
    pub free: u64,
    pub nobody: u64,
}

/// A file with its extents.
pub struct Shown {
    pub name: Vec<u8>,
    pub size: u64,
    pub extents: u64,
    /// Runs of extents that follow one another.
    pub runs: u64,
}

impl Picture {
    pub fn of(image: &Image) -> Picture {
        let slots = image.slots();
        let entries = slots.len();
        let mut files = Vec::new();
        let mut places = BTreeMap::new();
        for slot in slots.into_iter().filter(|slot| slot.is_occupied) {
            places.insert(slot.entry.index, files.len());
            files.push(Shown {
                name: slot.entry.name,
                size: slot.entry.size,
                extents: 0,
                runs: 0,
            });
        }
        let owners: Vec<Owner> = image
            .holders()
            .iter()
            .map(|holder| match holder {
                None => Owner::Free,
                Some(holder) => match places.get(&holder.file) {
                    Some(place) => Owner::File(*place),
                    None => Owner::Nobody,
                },
            })
            .collect();
        let mut before = Owner::Free;
        for owner in &owners {
            if let Owner::File(place) = *owner {
                files[place].extents += 1;
                files[place].runs += u64::from(*owner != before);
            }
            before = *owner;
        }
        let count = |wanted| owners.iter().filter(|owner| **owner == wanted).count() as u64;
        Picture {
            summary: image.summary(),
            entries,
            free: count(Owner::Free),
            nobody: count(Owner::Nobody),
            owners,
            files,
        }
    }

    /// The files with most extents, at most so many, in the directory's order.
    pub fn largest(&self, most: usize) -> Vec<usize> {
        let with_extents = (0..self.files.len()).filter(|place| self.files[*place].extents > 0);
        let mut places = Vec::from_iter(with_extents);
        places.sort_by_key(|place| std::cmp::Reverse(self.files[*place].extents));
        places.truncate(most);
        places.sort_unstable();
        places
    }

    pub fn state(&self) -> &'static str {
        match self.summary.state {
            State::Clean => "clean",
            State::Waiting(_) => "waiting",
            State::Damaged => "damaged",
            State::Unfinished => "unfinished",
        }
    }

    /// The areas: name, first sector, sectors, and what is in it.
    pub fn areas(&self) -> [(&'static str, u64, u64, String); 6] {
        let s = &self.summary;
        let files = format!("{} of {} entries used", self.entries, s.files);
        let extents = format!("{} extents of {} bytes", s.extents, s.extent_bytes());
        let entries = format!("{} entries", s.extents);
        [
            ("superblock", 0, 1, self.state().to_string()),
            ("root", 1, 1, String::new()),
            ("directory", 2, s.files, files),
            (
                "journal",
                s.journal_at(),
                s.table_at() - s.journal_at(),
                String::new(),
            ),
            ("table", s.table_at(), s.table_sectors(), entries),
            ("data", s.data_at(), s.extents * s.extent_sectors, extents),
        ]
    }
}

/// So many of a thing.
pub fn counted(count: u64, what: &str) -> String {
    match count {
        1 => format!("1 {what}"),
        _ => format!("{count} {what}s"),
    }
}
