//! Saving a file so that after a cut its name stands for the old file or for the new one, each whole.
//! The new file is written under the name beside; when it is whole, a rename gives it the name and
//! deletes the old file, in one change. Several files that belong together are all written beside, and
//! then take their names in one change: after a cut all names stand for the old files, or all for the
//! new ones.

use crate::change::{Change, Rename};
use crate::error::{Error, Refusal};
use crate::image::{Entry, Image, LONGEST_TRANSFER};
use crate::names;

/// The mode of a new file, where none is given.
pub const MODE: u32 = 0o644;

/// A file to be saved, and what stands on the volume before that.
#[derive(Clone, Debug)]
pub struct Save<'s> {
    name: &'s [u8],
    beside: Vec<u8>,
    /// The file that has the name.
    pub old: Option<Entry>,
    /// What a save that was cut has left beside. It is removed first.
    pub leftover: Option<Entry>,
    /// Id, mode and time of the new file. While both are there it needs an id of its own.
    pub id: u64,
    pub mode: u32,
    pub time: u64,
}

impl<'s> Save<'s> {
    /// Without a mode the new file has that of the old one.
    pub fn new(
        image: &Image,
        name: &'s [u8],
        id: u64,
        mode: Option<u32>,
        time: u64,
    ) -> Result<Save<'s>, Error> {
        if names::is_beside(name) {
            return Err(Error::NameBeside);
        }
        let beside = names::beside(name, image.summary().edition);
        let (mut old, mut leftover) = (None, None);
        for entry in image.entries()? {
            if entry.name == name {
                old = Some(entry);
            } else if entry.name == beside {
                leftover = Some(entry);
            }
        }
        let old_mode = old.as_ref().map(|entry| entry.mode);
        Ok(Save {
            name,
            beside,
            old,
            leftover,
            id,
            mode: mode.or(old_mode).unwrap_or(MODE),
            time,
        })
    }

    pub fn name(&self) -> &'s [u8] {
        self.name
    }

    /// The name that the new file has until it is whole.
    pub fn beside(&self) -> &[u8] {
        &self.beside
    }

    /// Whether the volume refuses the name or the id for a new file, but for what the save itself
    /// clears away. Known before there are any contents.
    pub fn judge(&self, image: &Image) -> Result<(), Error> {
        match image.list_of(&self.create(self.name)) {
            // The old file has the name; the directory may have an entry when the leftover is gone.
            Ok(_) | Err(Error::Refused(Refusal::AlreadyThere | Refusal::DirectoryFull)) => (),
            Err(error) => return Err(error),
        }
        let leftover = self.leftover.as_ref().map(|entry| entry.id);
        let mut ids = image.entries()?.into_iter().map(|entry| entry.id);
        let is_taken =
            image.root().id == self.id || leftover != Some(self.id) && ids.any(|id| id == self.id);
        match is_taken {
            true => Err(Refusal::AlreadyThere.into()),
            false => Ok(()),
        }
    }

    /// The changes of the save. A new file that is empty is one change and needs no name beside.
    pub fn changes<'c>(&'c self, contents: &'c [u8]) -> Vec<Change<'c>> {
        let is_one_change = self.old.is_none() && contents.is_empty();
        let name = match is_one_change {
            true => self.name,
            false => &self.beside,
        };
        let mut changes = Vec::from_iter(self.removal());
        changes.push(self.create(name));
        changes.extend(self.writes(name, contents));
        if !is_one_change {
            changes.push(Change::Rename {
                old: &self.beside,
                new: self.name,
                time: self.time,
            });
        }
        changes
    }

    /// The rename that ends the save: the name beside, and the name.
    pub fn rename(&self) -> Rename<'_> {
        (&self.beside, self.name)
    }

    /// The changes that write over the old file instead, with its id and mode. A cut leaves a part of
    /// them: some sectors old and some new, or another size than either file's. A new file may be
    /// there and not be whole.
    pub fn changes_in_place<'c>(&'c self, contents: &'c [u8]) -> Vec<Change<'c>> {
        let (name, size) = (self.name, contents.len() as u64);
        let mut changes = Vec::from_iter(self.removal());
        if self.old.is_none() {
            changes.push(self.create(name));
        }
        changes.extend(self.writes(name, contents));
        if self.old.as_ref().is_some_and(|old| size < old.size) {
            let time = self.time;
            changes.push(Change::Resize { name, size, time });
        }
        changes
    }

    /// What a save that was cut has left beside is removed.
    fn removal(&self) -> Option<Change<'_>> {
        self.leftover.as_ref().map(|entry| Change::Delete {
            name: &entry.name,
            time: self.time,
        })
    }

    fn create<'c>(&self, name: &'c [u8]) -> Change<'c> {
        Change::Create {
            name,
            id: self.id,
            mode: self.mode,
            time: self.time,
        }
    }

    /// The contents in pieces, from the start of the file on.
    fn writes<'c>(
        &self,
        name: &'c [u8],
        contents: &'c [u8],
    ) -> impl Iterator<Item = Change<'c>> + 'c {
        let time = self.time;
        let pieces = contents.chunks(LONGEST_TRANSFER).enumerate();
        pieces.map(move |(i, data)| Change::Write {
            name,
            offset: (i * LONGEST_TRANSFER) as u64,
            data,
            time,
        })
    }
}

/// The changes that save these files, of which no two have one name beside, together: each is written
/// beside, a new and empty one too, and the last change is their `renames`. What cuts have left is
/// removed first, as the room is needed until the end.
pub fn changes_together<'c>(
    saves: impl Iterator<Item = (&'c Save<'c>, &'c [u8])> + Clone,
    renames: &'c [Rename<'c>],
    time: u64,
) -> Vec<Change<'c>> {
    let mut changes = Vec::from_iter(saves.clone().filter_map(|(save, _)| save.removal()));
    for (save, contents) in saves {
        changes.push(save.create(&save.beside));
        changes.extend(save.writes(&save.beside, contents));
    }
    changes.push(Change::RenameSet { renames, time });
    changes
}
