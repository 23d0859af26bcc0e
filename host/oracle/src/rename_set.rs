//! A set of renames in one transaction: applied in order, each sees the earlier ones.

use std::collections::BTreeMap;

use crate::answers::{code, ChangeAnswer, Refusal};
use crate::changes::{answer, change_root, freed_table, judge_time, transaction};
use crate::judge::{open_sound, SoundVolume};
use crate::layout::{Entry, Extent, FileIndex, SECTOR};
use crate::lists::Target;
use crate::rename::rename_entry;

const MOST_RENAMES: usize = 8;

/// Up to eight renames. The names stand one after the other, old and new in turn, with their
/// lengths beside them. With 8 or 9 the place is that of the rename, counted from 0.
pub fn rename_set(
    image: &[u8],
    names: &[u8],
    lengths: &[u64],
    time: u64,
    list: &mut [u8],
) -> ChangeAnswer {
    answer(rename_files(image, names, lengths, time, list))
}

fn rename_files(
    image: &[u8],
    names: &[u8],
    lengths: &[u64],
    time: u64,
    list: &mut [u8],
) -> Result<u64, Refusal> {
    let sound = open_sound(image)?;
    let renames = split_names(names, lengths).ok_or(Refusal::new(code::BAD_ARGUMENT))?;
    judge_time(&sound, time)?;
    let mut renamed = Renamed::new(&sound, time);
    for (place, (old, new)) in (0..).zip(renames) {
        let refused_here = |code| Refusal {
            place,
            ..Refusal::new(code)
        };
        renamed.rename(old, new).map_err(refused_here)?;
    }
    let targets = renamed.targets();
    if targets.is_empty() {
        return Ok(0);
    }
    transaction(sound.volume(), &targets, list)
}

/// Old and new name of each rename; nothing if there are none, too many or half ones, or the names
/// don't end where the last length does.
fn split_names<'n>(names: &'n [u8], lengths: &[u64]) -> Option<Vec<(&'n [u8], &'n [u8])>> {
    if lengths.is_empty() || lengths.len() > 2 * MOST_RENAMES || !lengths.len().is_multiple_of(2) {
        return None;
    }
    let mut rest = names;
    let mut parts = Vec::new();
    for length in lengths {
        let (name, later) = rest.split_at_checked(usize::try_from(*length).ok()?)?;
        parts.push(name);
        rest = later;
    }
    let pairs = parts.chunks_exact(2).map(|pair| (pair[0], pair[1]));
    rest.is_empty().then(|| pairs.collect())
}

/// The sectors that the renames so far changed, each with its last contents.
struct Renamed<'s, 'i> {
    sound: &'s SoundVolume<'i>,
    time: u64,
    root: Option<[u8; SECTOR]>,
    entries: BTreeMap<FileIndex, [u8; SECTOR]>,
    freed: Vec<Extent>,
}

impl<'s, 'i> Renamed<'s, 'i> {
    fn new(sound: &'s SoundVolume<'i>, time: u64) -> Renamed<'s, 'i> {
        Renamed {
            sound,
            time,
            root: None,
            entries: BTreeMap::new(),
            freed: Vec::new(),
        }
    }

    /// The file that has this name now.
    fn find(&self, name: &[u8]) -> Option<FileIndex> {
        let edition = self.sound.edition();
        let mut entries = self.sound.volume().entries();
        let has_name = |file: &FileIndex, old: Entry| {
            let sector = self.entries.get(file).unwrap_or(old.sector);
            let entry = Entry { sector, edition };
            entry.is_occupied() && entry.name() == Some(name)
        };
        let found = entries.find(|(file, old)| has_name(file, *old));
        found.map(|(file, _)| file)
    }

    fn rename(&mut self, old: &[u8], new: &[u8]) -> Result<(), u64> {
        let volume = self.sound.volume();
        let edition = volume.edition();
        if !edition.name_is_good(old) || !edition.new_name_is_good(new) {
            return Err(code::BAD_ARGUMENT);
        }
        let file = self.find(old).ok_or(code::NOT_THERE)?;
        if old == new {
            return Ok(());
        }
        if let Some(replaced) = self.find(new) {
            self.entries.insert(replaced, [0; SECTOR]);
            self.freed.extend(self.sound.extents_of(replaced));
        }
        let entry = self.entries.entry(file);
        let entry = entry.or_insert(*volume.entry(file).sector);
        rename_entry(entry, edition, new, self.time);
        let root = self.root.get_or_insert(*volume.root());
        change_root(root, edition, self.time);
        Ok(())
    }

    /// In rising order.
    fn targets(&self) -> Vec<Target> {
        let volume = self.sound.volume();
        let geometry = volume.geometry();
        let root = self.root.map(|contents| Target {
            sector: geometry.root_at(),
            contents,
        });
        let entries = self.entries.iter().map(|(file, contents)| Target {
            sector: geometry.entry_at(*file),
            contents: *contents,
        });
        let table = freed_table(volume, &self.freed);
        root.into_iter().chain(entries).chain(table).collect()
    }
}
