//! Rename: an entry gets a new name; a file that had it is deleted in the same transaction.

use crate::answers::{code, ChangeAnswer, Refusal};
use crate::changes::{answer, change_entry, changed_root, freed_table, transaction};
use crate::judge::{open_sound, Volume};
use crate::layout::{Edition, FileIndex, SECTOR};
use crate::lists::Target;

/// Gives the file another name, which may be another file's: that one is then deleted.
pub fn rename(image: &[u8], old: &[u8], new: &[u8], time: u64, list: &mut [u8]) -> ChangeAnswer {
    answer(rename_file(image, old, new, time, list))
}

fn rename_file(
    image: &[u8],
    old: &[u8],
    new: &[u8],
    time: u64,
    list: &mut [u8],
) -> Result<u64, Refusal> {
    let sound = open_sound(image)?;
    let edition = sound.edition();
    if !edition.name_is_good(old) || !edition.new_name_is_good(new) || !edition.time_fits(time) {
        return Err(Refusal::new(code::BAD_ARGUMENT));
    }
    let (file, _) = sound.find(old).ok_or(Refusal::new(code::NOT_THERE))?;
    if old == new {
        return Ok(0);
    }
    let volume = sound.volume();
    let mut targets = vec![
        changed_root(volume, time),
        renamed_entry(volume, file, new, time),
    ];
    if let Some((replaced, _)) = sound.find(new) {
        targets.push(Target {
            sector: volume.geometry().entry_at(replaced),
            contents: [0; SECTOR],
        });
        targets.extend(freed_table(volume, sound.extents_of(replaced)));
    }
    targets.sort_unstable_by_key(|target| target.sector);
    transaction(volume, &targets, list)
}

fn renamed_entry(volume: Volume, file: FileIndex, name: &[u8], time: u64) -> Target {
    let mut contents = *volume.entry(file).sector;
    rename_entry(&mut contents, volume.edition(), name, time);
    Target {
        sector: volume.geometry().entry_at(file),
        contents,
    }
}

/// Gives an entry a new name, with zeros after it.
pub(crate) fn rename_entry(contents: &mut [u8; SECTOR], edition: Edition, name: &[u8], time: u64) {
    change_entry(contents, edition, time);
    contents[edition.name()..].fill(0);
    edition.put_name(contents, name);
}
