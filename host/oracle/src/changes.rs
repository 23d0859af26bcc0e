//! The changing calls: create, delete, resize and write. Each only reads the image and fills a lent
//! list; a refused call leaves the list as it was.

use crate::answers::{code, ChangeAnswer, Refusal};
use crate::calls::find_file;
use crate::judge::{open_sound, SoundVolume, Volume};
use crate::layout::{
    entry, get32, put16, put32, put64, root, Edition, Extent, FileIndex, Sector, LONGEST_SPAN,
    NO_FILE, SECTOR,
};
use crate::lists::{list_length, ListWriter, Target};
use crate::staging::Staging;

/// What a growing resize writes.
static ZEROS: [u8; LONGEST_SPAN as usize] = [0; LONGEST_SPAN as usize];

/// A new empty file in the lowest free entry.
pub fn create(
    image: &[u8],
    name: &[u8],
    id: u64,
    mode: u32,
    time: u64,
    list: &mut [u8],
) -> ChangeAnswer {
    answer(open_sound(image).and_then(|sound| create_file(&sound, name, id, mode, time, list)))
}

/// Frees the file's entry and its extents.
pub fn delete(image: &[u8], name: &[u8], time: u64, list: &mut [u8]) -> ChangeAnswer {
    answer(delete_file(image, name, time, list))
}

/// Gives the file another size; what is added at its end is zero.
pub fn resize(image: &[u8], name: &[u8], size: u64, time: u64, list: &mut [u8]) -> ChangeAnswer {
    answer(open_sound(image).and_then(|sound| {
        let volume = sound.volume();
        resize_file(&sound, name, size, time, list, |s| volume.sector(s))
    }))
}

/// Writes the data at an offset up to the size.
pub fn write(
    image: &[u8],
    name: &[u8],
    offset: u64,
    data: &[u8],
    time: u64,
    list: &mut [u8],
) -> ChangeAnswer {
    answer(open_sound(image).and_then(|sound| {
        let volume = sound.volume();
        write_file(&sound, name, offset, data, time, list, |s| volume.sector(s))
    }))
}

pub(crate) fn answer(length: Result<u64, Refusal>) -> ChangeAnswer {
    match length {
        Ok(length) => ChangeAnswer {
            length,
            ..ChangeAnswer::default()
        },
        Err(refusal) => refusal.into(),
    }
}

pub(crate) fn create_file(
    sound: &SoundVolume,
    name: &[u8],
    id: u64,
    mode: u32,
    time: u64,
    list: &mut [u8],
) -> Result<u64, Refusal> {
    let volume = sound.volume();
    let edition = sound.edition();
    if !edition.new_name_is_good(name) || id == 0 || !edition.time_fits(time) {
        return Err(Refusal::new(code::BAD_ARGUMENT));
    }
    let id_is_taken =
        id == volume.root_id() || volume.occupied_entries().any(|(_, entry)| entry.id() == id);
    if id_is_taken || sound.find(name).is_some() {
        return Err(Refusal::new(code::ALREADY_THERE));
    }
    let free = volume.entries().find(|(_, entry)| !entry.is_occupied());
    let (file, _) = free.ok_or(Refusal::new(code::DIRECTORY_FULL))?;

    let mut contents = [0; SECTOR];
    put16(&mut contents, entry::MARK, entry::OCCUPIED);
    put64(&mut contents, entry::ID, id);
    put32(&mut contents, entry::MODE, mode);
    edition.put_time(&mut contents, entry::ACCESS_TIME, time);
    edition.put_time(&mut contents, edition.entry_change_time(), time);
    edition.put_name(&mut contents, name);

    let new_entry = Target {
        sector: volume.geometry().entry_at(file),
        contents,
    };
    transaction(volume, &[changed_root(volume, time), new_entry], list)
}

fn delete_file(image: &[u8], name: &[u8], time: u64, list: &mut [u8]) -> Result<u64, Refusal> {
    let sound = open_sound(image)?;
    judge_time(&sound, time)?;
    let (file, _) = find_file(&sound, name)?;
    let volume = sound.volume();
    let freed_entry = Target {
        sector: volume.geometry().entry_at(file),
        contents: [0; SECTOR],
    };
    let mut targets = vec![changed_root(volume, time), freed_entry];
    targets.extend(freed_table(volume, sound.extents_of(file)));
    transaction(volume, &targets, list)
}

/// A resize of a sound volume; `old` gives a data sector's bytes.
pub(crate) fn resize_file<'s>(
    sound: &SoundVolume,
    name: &[u8],
    size: u64,
    time: u64,
    list: &mut [u8],
    old: impl FnMut(Sector) -> &'s [u8; SECTOR],
) -> Result<u64, Refusal> {
    judge_time(sound, time)?;
    let (file, entry) = find_file(sound, name)?;
    if size > entry.size() {
        let growth = size - entry.size();
        if growth > LONGEST_SPAN {
            return Err(Refusal::new(code::BAD_ARGUMENT));
        }
        return write_span(
            sound,
            file,
            entry.size(),
            &ZEROS[..growth as usize],
            time,
            list,
            old,
        );
    }
    if size == entry.size() {
        return Ok(0);
    }
    let volume = sound.volume();
    let kept = volume.geometry().extents_for(size) as usize;
    let mut targets = vec![resized_entry(volume, file, size, time)];
    targets.extend(freed_table(volume, &sound.extents_of(file)[kept..]));
    transaction(volume, &targets, list)
}

/// A write to a sound volume; `old` gives a data sector's bytes.
pub(crate) fn write_file<'s>(
    sound: &SoundVolume,
    name: &[u8],
    offset: u64,
    data: &[u8],
    time: u64,
    list: &mut [u8],
    old: impl FnMut(Sector) -> &'s [u8; SECTOR],
) -> Result<u64, Refusal> {
    judge_time(sound, time)?;
    if data.len() as u64 > LONGEST_SPAN {
        return Err(Refusal::new(code::BAD_ARGUMENT));
    }
    let (file, entry) = find_file(sound, name)?;
    if offset > entry.size() {
        return Err(Refusal::new(code::PAST_THE_END));
    }
    if data.is_empty() {
        return Ok(0);
    }
    write_span(sound, file, offset, data, time, list, old)
}

/// Writes data that is not empty at an offset up to the size: refusals 13 and 14, else the list.
fn write_span<'s>(
    sound: &SoundVolume,
    file: FileIndex,
    offset: u64,
    data: &[u8],
    time: u64,
    list: &mut [u8],
    mut old: impl FnMut(Sector) -> &'s [u8; SECTOR],
) -> Result<u64, Refusal> {
    let volume = sound.volume();
    let geometry = volume.geometry();
    let end = offset + data.len() as u64;
    let old_size = volume.entry(file).size();
    let new_size = old_size.max(end);

    let staging = Staging::of(volume)?;
    let mut targets = vec![resized_entry(volume, file, new_size, time)];
    let old_extents = sound.extents_of(file);
    let mut new_extent = None;
    // A span is no longer than an extent and starts at the size or before, so one more extent is
    // enough.
    if geometry.extents_for(new_size) > old_extents.len() as u64 {
        let needed = geometry.reserve_extents() as usize + 1;
        let free: Vec<Extent> = volume.free_extents().take(needed).collect();
        if free.len() < needed {
            return Err(Refusal::new(code::NO_ROOM));
        }
        let extent = free[0];
        let (sector, at) = geometry.table_place(extent);
        let mut contents = *volume.sector(sector);
        put16(&mut contents, at, file.0 as u16);
        put16(&mut contents, at + 2, old_extents.len() as u16);
        targets.push(Target { sector, contents });
        new_extent = Some(extent);
    }

    let sector_bytes = SECTOR as u64;
    let touched = offset / sector_bytes..end.div_ceil(sector_bytes);
    let data_sectors = (touched.end - touched.start) as usize;
    if list.len() < list_length(data_sectors, targets.len()) {
        return Err(Refusal::new(code::BUFFER_TOO_SHORT));
    }
    let mut writer = ListWriter::new(list);
    for in_file in touched {
        let offset_in_extents = (in_file / geometry.extent_sectors()) as usize;
        let extent = old_extents.get(offset_in_extents).copied().or(new_extent);
        let extent = extent.expect("the span ends within the file's extents");
        let sector = Sector(geometry.extent_at(extent).0 + in_file % geometry.extent_sectors());
        let contents = writer.add(sector);
        let sector_start = in_file * sector_bytes;
        let from = offset.max(sector_start);
        let to = end.min(sector_start + sector_bytes);
        if to - from < sector_bytes {
            contents.copy_from_slice(old(sector));
        }
        let new_bytes = &data[(from - offset) as usize..(to - offset) as usize];
        contents[(from - sector_start) as usize..(to - sector_start) as usize]
            .copy_from_slice(new_bytes);
    }
    writer.commit(volume, &staging, &targets);
    Ok(writer.filled())
}

/// Refusal 8 for a time that the volume's edition can't store.
pub(crate) fn judge_time(sound: &SoundVolume, time: u64) -> Result<(), Refusal> {
    if sound.edition().time_fits(time) {
        Ok(())
    } else {
        Err(Refusal::new(code::BAD_ARGUMENT))
    }
}

/// The list of a call without data sectors, or refusal 13 or 14.
pub(crate) fn transaction(
    volume: Volume,
    targets: &[Target],
    list: &mut [u8],
) -> Result<u64, Refusal> {
    let staging = Staging::of(volume)?;
    // Only a set of renames can have so many.
    if targets.len() > staging.sectors() {
        return Err(Refusal::new(code::NO_ROOM));
    }
    if list.len() < list_length(0, targets.len()) {
        return Err(Refusal::new(code::BUFFER_TOO_SHORT));
    }
    let mut writer = ListWriter::new(list);
    writer.commit(volume, &staging, targets);
    Ok(writer.filled())
}

/// The root after a create, delete or rename.
pub(crate) fn changed_root(volume: Volume, time: u64) -> Target {
    let mut contents = *volume.root();
    change_root(&mut contents, volume.edition(), time);
    Target {
        sector: volume.geometry().root_at(),
        contents,
    }
}

/// Raises the root's version and sets its change time.
pub(crate) fn change_root(contents: &mut [u8; SECTOR], edition: Edition, time: u64) {
    let version = get32(contents, root::VERSION).wrapping_add(1);
    put32(contents, root::VERSION, version);
    edition.put_time(contents, edition.root_change_time(), time);
}

/// The file's entry after a write or resize.
fn resized_entry(volume: Volume, file: FileIndex, size: u64, time: u64) -> Target {
    let mut target = changed_entry(volume, file, time);
    put64(&mut target.contents, entry::SIZE, size);
    target
}

/// The file's entry with its version raised and its change time set.
fn changed_entry(volume: Volume, file: FileIndex, time: u64) -> Target {
    let mut contents = *volume.entry(file).sector;
    change_entry(&mut contents, volume.edition(), time);
    Target {
        sector: volume.geometry().entry_at(file),
        contents,
    }
}

/// Raises an entry's version and sets its change time.
pub(crate) fn change_entry(contents: &mut [u8; SECTOR], edition: Edition, time: u64) {
    let version = get32(contents, entry::VERSION).wrapping_add(1);
    put32(contents, entry::VERSION, version);
    edition.put_time(contents, edition.entry_change_time(), time);
}

/// The table sectors in which one of these extents is freed, in rising order. A file's extents may
/// stand in any order and in any table sector.
pub(crate) fn freed_table(volume: Volume, freed: &[Extent]) -> Vec<Target> {
    let mut freed = freed.to_vec();
    freed.sort_unstable();
    let mut targets: Vec<Target> = Vec::new();
    for extent in freed {
        let (sector, at) = volume.geometry().table_place(extent);
        if targets.last().map(|target| target.sector) != Some(sector) {
            targets.push(Target {
                sector,
                contents: *volume.sector(sector),
            });
        }
        let contents = &mut targets.last_mut().expect("just pushed").contents;
        put16(contents, at, NO_FILE);
        put16(contents, at + 2, NO_FILE);
    }
    targets
}
