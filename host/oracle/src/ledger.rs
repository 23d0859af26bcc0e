//! The ledger: what the calls of a run must answer, expected from their arguments alone. It sees no
//! image and no write list. Of a cut call it is given whether the start mark landed and, if not, which
//! data sectors did.
//!
//! It shares with the calls only the geometry; answers, list lengths and the choice of entries and
//! extents are worked out here a second time. How an image is held against it stands in `compare`.

use std::collections::BTreeSet;

use crate::answers::{
    code, ChangeAnswer, CheckAnswer, FindAnswer, ListAnswer, ReadAnswer, Refusal, SummaryAnswer,
};
use crate::format::FormatRequest;
use crate::layout::{Extent, Geometry, SECTOR};
use crate::request::{Answer, Lent, Request};

/// The fields of the root record.
#[derive(Clone, Debug, PartialEq, Eq)]
pub struct Root {
    pub version: u32,
    pub id: u64,
    pub mode: u32,
    pub access_time: u64,
    pub change_time: u64,
}

/// A file: its entry's fields, its bytes (the size is their number) and its extents in order.
#[derive(Clone, Debug, PartialEq, Eq)]
pub struct File {
    pub name: Vec<u8>,
    pub version: u32,
    pub id: u64,
    pub mode: u32,
    pub access_time: u64,
    pub change_time: u64,
    pub bytes: Vec<u8>,
    pub extents: Vec<Extent>,
}

/// What landed of a cut changing call.
#[derive(Clone, Debug, PartialEq, Eq)]
pub struct CutReport {
    /// Whether the superblock of group B landed; the call is then done.
    pub start_mark: bool,
    /// If not: the data sectors that landed, by their place among the call's data sectors.
    pub data_sectors: Vec<usize>,
}

/// The ledger's answer, with the bytes that a list or read puts at the start of its output.
#[derive(Clone, Debug, PartialEq, Eq)]
pub struct Expected {
    pub answer: Answer,
    pub output: Vec<u8>,
}

#[derive(Clone, Debug, PartialEq, Eq)]
pub struct Ledger {
    edition: u64,
    geometry: Geometry,
    root: Root,
    slots: Vec<Option<File>>,
}

/// What a call that is not refused does. The data of a growing resize are zeros.
enum Change {
    Nothing,
    AccessRoot {
        time: u64,
    },
    AccessFile {
        slot: usize,
        time: u64,
    },
    Create {
        slot: usize,
        file: File,
    },
    Delete {
        slot: usize,
        time: u64,
    },
    Shrink {
        slot: usize,
        size: usize,
        kept: usize,
        time: u64,
    },
    Write {
        slot: usize,
        offset: usize,
        data: Vec<u8>,
        extent: Option<Extent>,
        time: u64,
    },
    Rename {
        slot: usize,
        name: Vec<u8>,
        replaced: Option<usize>,
        time: u64,
    },
    /// All of them, in this order.
    Several(Vec<Change>),
}

impl Ledger {
    /// The ledger after a format, or nothing if the format is refused.
    pub fn new(format: &FormatRequest) -> Option<Ledger> {
        let geometry = format.geometry()?;
        Ledger::with_geometry(geometry, format)
    }

    /// The ledger of a fresh volume of any geometry, also one that no format gives; edition and root
    /// are the format's.
    pub fn with_geometry(geometry: Geometry, format: &FormatRequest) -> Option<Ledger> {
        let root = Root {
            version: 0,
            id: format.id,
            mode: format.mode,
            access_time: format.time,
            change_time: format.time,
        };
        let ledger = Ledger {
            edition: format.edition,
            geometry,
            root,
            slots: vec![None; geometry.files() as usize],
        };
        let refused = ![1, 2].contains(&format.edition) || ledger.bad_time(format.time);
        (!refused).then_some(ledger)
    }

    pub fn edition(&self) -> u64 {
        self.edition
    }

    pub fn geometry(&self) -> Geometry {
        self.geometry
    }

    pub fn root(&self) -> &Root {
        &self.root
    }

    /// For each entry of the directory, nothing or its file.
    pub fn slots(&self) -> &[Option<File>] {
        &self.slots
    }

    /// Puts in a file that no call of this ledger made: an older volume's, or another writer's.
    pub fn put_file(&mut self, slot: usize, file: File) {
        self.slots[slot] = Some(file);
    }

    /// Sets the root's fields, of a volume that was there before.
    pub fn put_root(&mut self, root: Root) {
        self.root = root;
    }

    /// What the call would answer.
    pub fn answer(&self, request: &Request, lent: Lent) -> Answer {
        self.expect(request, lent).0.answer
    }

    /// The answer of a call whose list, if it has one, lands whole.
    pub fn call(&mut self, request: &Request, lent: Lent) -> Expected {
        let (expected, change) = self.expect(request, lent);
        self.apply(change);
        expected
    }

    /// The answer of a call that is cut while its list is carried out. A call without a list can't
    /// be cut; then nothing is answered and nothing changes.
    pub fn cut_call(&mut self, request: &Request, lent: Lent, cut: &CutReport) -> Option<Expected> {
        let (expected, change) = self.expect(request, lent);
        if expected.answer.list_length() == 0 {
            return None;
        }
        if cut.start_mark {
            self.apply(change);
        } else {
            self.keep_landed_data(change, &cut.data_sectors);
        }
        Some(expected)
    }

    /// The answer, and what the call does if it is done.
    fn expect(&self, request: &Request, lent: Lent) -> (Expected, Change) {
        let mut output = Vec::new();
        let mut change = Change::Nothing;
        let answer = match request {
            Request::Summary => Answer::Summary(SummaryAnswer {
                edition: self.edition,
                files: self.geometry.files(),
                extents: self.geometry.extents(),
                extent_sectors: self.geometry.extent_sectors(),
                ..SummaryAnswer::default()
            }),
            Request::Check => Answer::Check(CheckAnswer::default()),
            Request::Find { name } => Answer::Find(match self.find(name) {
                Ok((slot, file)) => find_answer(slot, file),
                Err(refusal) => refusal.into(),
            }),
            Request::List { index, time } => Answer::List(match self.list(*index, *time, lent) {
                Ok(file) => {
                    output = file.name.clone();
                    let length = self.access_length();
                    if length > 0 {
                        change = Change::AccessRoot { time: *time };
                    }
                    list_answer(file, length)
                }
                Err(refusal) => refusal.into(),
            }),
            Request::Read {
                name,
                offset,
                count,
                time,
            } => Answer::Read(match self.read(name, *offset, *count, *time, lent) {
                Ok((slot, bytes)) => {
                    output = bytes.to_vec();
                    let length = self.access_length();
                    if length > 0 {
                        change = Change::AccessFile { slot, time: *time };
                    }
                    ReadAnswer {
                        count: bytes.len() as u64,
                        length: length as u64,
                        ..ReadAnswer::default()
                    }
                }
                Err(refusal) => refusal.into(),
            }),
            _ => Answer::Change(match self.change(request, lent.list) {
                Ok((length, planned)) => {
                    change = planned;
                    ChangeAnswer {
                        length: length as u64,
                        ..ChangeAnswer::default()
                    }
                }
                Err(refusal) => refusal.into(),
            }),
        };
        (Expected { answer, output }, change)
    }

    /// The list length of a changing call and what it does, or its refusal.
    fn change(&self, request: &Request, list_length: usize) -> Result<(usize, Change), Refusal> {
        if request.time().is_some_and(|time| self.bad_time(time)) {
            return Err(Refusal::new(code::BAD_ARGUMENT));
        }
        let (length, change) = match request {
            Request::Create {
                name,
                id,
                mode,
                time,
            } => self.create(name, *id, *mode, *time)?,
            Request::Delete { name, time } => self.delete(name, *time)?,
            Request::Resize { name, size, time } => self.resize(name, *size, *time)?,
            Request::Write {
                name,
                offset,
                data,
                time,
            } => self.write(name, *offset, data, *time)?,
            Request::Rename { old, new, time } => self.rename(old, new, *time)?,
            Request::RenameSet {
                names,
                lengths,
                time,
            } => self.rename_set(names, lengths, *time)?,
            // The reading calls are expected elsewhere.
            _ => (0, Change::Nothing),
        };
        if length > 0 {
            self.room_for(0)?;
        }
        if list_length < length {
            return Err(Refusal::new(code::BUFFER_TOO_SHORT));
        }
        Ok((length, change))
    }

    fn find(&self, name: &[u8]) -> Result<(usize, &File), Refusal> {
        if self.bad_name(name) {
            return Err(Refusal::new(code::BAD_ARGUMENT));
        }
        self.files()
            .find(|(_, file)| file.name == name)
            .ok_or(Refusal::new(code::NOT_THERE))
    }

    /// The slots that are not free, with their index.
    pub fn files(&self) -> impl Iterator<Item = (usize, &File)> {
        self.slots
            .iter()
            .enumerate()
            .filter_map(|(slot, file)| file.as_ref().map(|file| (slot, file)))
    }

    fn list(&self, index: u64, time: u64, lent: Lent) -> Result<&File, Refusal> {
        if index >= self.slots.len() as u64 || self.bad_time(time) {
            return Err(Refusal::new(code::BAD_ARGUMENT));
        }
        let file = self.slots[index as usize]
            .as_ref()
            .ok_or(Refusal::new(code::NOT_THERE))?;
        if lent.output < file.name.len() || lent.list < self.access_length() {
            return Err(Refusal::new(code::BUFFER_TOO_SHORT));
        }
        Ok(file)
    }

    fn read(
        &self,
        name: &[u8],
        offset: u64,
        count: u64,
        time: u64,
        lent: Lent,
    ) -> Result<(usize, &[u8]), Refusal> {
        if self.bad_name(name) || count > 65_536 || self.bad_time(time) {
            return Err(Refusal::new(code::BAD_ARGUMENT));
        }
        let (slot, file) = self.find(name)?;
        if offset > file.bytes.len() as u64 {
            return Err(Refusal::new(code::PAST_THE_END));
        }
        let rest = &file.bytes[offset as usize..];
        let given = &rest[..rest.len().min(count as usize)];
        if lent.output < given.len() || lent.list < self.access_length() {
            return Err(Refusal::new(code::BUFFER_TOO_SHORT));
        }
        Ok((slot, given))
    }

    fn create(
        &self,
        name: &[u8],
        id: u64,
        mode: u32,
        time: u64,
    ) -> Result<(usize, Change), Refusal> {
        if self.bad_new_name(name) || id == 0 {
            return Err(Refusal::new(code::BAD_ARGUMENT));
        }
        if id == self.root.id
            || self
                .files()
                .any(|(_, file)| file.name == name || file.id == id)
        {
            return Err(Refusal::new(code::ALREADY_THERE));
        }
        let free = self.slots.iter().position(|slot| slot.is_none());
        let slot = free.ok_or(Refusal::new(code::DIRECTORY_FULL))?;
        let file = File {
            name: name.to_vec(),
            version: 0,
            id,
            mode,
            access_time: time,
            change_time: time,
            bytes: Vec::new(),
            extents: Vec::new(),
        };
        Ok((length_by_groups(0, 2), Change::Create { slot, file }))
    }

    fn delete(&self, name: &[u8], time: u64) -> Result<(usize, Change), Refusal> {
        let (slot, file) = self.find(name)?;
        let targets = 2 + table_sectors_with(&file.extents);
        Ok((length_by_groups(0, targets), Change::Delete { slot, time }))
    }

    fn resize(&self, name: &[u8], size: u64, time: u64) -> Result<(usize, Change), Refusal> {
        let (slot, file) = self.find(name)?;
        let old_size = file.bytes.len() as u64;
        if size == old_size {
            return Ok((0, Change::Nothing));
        }
        if size < old_size {
            let kept = self.extents_of_size(size);
            let targets = 1 + table_sectors_with(&file.extents[kept..]);
            let change = Change::Shrink {
                slot,
                size: size as usize,
                kept,
                time,
            };
            return Ok((length_by_groups(0, targets), change));
        }
        if size - old_size > 65_536 {
            return Err(Refusal::new(code::BAD_ARGUMENT));
        }
        self.put(
            slot,
            file,
            file.bytes.len(),
            vec![0; (size - old_size) as usize],
            time,
        )
    }

    fn write(
        &self,
        name: &[u8],
        offset: u64,
        data: &[u8],
        time: u64,
    ) -> Result<(usize, Change), Refusal> {
        if self.bad_name(name) || data.len() > 65_536 {
            return Err(Refusal::new(code::BAD_ARGUMENT));
        }
        let (slot, file) = self.find(name)?;
        if offset > file.bytes.len() as u64 {
            return Err(Refusal::new(code::PAST_THE_END));
        }
        if data.is_empty() {
            return Ok((0, Change::Nothing));
        }
        self.put(slot, file, offset as usize, data.to_vec(), time)
    }

    fn rename(&self, old: &[u8], new: &[u8], time: u64) -> Result<(usize, Change), Refusal> {
        if self.bad_name(old) || self.bad_new_name(new) {
            return Err(Refusal::new(code::BAD_ARGUMENT));
        }
        let (slot, _) = self.find(old)?;
        if old == new {
            return Ok((0, Change::Nothing));
        }
        let replaced = self.files().find(|(_, file)| file.name == new);
        let replaced_targets =
            replaced.map_or(0, |(_, file)| 1 + table_sectors_with(&file.extents));
        let change = Change::Rename {
            slot,
            name: new.to_vec(),
            replaced: replaced.map(|(slot, _)| slot),
            time,
        };
        Ok((length_by_groups(0, 2 + replaced_targets), change))
    }

    fn rename_set(
        &self,
        names: &[u8],
        lengths: &[u64],
        time: u64,
    ) -> Result<(usize, Change), Refusal> {
        let names = set_names(names, lengths).ok_or(Refusal::new(code::BAD_ARGUMENT))?;
        // Each slot's name after the renames so far.
        let mut now: Vec<Option<&[u8]>> = self
            .slots
            .iter()
            .map(|slot| slot.as_ref().map(|file| &file.name[..]))
            .collect();
        let mut renames = Vec::new();
        for (place, pair) in (0..).zip(names.chunks(2)) {
            let (old, new) = (pair[0], pair[1]);
            let refused = |code| Refusal {
                place,
                ..Refusal::new(code)
            };
            if self.bad_name(old) || self.bad_new_name(new) {
                return Err(refused(code::BAD_ARGUMENT));
            }
            let slot_of = |name| now.iter().position(|has| *has == Some(name));
            let slot = slot_of(old).ok_or(refused(code::NOT_THERE))?;
            if old != new {
                let replaced = slot_of(new);
                if let Some(replaced) = replaced {
                    now[replaced] = None;
                }
                now[slot] = Some(new);
                renames.push((slot, new, replaced));
            }
        }
        let targets = self.set_targets(&renames);
        if targets as u64 > self.geometry.reserve_extents() * self.geometry.extent_sectors() {
            return Err(Refusal::new(code::NO_ROOM));
        }
        if renames.is_empty() {
            return Ok((0, Change::Nothing));
        }
        let change = |(slot, name, replaced): (usize, &[u8], Option<usize>)| Change::Rename {
            slot,
            name: name.to_vec(),
            replaced,
            time,
        };
        let changes = renames.into_iter().map(change).collect();
        Ok((length_by_groups(0, targets), Change::Several(changes)))
    }

    /// How many sectors these renames touch: the root, entries, and table sectors of replaced files.
    fn set_targets(&self, renames: &[(usize, &[u8], Option<usize>)]) -> usize {
        let mut entries = BTreeSet::new();
        let mut freed = Vec::new();
        for (slot, _, replaced) in renames {
            entries.extend([*slot].into_iter().chain(*replaced));
            let replaced = replaced.and_then(|slot| self.slots[slot].as_ref());
            freed.extend(replaced.iter().flat_map(|file| &file.extents).copied());
        }
        1 + entries.len() + table_sectors_with(&freed)
    }

    fn put(
        &self,
        slot: usize,
        file: &File,
        offset: usize,
        data: Vec<u8>,
        time: u64,
    ) -> Result<(usize, Change), Refusal> {
        let end = offset + data.len();
        let new_size = end.max(file.bytes.len());
        let extent = if self.extents_of_size(new_size as u64) > file.extents.len() {
            self.room_for(1)?;
            self.free_extents().next()
        } else {
            None
        };
        let data_sectors = (end - 1) / SECTOR - offset / SECTOR + 1;
        let targets = if extent.is_some() { 2 } else { 1 };
        let length = length_by_groups(data_sectors, targets);
        Ok((
            length,
            Change::Write {
                slot,
                offset,
                data,
                extent,
                time,
            },
        ))
    }

    fn bad_name(&self, name: &[u8]) -> bool {
        let longest = if self.edition == 2 { 468 } else { 476 };
        name.is_empty() || name.len() > longest || name.contains(&0)
    }

    /// For create and the new name of a rename.
    fn bad_new_name(&self, name: &[u8]) -> bool {
        let typed = |byte| matches!(byte, 33..=46 | 48..=126);
        self.bad_name(name) || name.iter().any(|byte| !typed(*byte))
    }

    /// The first edition's times have four bytes.
    fn bad_time(&self, time: u64) -> bool {
        self.edition == 1 && time > 4_294_967_295
    }

    /// C for this size.
    fn extents_of_size(&self, size: u64) -> usize {
        size.div_ceil(self.geometry.extent_bytes()) as usize
    }

    /// Refusal 13 if fewer than K extents would stay free after so many are taken.
    fn room_for(&self, taken: u64) -> Result<(), Refusal> {
        if (self.free_extents().count() as u64) < self.geometry.reserve_extents() + taken {
            return Err(Refusal::new(code::NO_ROOM));
        }
        Ok(())
    }

    /// The list of a read or a list, which is empty where copies have no room.
    fn access_length(&self) -> usize {
        match self.room_for(0) {
            Ok(()) => length_by_groups(0, 1),
            Err(_) => 0,
        }
    }

    /// The extents that no slot has, in rising order.
    pub fn free_extents(&self) -> impl Iterator<Item = Extent> {
        let mut taken = vec![false; self.geometry.extents() as usize];
        for (_, file) in self.files() {
            for extent in &file.extents {
                taken[extent.0 as usize] = true;
            }
        }
        let extents = (0..).map(Extent).zip(taken);
        extents.filter_map(|(extent, taken)| (!taken).then_some(extent))
    }

    fn apply(&mut self, change: Change) {
        match change {
            Change::Nothing => {}
            Change::AccessRoot { time } => self.root.access_time = time,
            Change::AccessFile { slot, time } => self.file(slot).access_time = time,
            Change::Create { slot, file } => {
                self.change_root(file.change_time);
                self.slots[slot] = Some(file);
            }
            Change::Delete { slot, time } => {
                self.change_root(time);
                self.slots[slot] = None;
            }
            Change::Shrink {
                slot,
                size,
                kept,
                time,
            } => {
                let file = self.changed_file(slot, time);
                file.bytes.truncate(size);
                file.extents.truncate(kept);
            }
            Change::Write {
                slot,
                offset,
                data,
                extent,
                time,
            } => {
                let file = self.changed_file(slot, time);
                let end = offset + data.len();
                if file.bytes.len() < end {
                    file.bytes.resize(end, 0);
                }
                file.bytes[offset..end].copy_from_slice(&data);
                file.extents.extend(extent);
            }
            Change::Rename {
                slot,
                name,
                replaced,
                time,
            } => {
                self.change_root(time);
                self.changed_file(slot, time).name = name;
                if let Some(replaced) = replaced {
                    self.slots[replaced] = None;
                }
            }
            Change::Several(changes) => {
                for change in changes {
                    self.apply(change);
                }
            }
        }
    }

    /// A call that was not done leaves its data sectors behind that landed, as far as the file
    /// went.
    fn keep_landed_data(&mut self, change: Change, landed: &[usize]) {
        let Change::Write {
            slot, offset, data, ..
        } = change
        else {
            return;
        };
        let Some(file) = &mut self.slots[slot] else {
            return;
        };
        let span_end = (offset + data.len()).min(file.bytes.len());
        for place in landed {
            let sector_start = (offset / SECTOR + place) * SECTOR;
            let from = sector_start.max(offset);
            let to = (sector_start + SECTOR).min(span_end);
            if from < to {
                file.bytes[from..to].copy_from_slice(&data[from - offset..to - offset]);
            }
        }
    }

    fn change_root(&mut self, time: u64) {
        self.root.version = self.root.version.wrapping_add(1);
        self.root.change_time = time;
    }

    fn file(&mut self, slot: usize) -> &mut File {
        self.slots[slot]
            .as_mut()
            .expect("the slot of a planned change holds a file")
    }

    fn changed_file(&mut self, slot: usize, time: u64) -> &mut File {
        let file = self.file(slot);
        file.version = file.version.wrapping_add(1);
        file.change_time = time;
        file
    }
}

/// The names of a set, old and new in turn, or nothing if the shape is bad. The sum of the lengths
/// may not fit 64 bits.
fn set_names<'n>(names: &'n [u8], lengths: &[u64]) -> Option<Vec<&'n [u8]>> {
    let sum: u128 = lengths.iter().map(|length| u128::from(*length)).sum();
    let good_count = [2, 4, 6, 8, 10, 12, 14, 16].contains(&lengths.len());
    if !good_count || sum != names.len() as u128 {
        return None;
    }
    let mut rest = names;
    let next_name = |length: &u64| {
        let (name, later) = rest.split_at(*length as usize);
        rest = later;
        name
    };
    Some(lengths.iter().map(next_name).collect())
}

/// How many table sectors hold the entries of these extents.
fn table_sectors_with(extents: &[Extent]) -> usize {
    let mut sectors: Vec<u64> = extents.iter().map(|extent| extent.0 / 128).collect();
    sectors.sort_unstable();
    sectors.dedup();
    sectors.len()
}

/// The bytes of a list with this many data sectors and targets.
fn length_by_groups(data_sectors: usize, targets: usize) -> usize {
    let journal_sectors = targets.div_ceil(32);
    let group_a = data_sectors + targets + journal_sectors;
    let group_c = targets;
    let superblocks = 2;
    let barriers = 4;
    528 * (group_a + group_c + superblocks + barriers)
}

fn find_answer(slot: usize, file: &File) -> FindAnswer {
    FindAnswer {
        index: slot as u64,
        size: file.bytes.len() as u64,
        version: u64::from(file.version),
        id: file.id,
        mode: u64::from(file.mode),
        access_time: file.access_time,
        change_time: file.change_time,
        name_length: file.name.len() as u64,
        ..FindAnswer::default()
    }
}

fn list_answer(file: &File, length: usize) -> ListAnswer {
    ListAnswer {
        length: length as u64,
        size: file.bytes.len() as u64,
        version: u64::from(file.version),
        id: file.id,
        mode: u64::from(file.mode),
        access_time: file.access_time,
        change_time: file.change_time,
        name_length: file.name.len() as u64,
        ..ListAnswer::default()
    }
}
