//! Random runs: after a format, calls with good and bad arguments and buffers of any length, some
//! of them cut, with recoveries that may be cut too. The ledger says every answer and what the
//! image holds; what the subject compares comes on top.
//!
//! All of a run is drawn from its seed. The environment variable RUN_SEED asks for other seeds than
//! the usual ones: `RUN_SEED=17` replays one run, `RUN_SEED=1-100000` makes many.

use std::ops::RangeInclusive;

use super::audit::audit;
use super::cuts::{recovery_length, LARGE_IMAGE};
use super::requests::{create, resize, shortened};
use super::slices::expected_slice;
use super::volumes::{format_list, Volume, ANY, ANY_LIST};
use super::{checks_alike, Counts, Filled, Oracle, Subject};
use crate::answers::{code, Refusal, RepairAnswer};
use crate::draw::Draw;
use crate::layout::{put32, superblock, Geometry, LONGEST_SPAN, SECTOR};
use crate::ledger::{File, Ledger};
use crate::lists::RECORD;
use crate::power::{data_sectors, draw_cut, groups, sector_numbers, Kept};
use crate::request::{Answer, Lent, Request};
use crate::FormatRequest;

const SEED_VARIABLE: &str = "RUN_SEED";

/// Names that stand on the volumes of older builds and other writers only.
const OLDER_NAMES: [&[u8]; 3] = [&[255; 200], b"\xe4/\x01", b"a b"];

/// Makes this many runs, or those that RUN_SEED asks for.
pub fn random_runs(subject: &dyn Subject, usual: u64) -> Counts {
    let seeds = match std::env::var(SEED_VARIABLE) {
        Ok(text) => seeds(&text).expect("RUN_SEED is a number, or two with '-' between them"),
        Err(_) => 1..=usual,
    };
    let mut counts = Counts::default();
    for seed in seeds {
        let _told_on_failure = Replay(seed);
        random_run(subject, seed, &USUAL, &mut counts);
    }
    if counts.runs as u64 >= usual {
        counts.assert_all_reached();
    }
    counts
}

fn seeds(text: &str) -> Option<RangeInclusive<u64>> {
    let (first, last) = text.split_once('-').unwrap_or((text, text));
    Some(first.parse().ok()?..=last.parse().ok()?)
}

impl Counts {
    /// Makes sure that together the runs met all that a run can meet, each many times.
    fn assert_all_reached(&self) {
        let least = self.runs / 10;
        for code in [0, 5, 8, 9, 10, 11, 12, 13, 14] {
            assert!(self.codes[code] > least, "{code} is too rare: {self:?}");
        }
        for code in [1, 2, 3, 4, 6, 7] {
            assert_eq!(self.codes[code], 0, "{code} in a run: {self:?}");
        }
        for reached in [
            self.same_names,
            self.undone_cuts,
            self.done_cuts,
            self.recoveries,
            self.cut_recoveries,
            self.short_recoveries,
            self.slices,
            self.cut_slices,
            self.several_extents,
            self.lost_records,
            self.older_names,
            self.scattered_copies,
            self.without_room,
            self.access_times,
            self.cut_access_times,
            self.renames,
            self.replaced_files,
            self.sets,
            self.chained_sets,
        ] {
            assert!(reached > least, "too rare: {self:?}");
        }
        assert!(self.several_table_sectors > least / 10, "{self:?}");
    }
}

/// Tells the seed of a run that failed.
struct Replay(u64);

impl Drop for Replay {
    fn drop(&mut self) {
        if std::thread::panicking() {
            eprintln!(
                "the run with seed {0} failed; {SEED_VARIABLE}={0} makes only this run",
                self.0
            );
        }
    }
}

/// How much is cut in a run.
pub struct Cutting {
    /// Cuts of each list that are tried and taken back, beside the one that may stay; on a large image at
    /// most one.
    pub tried: usize,
    /// A recovery's list lands whole once in so many times.
    pub whole_once_in: u64,
    /// It is then carried out by the subject once in so many times, else as a device would.
    pub carried_once_in: u64,
}

const USUAL: Cutting = Cutting {
    tried: 0,
    whole_once_in: 2,
    carried_once_in: 1,
};

/// Draws one run and puts it to the subject: a small volume, or once in so many times one with two
/// table sectors or with a full directory.
pub fn random_run(subject: &dyn Subject, seed: u64, cutting: &Cutting, counts: &mut Counts) {
    let mut draw = Draw::new(seed);
    counts.runs += 1;
    let (two_table_sectors, full_directory) = match draw.below(40) {
        0 => (true, false),
        1..=3 => (false, true),
        _ => (false, false),
    };
    let geometry = if two_table_sectors {
        Geometry::new(255, draw.between(129, 134), 128)
    } else if full_directory {
        Geometry::new(255, draw.between(2, 9), 128)
    } else {
        draw_small_geometry(&mut draw)
    };
    let geometry = geometry.expect("within the bounds");
    let mut run = Run {
        subject,
        volume: draw_format(subject, geometry, &mut draw),
        cutting,
        draw,
        counts,
    };
    if two_table_sectors {
        run.fill_both_table_sectors();
    }
    if full_directory {
        run.fill_the_directory();
    }
    if run.draw.one_in(4) {
        run.put_foreign_files();
    }
    run.volume.compare();
    run.volume.disturb(&mut run.draw);
    run.volume.compare();
    let steps = if two_table_sectors { 40 } else { 100 };
    for _ in 0..steps {
        run.step();
    }
}

/// A volume of this geometry after a short run of the oracle, perhaps with another writer's files, and so
/// many calls drawn for it.
pub fn after_a_run(geometry: Geometry, calls: usize, draw: &mut Draw) -> (Volume, Vec<Request>) {
    let mut run = Run {
        subject: &Oracle,
        volume: draw_format(&Oracle, geometry, draw),
        cutting: &USUAL,
        draw: Draw::new(draw.number()),
        counts: &mut Counts::default(),
    };
    if run.draw.one_in(2) {
        run.put_foreign_files();
    }
    for _ in 0..run.draw.below(40) {
        run.step();
    }
    run.volume.disturb(&mut run.draw);
    let requests = (0..calls).map(|_| run.draw_request()).collect();
    (run.volume, requests)
}

fn draw_small_geometry(draw: &mut Draw) -> Option<Geometry> {
    let files = match draw.below(128) {
        0 => draw.between(1_025, 5_000),
        1..=16 => draw.between(256, 1_024),
        _ => 255,
    };
    let extents = draw.between(2, 9);
    let extent_sectors = match draw.below(3) {
        0 => draw.between(128, 300),
        _ => 128,
    };
    Geometry::new(files, extents, extent_sectors)
}

/// A fresh volume of this geometry on an image of noise. A format only gives extents of 128 sectors
/// to small volumes; other lengths are put in the superblock by hand.
fn draw_format(subject: &dyn Subject, geometry: Geometry, draw: &mut Draw) -> Volume {
    let edition = draw.between(1, 2);
    let time = draw.number();
    let format = FormatRequest {
        edition,
        sectors: 546 + geometry.files() + 128 * geometry.extents() + draw.below(128),
        files: geometry.files(),
        id: *draw.pick(&[0, 3, 900, u64::MAX]),
        mode: draw.number() as u32,
        time: if edition == 1 { time >> 32 } else { time },
    };
    let sectors = format.sectors.max(geometry.end().0) + draw.below(3);
    let mut image = draw.bytes(sectors as usize * SECTOR);
    let list = format_list(subject, &format);
    assert_eq!(subject.carry_out(&mut image, &list), 0);
    let mut ledger = Ledger::new(&format).expect("the format is not refused");
    if geometry.extent_sectors() != 128 {
        let extent_sectors = geometry.extent_sectors() as u32;
        put32(&mut image, superblock::EXTENT_SECTORS, extent_sectors);
        ledger = Ledger::with_geometry(geometry, &format).expect("the format is not refused");
    }
    Volume { image, ledger }
}

struct Run<'s> {
    subject: &'s dyn Subject,
    volume: Volume,
    cutting: &'s Cutting,
    draw: Draw,
    counts: &'s mut Counts,
}

impl Run<'_> {
    /// A call of the oracle that only brings the volume into a state to begin with.
    fn prepare(&mut self, request: &Request) {
        let Volume { image, ledger } = &mut self.volume;
        let (answer, filled) = Oracle.ask(request, image, ANY);
        assert_eq!(answer.code(), 0, "{}", shortened(request));
        assert_eq!(ledger.call(request, ANY).answer, answer);
        assert_eq!(Oracle.carry_out(image, &filled.list), 0);
    }

    /// Two files whose extents reach over both table sectors; one usable extent stays free.
    fn fill_both_table_sectors(&mut self) {
        self.prepare(&create(b"a", 1));
        self.prepare(&create(b"ab", 2));
        for _ in 1..self.volume.ledger.geometry().usable_extents() {
            let name: &[u8] = if self.draw.one_in(2) { b"a" } else { b"ab" };
            let grown = resize(name, self.size_of(name) + LONGEST_SPAN);
            self.prepare(&grown);
        }
    }

    fn fill_the_directory(&mut self) {
        for number in 0..self.volume.ledger.geometry().files() {
            let name = format!("file-{number}");
            self.prepare(&create(name.as_bytes(), 1_000 + number));
        }
    }

    /// Files of older builds and other writers: their names can't be typed, and their extents are
    /// scattered. Sometimes they leave fewer than K free, exactly K, or one more.
    fn put_foreign_files(&mut self) {
        let reserve = self.volume.ledger.geometry().reserve_extents();
        let least = *self.draw.pick(&[0, reserve, reserve + 1]);
        let all = self.draw.one_in(2);
        for name in OLDER_NAMES {
            let ledger = &self.volume.ledger;
            let Some(slot) = ledger.slots().iter().position(Option::is_none) else {
                return;
            };
            let mut free: Vec<u64> = ledger.free_extents().map(|extent| extent.0).collect();
            let most = (free.len() as u64).saturating_sub(least);
            let count = if all {
                most
            } else {
                self.draw.below(3).min(most)
            };
            let extents: Vec<u64> = (0..count)
                .map(|_| free.swap_remove(self.draw.below(free.len() as u64) as usize))
                .collect();
            let extent_bytes = ledger.geometry().extent_bytes();
            let size = (extents.len() as u64 * extent_bytes).saturating_sub(self.draw.below(2_000));
            self.volume.put_file(slot as u64, name, size, &extents);
        }
    }

    fn step(&mut self) {
        if self.draw.one_in(12) {
            // On a clean volume neither recovery has anything to do.
            let (answer, _) = self.subject.recover(&self.volume.image, 0);
            assert_eq!((answer.code, answer.length), (0, 0));
            self.counts.recoveries += 1;
            self.slice_completed();
        }
        if self.draw.one_in(12) {
            let checked = checks_alike(self.subject, &self.volume.image);
            assert_eq!(checked.code, code::DONE);
            // In a run there is nothing to mend.
            let repaired = self.subject.repair(&self.volume.image, 0);
            assert_eq!(repaired, (RepairAnswer::default(), Vec::new()));
        }
        if self.draw.one_in(40) {
            self.volume.disturb(&mut self.draw);
        }
        let request = self.draw_request();
        let lent = self.draw_lent(&request);
        self.call(&request, lent);
    }

    fn ask(&mut self, request: &Request, lent: Lent) -> (Answer, Filled) {
        let asked = self.subject.ask(request, &self.volume.image, lent);
        self.counts.calls += 1;
        self.counts.codes[asked.0.code() as usize] += 1;
        asked
    }

    fn call(&mut self, request: &Request, lent: Lent) {
        let (answer, Filled { output, list }) = self.ask(request, lent);
        let mut after = self.volume.ledger.clone();
        let told = after.call(request, lent);
        assert_eq!(told.answer, answer, "{}", shortened(request));
        assert!(told.output == output, "{}", shortened(request));
        if list.is_empty() {
            assert!(after == self.volume.ledger, "{}", shortened(request));
            let full = self.volume.ledger.free_extents().next().is_none();
            self.counts.without_room += usize::from(full);
            return;
        }
        audit(
            request,
            &self.volume.ledger,
            &after,
            &self.volume.image,
            &list,
        );
        self.count(request, &after, &list);
        if self.draw.one_in(20) {
            self.drop_a_record(&list);
        }
        let large = self.volume.image.len() >= LARGE_IMAGE;
        let tried = self.cutting.tried.min(if large { 1 } else { usize::MAX });
        for _ in 0..tried {
            self.try_a_cut(request, lent, &list);
        }
        if self.draw.one_in(3) {
            self.cut(request, lent, &list);
        } else {
            let carried = self.subject.carry_out(&mut self.volume.image, &list);
            assert_eq!(carried, 0);
            self.volume.ledger = after;
        }
        self.volume.compare();
    }

    /// A list that lost a record before its last is refused and nothing is written.
    fn drop_a_record(&mut self, list: &[u8]) {
        let lost = self.draw.below((list.len() / RECORD - 1) as u64) as usize;
        let shorter = [&list[..lost * RECORD], &list[(lost + 1) * RECORD..]].concat();
        let carried = self.subject.carry_out(&mut self.volume.image, &shorter);
        assert_eq!(carried, code::BAD_ARGUMENT);
        self.counts.lost_records += 1;
    }

    /// A cut with its recoveries, which is taken back: they write no other sectors than the list.
    fn try_a_cut(&mut self, request: &Request, lent: Lent, list: &[u8]) {
        let kept = Kept::of(&groups(list), &self.volume.image);
        let ledger = self.volume.ledger.clone();
        self.cut(request, lent, list);
        self.volume.compare();
        self.volume.ledger = ledger;
        kept.put_back(&mut self.volume.image);
    }

    /// The power fails while the list is carried out; recoveries follow until one is completed.
    fn cut(&mut self, request: &Request, lent: Lent, list: &[u8]) {
        let groups = groups(list);
        let cut = draw_cut(&groups, &mut self.draw).expect("the list is not empty");
        cut.apply(&groups, &mut self.volume.image);
        let report = cut.report(&groups);
        if report.start_mark {
            self.counts.done_cuts += 1;
        } else {
            self.counts.undone_cuts += 1;
        }
        if matches!(request, Request::List { .. } | Request::Read { .. }) {
            self.counts.cut_access_times += 1;
        }
        self.volume
            .ledger
            .cut_call(request, lent, &report)
            .expect("a cut call");
        while !self.recovery_completed() {}
        assert_eq!(self.ask(&Request::Check, Lent::NONE).0.code(), code::DONE);
    }

    /// Makes one call of either recovery; whether it completed.
    fn recovery_completed(&mut self) -> bool {
        let needed = recovery_length(self.subject, &self.volume.image);
        if needed > 0 && self.draw.one_in(2) {
            self.call_of_a_waiting_volume();
        }
        if self.draw.one_in(2) {
            self.slice_completed()
        } else {
            self.whole_recovery_completed(needed)
        }
    }

    fn slice_completed(&mut self) -> bool {
        let budget = *self.draw.pick(&[0, 1, 1, 1, 2, 3, 1_000, u64::MAX]);
        let (expected, expected_list) = expected_slice(&self.volume.image, budget.max(1));
        let length = self.draw_recovery_length(expected_list.len());
        let image = &self.volume.image;
        let (answer, list) = self.subject.recover_slice(image, budget, length);
        self.counts.recoveries += 1;
        self.counts.slices += 1;
        if budget == 0 {
            assert_eq!(answer, Refusal::new(code::BAD_ARGUMENT).into());
            return false;
        }
        if length < expected_list.len() {
            self.counts.short_recoveries += 1;
            assert_eq!(answer, Refusal::new(code::BUFFER_TOO_SHORT).into());
            return false;
        }
        assert_eq!(answer, expected);
        assert!(list == expected_list);
        let ends = sector_numbers(&list)
            .first()
            .is_none_or(|first| *first == 0);
        let landed_whole = self.land(&list);
        self.counts.cut_slices += usize::from(!landed_whole);
        ends && landed_whole
    }

    fn draw_recovery_length(&mut self, needed: usize) -> usize {
        match self.draw.below(4) {
            0 => self.draw.below(needed as u64 + 1) as usize,
            1 => needed,
            _ => needed + 1_000,
        }
    }

    fn whole_recovery_completed(&mut self, needed: usize) -> bool {
        let length = self.draw_recovery_length(needed);
        let (answer, list) = self.subject.recover(&self.volume.image, length);
        self.counts.recoveries += 1;
        if length < needed {
            self.counts.short_recoveries += 1;
            assert_eq!((answer.code, answer.length), (code::BUFFER_TOO_SHORT, 0));
            return false;
        }
        assert_eq!((answer.code, list.len()), (code::DONE, needed));
        let landed_whole = self.land(&list);
        self.counts.cut_recoveries += usize::from(!landed_whole);
        landed_whole
    }

    /// Carries out a recovery's list, or a part of it; whether all of it landed.
    fn land(&mut self, list: &[u8]) -> bool {
        let groups = groups(list);
        let Cutting {
            whole_once_in,
            carried_once_in,
            ..
        } = *self.cutting;
        let drawn = draw_cut(&groups, &mut self.draw);
        let cut = drawn.filter(|_| self.draw.below(whole_once_in) + 1 < whole_once_in);
        match cut {
            Some(cut) => {
                cut.apply(&groups, &mut self.volume.image);
                cut.landed_whole(&groups)
            }
            None => {
                let image = &mut self.volume.image;
                let carried = if carried_once_in == 1 || self.draw.one_in(carried_once_in) {
                    self.subject.carry_out(image, list)
                } else {
                    Oracle.carry_out(image, list)
                };
                assert_eq!(carried, 0);
                true
            }
        }
    }

    /// Until it is recovered, the volume refuses every other call but the summary.
    fn call_of_a_waiting_volume(&mut self) {
        let request = self.draw_request();
        let (answer, _) = self.ask(&request, Lent::both(RECORD));
        let expected = match request {
            Request::Summary => code::DONE,
            _ => code::WAITING,
        };
        assert_eq!(answer.code(), expected, "{}", shortened(&request));
    }

    /// Counts what kind of change this is.
    fn count(&mut self, request: &Request, after: &Ledger, list: &[u8]) {
        let before = &self.volume.ledger;
        let table_at = before.geometry().table_at().0;
        let targets = &groups(list)[2];
        let in_table = targets.iter().filter(|target| target.sector >= table_at);
        let replaced = after.files().count() < before.files().count();
        let extents = self.files().any(|file| file.extents.len() > 1);
        let copy = groups(list)[0][data_sectors(&groups(list))].sector;
        let elsewhere = copy != before.geometry().reserve_at().0;
        let counts = &mut *self.counts;
        counts.several_table_sectors += usize::from(in_table.count() > 1);
        counts.several_extents += usize::from(extents);
        counts.scattered_copies += usize::from(elsewhere);
        if request
            .name()
            .is_some_and(|name| OLDER_NAMES.contains(&name))
        {
            counts.older_names += 1;
        }
        match request {
            Request::Rename { .. } => {
                counts.renames += 1;
                counts.replaced_files += usize::from(replaced);
            }
            Request::RenameSet { .. } => {
                counts.sets += 1;
                let root = (before.root().version, after.root().version);
                counts.chained_sets += usize::from(root.0.wrapping_add(1) != root.1);
            }
            Request::List { .. } | Request::Read { .. } => counts.access_times += 1,
            _ => {}
        }
    }

    fn files(&self) -> impl Iterator<Item = &File> {
        self.volume.ledger.slots().iter().flatten()
    }

    fn size_of(&self, name: &[u8]) -> u64 {
        self.files()
            .find(|file| file.name == name)
            .map_or(0, |file| file.bytes.len() as u64)
    }

    fn draw_lent(&mut self, request: &Request) -> Lent {
        let unbounded = Lent::both(usize::MAX);
        let answer = self.volume.ledger.answer(request, unbounded);
        Lent {
            output: self.draw_length(answer.output_length()),
            list: self.draw_length(answer.list_length()),
        }
    }

    /// Mostly long enough; else just enough, or a little less or more than the call needs.
    fn draw_length(&mut self, needed: usize) -> usize {
        match self.draw.below(24) {
            0 => self.draw.below(700) as usize,
            1 => 0,
            2..=5 => *self
                .draw
                .pick(&[needed, needed.saturating_sub(1), needed + 1]),
            _ => ANY_LIST,
        }
    }

    fn draw_request(&mut self) -> Request {
        let time = self.draw_time();
        let kind = self.draw.below(26);
        let name = self.draw_name(if (7..=9).contains(&kind) { 1 } else { 8 });
        match kind {
            0 => Request::Summary,
            1 => Request::Check,
            2 => Request::Find { name },
            3 => {
                let files = self.volume.ledger.geometry().files();
                let near = self.draw.below(8);
                let index = *self
                    .draw
                    .pick(&[near, near, near, files - 1, files, u64::MAX]);
                Request::List { index, time }
            }
            4..=6 => {
                let (offset, count) = self.draw_span(&name);
                Request::Read {
                    name,
                    offset,
                    count,
                    time,
                }
            }
            7..=9 => Request::Create {
                name,
                id: *self.draw.pick(&[0, 1, 2, 3, 4, 5, 6, 7, 8, 900, u64::MAX]),
                mode: self.draw.number() as u32,
                time,
            },
            10 => Request::Delete { name, time },
            11..=13 => {
                let size = self.draw_size(&name);
                Request::Resize { name, size, time }
            }
            14 if self.draw.one_in(3) => {
                self.counts.same_names += 1;
                Request::Rename {
                    old: name.clone(),
                    new: name,
                    time,
                }
            }
            14..=16 => Request::Rename {
                old: name,
                new: self.draw_name(1),
                time,
            },
            17..=19 => self.draw_set(time),
            _ => {
                let (offset, count) = self.draw_span(&name);
                Request::Write {
                    name,
                    offset,
                    data: self.draw.bytes(count as usize),
                    time,
                }
            }
        }
    }

    /// Renames of which some see the earlier ones; the lengths are sometimes bad.
    fn draw_set(&mut self, time: u64) -> Request {
        let count = match self.draw.below(16) {
            0 => *self.draw.pick(&[0, 9]),
            1 => 8,
            _ => self.draw.between(1, 4),
        };
        let mut drawn: Vec<Vec<u8>> = Vec::new();
        for _ in 0..count {
            let old = match drawn.is_empty() || self.draw.one_in(2) {
                true => self.draw_name(20),
                false => self.draw.pick(&drawn).clone(),
            };
            let new = match self.draw.below(8) {
                0 => old.clone(),
                1 | 2 => self.draw_name(1),
                3 => self.draw_name(20),
                _ => self
                    .draw
                    .pick(&[b"t".to_vec(), b"u".to_vec(), b"a".to_vec()])
                    .clone(),
            };
            drawn.extend([old, new]);
        }
        let mut lengths: Vec<u64> = drawn.iter().map(|name| name.len() as u64).collect();
        if !lengths.is_empty() && self.draw.one_in(12) {
            let last = lengths.len() - 1;
            match self.draw.below(4) {
                0 => lengths.truncate(last),
                1 => lengths[last] += 1,
                2 => lengths[0] = lengths[0].wrapping_sub(1),
                // The sum is right in 64 bits only.
                _ => lengths.extend([u64::MAX, 1]),
            }
        }
        Request::RenameSet {
            names: drawn.concat(),
            lengths,
            time,
        }
    }

    /// Any of the volume's times, its edges, or, once in so many times, any at all.
    fn draw_time(&mut self) -> u64 {
        let narrow = u64::from(u32::MAX);
        match self.draw.below(32) {
            0 => self.draw.number(),
            1 => *self.draw.pick(&[0, narrow, narrow + 1, u64::MAX]),
            _ if self.volume.ledger.edition() == 1 => self.draw.number() >> 32,
            _ => self.draw.number(),
        }
    }

    /// The name of a file, or, once in so many times, any of a few names; some begin alike, some
    /// are bad.
    fn draw_name(&mut self, any_name_once_in: u64) -> Vec<u8> {
        let existing: Vec<Vec<u8>> = self.files().map(|file| file.name.clone()).collect();
        if !existing.is_empty() && !self.draw.one_in(any_name_once_in) {
            return self.draw.pick(&existing).clone();
        }
        let longest = self.volume.ledger.layout().longest_name();
        match self.draw.below(12) {
            0 => vec![b'x'; longest],
            1 => vec![b'x'; longest - 1],
            2 => self.draw.pick(&OLDER_NAMES).to_vec(),
            3 => self.draw.pick(&[b"!", b"~", b" ", b"\x7f", b"/"]).to_vec(),
            4 => self
                .draw
                .pick(&[
                    Vec::new(),
                    vec![b'x'; longest + 1],
                    vec![b'x'; 477],
                    b"zero\0".to_vec(),
                ])
                .clone(),
            length => b"abcdefg"[..length as usize - 4].to_vec(),
        }
    }

    fn draw_size(&mut self, name: &[u8]) -> u64 {
        let size = self.size_of(name);
        let edge = self.volume.ledger.geometry().extent_bytes() * self.draw.below(4);
        match self.draw.below(12) {
            0 => 0,
            1 => size,
            2 => size.saturating_sub(1),
            3 => size + 1,
            4 => size + LONGEST_SPAN,
            5 => size + LONGEST_SPAN + 1,
            6 => u64::MAX,
            7 => edge,
            8 => edge + 1,
            9 => edge.saturating_sub(1),
            10 => self.draw.below(size + 1),
            _ => size + self.draw.below(LONGEST_SPAN),
        }
    }

    /// An offset and a count, often at the edge of an extent, of the file or of the longest span.
    fn draw_span(&mut self, name: &[u8]) -> (u64, u64) {
        let size = self.size_of(name);
        let extent_bytes = self.volume.ledger.geometry().extent_bytes();
        let offset = match self.draw.below(10) {
            0 => 0,
            1 => size + 1,
            2 => u64::MAX,
            3 => (size / extent_bytes) * extent_bytes,
            4 => size.saturating_sub(self.draw.below(600)),
            5 | 6 => self.draw.below(size + 1),
            _ => size,
        };
        let to_edge = extent_bytes - offset % extent_bytes;
        let count = match self.draw.below(12) {
            0 => 0,
            1 => 1,
            2 => self.draw.between(511, 513),
            3 => to_edge.min(LONGEST_SPAN),
            4 => (to_edge + 1).min(LONGEST_SPAN),
            5 | 6 => LONGEST_SPAN,
            7 => LONGEST_SPAN + 1,
            8 => self.draw.below(2_000),
            _ => self.draw.below(LONGEST_SPAN + 1),
        };
        (offset, count)
    }
}
