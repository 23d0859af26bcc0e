//! A volume on a device: its image is loaded once and kept in step with what is written; of a card that is
//! the sectors before the data area (see `lent`). Every change goes to the device group by group, and
//! waits at each barrier until the medium has all of it.

use std::io;
use std::ops::ControlFlow;

use crate::change::{step, Change, Format, List, Repair, Step, FORMAT_BARRIERS};
use crate::device::{Device, SECTOR};
use crate::error::{Error, Interrupted};
use crate::image::{Entry, Image, State};
use crate::log::{Line, Log};
use crate::save::{changes_together, Save};

#[derive(Debug)]
pub struct Volume<D> {
    device: D,
    image: Image,
    /// Set while a list is on its way: if it breaks off, the image isn't what the device holds.
    unknown: bool,
    log: Option<Log>,
}

/// How far changes are.
#[derive(Clone, Copy, Debug, PartialEq, Eq)]
pub enum Stage {
    Tried,
    Done,
}

impl<D: Device> Volume<D> {
    /// Reads the volume. One of any state is taken; 1 to 3 are refused.
    ///
    /// What the device shows need not be on the medium: a program may have been ended in the middle of
    /// a list, or a barrier has failed, and then a system that holds writes back may show writes that
    /// it has given up. Those are of one group, as a list stops where a barrier fails. Any part of a
    /// group may be missing without harm, but for the two groups that are a mark: a change that rests
    /// on a mark that isn't there is lost with the next cut. So the superblock is sent again as it was
    /// read, with a barrier that covers this write. All that a superblock stands for passed a barrier
    /// before it was sent the first time.
    ///
    /// An unfinished or damaged volume is left alone: no change can be made to it.
    pub fn open(device: D) -> Result<Volume<D>, Error> {
        Volume::open_telling(device, &mut |_, _| ())
    }

    /// As `open`. `progress` is given how many bytes are read, and how many are to be.
    pub fn open_telling(
        mut device: D,
        progress: &mut dyn FnMut(u64, u64),
    ) -> Result<Volume<D>, Error> {
        device.forget();
        let image = Image::load_telling(&device, progress)?;
        if let State::Clean | State::Waiting(_) = image.summary().state {
            device
                .write(0, &image.bytes()[..SECTOR])
                .and_then(|()| device.barrier())
                .map_err(Error::Unsettled)?;
        }
        Ok(Volume {
            device,
            image,
            unknown: false,
            log: None,
        })
    }

    /// From now on each call that writes is logged before its first write.
    pub fn log_to(&mut self, log: Log) {
        self.log = Some(log);
    }

    /// The volume as it stands on the device. After an interrupted change it must be opened again.
    pub fn image(&self) -> Result<&Image, Error> {
        if self.unknown {
            return Err(Error::OpenAgain);
        }
        Ok(&self.image)
    }

    /// The device, without the volume.
    pub fn into_device(self) -> D {
        self.device
    }
}

impl<D: Device> Volume<D> {
    /// Does the changes one after the other; each is on the medium before the next starts.
    /// Several are first tried in memory, so that a refusal of any of them comes before the first
    /// byte is written.
    pub fn apply(&mut self, changes: &[Change]) -> Result<(), Error> {
        self.apply_telling(changes, &mut |_, _| ControlFlow::Continue(()))
    }

    /// As `apply`. `progress` is given how many changes are tried, and how many done, and may stop before
    /// the next one.
    pub fn apply_telling(
        &mut self,
        changes: &[Change],
        progress: &mut dyn FnMut(Stage, usize) -> ControlFlow<()>,
    ) -> Result<(), Error> {
        self.image()?;
        let mut stopped = false;
        if changes.len() > 1 {
            self.image.try_out(changes, &mut |tried| {
                stopped |= progress(Stage::Tried, tried).is_break();
            })?;
        }
        for (done, change) in changes.iter().enumerate() {
            if stopped {
                return Err(Error::Stopped { changes_done: done });
            }
            let list = self.image.list_of(change);
            let list = list.map_err(|error| error.after(done))?;
            self.carry_out(&list, &|| change.into(), done)?;
            stopped = progress(Stage::Done, done + 1).is_break();
        }
        Ok(())
    }

    /// Saves a file under this name, old or new. After a cut and a recovery the name stands for the old
    /// file or for the new one, each whole; a new file is there whole or not at all. What a cut leaves
    /// is a file of the name beside (`names::beside`), which the next save of this name removes.
    ///
    /// The new file has an id of its own, and the old one's mode. Until the old file is gone both need
    /// room and an entry: where there is none, the save is refused with `NoRoom` or `DirectoryFull`,
    /// and nothing is written. `Save` has the changes one by one, also those that write over the old
    /// file, and lets id and mode be given.
    pub fn save(&mut self, name: &[u8], contents: &[u8], time: u64) -> Result<(), Error> {
        let image = self.image()?;
        let id = image.unused_id(&[])?;
        let save = Save::new(image, name, id, None, time)?;
        self.apply(&save.changes(contents))
    }

    /// Saves files that belong together, name and contents of each, at most `MOST_RENAMES`. All are written
    /// beside, and then take their names in one change: after a cut and a recovery all names stand for the
    /// old files, or all for the new ones. What a cut leaves beside is removed by the next save of its name.
    ///
    /// Until the last change all old and new files need room and an entry. More files are refused with
    /// `BadArgument`, and names of which two have one name beside, or that are the same, with `AlreadyThere`;
    /// then nothing is written.
    pub fn save_together(&mut self, files: &[(&[u8], &[u8])], time: u64) -> Result<(), Error> {
        let image = self.image()?;
        let mut saves = Vec::new();
        let mut ids = Vec::new();
        for (name, _) in files {
            let id = image.unused_id(&ids)?;
            ids.push(id);
            saves.push(Save::new(image, name, id, None, time)?);
        }
        let renames = Vec::from_iter(saves.iter().map(Save::rename));
        let contents = files.iter().map(|(_, contents)| *contents);
        let changes = changes_together(saves.iter().zip(contents), &renames, time);
        self.apply(&changes)
    }

    /// Frees the extents that belong to no file. Nothing of a file changes. A frozen volume with such
    /// extents is refused with `NoRoom`.
    pub fn repair(&mut self) -> Result<Repair, Error> {
        let repair = self.image()?.repair()?;
        self.carry_out(&repair.list, &|| Line::Repair, 0)?;
        Ok(repair)
    }

    /// Fills the start of the output with bytes of the file, says how many, and sets the file's access
    /// time, also where there are none to give; on a frozen volume (see `Image::is_frozen`) the time
    /// stays. `image` has the calls that leave times alone.
    pub fn read(
        &mut self,
        name: &[u8],
        offset: u64,
        output: &mut [u8],
        time: u64,
    ) -> Result<usize, Error> {
        let (count, list) = self.image()?.read_touching(name, offset, output, time)?;
        let line = || Line::Read {
            name: name.to_vec(),
            offset,
            count: output.len() as u64,
            time,
        };
        self.carry_out(&list, &line, 0)?;
        Ok(count)
    }

    /// All files, in the directory's order; sets the root's access time. In a directory without a file
    /// there is none to list, and the time stays; so it does on a frozen volume.
    pub fn entries(&mut self, time: u64) -> Result<Vec<Entry>, Error> {
        let entries = self.image()?.entries()?;
        if let Some(first) = entries.first() {
            let index = first.index;
            self.apply(&[Change::TouchRoot { index, time }])?;
        }
        Ok(entries)
    }

    /// Finishes a change that was cut. Gives whether there was one.
    pub fn recover(&mut self) -> Result<bool, Error> {
        let list = self.image()?.recovery()?;
        self.carry_out(&list, &|| Line::Recover, 0)?;
        Ok(!list.is_empty())
    }

    /// One slice of a recovery, of at most so many sector writes. Gives how many it wrote: 0 when no
    /// change waits. What shows its copy already is passed over: where a write or a barrier has failed,
    /// or a program was ended in the middle of a list, that need not be on the medium, and `recover`
    /// writes it again.
    pub fn recover_slice(&mut self, budget: u64) -> Result<usize, Error> {
        let list = self.image()?.recovery_slice(budget)?;
        self.carry_out(&list, &|| Line::Recover, 0)?;
        Ok(list.steps().filter(|step| *step != Step::Barrier).count())
    }

    /// A call without writes is not logged.
    fn carry_out(
        &mut self,
        list: &List,
        line: &dyn Fn() -> Line,
        changes_done: usize,
    ) -> Result<(), Error> {
        let mut logged = None;
        if let (Some(log), false) = (&mut self.log, list.is_empty()) {
            let line = line();
            log.begin(&line).map_err(|cause| Error::Unlogged {
                changes_done,
                cause,
            })?;
            logged = Some(line);
        }
        // In memory first: a list that doesn't fit the image must not touch the device.
        self.image.follow(list)?;
        self.unknown = true;
        let writes = list.steps().filter(|step| *step != Step::Barrier).count();
        let mut sending = Sending::new(&mut self.device);
        for step in list.steps() {
            sending
                .step(step)
                .map_err(|cause| sending.broken_off(writes as u64, changes_done, cause))?;
        }
        self.unknown = false;
        match (&mut self.log, logged) {
            // A recovery says nothing of the call that was cut.
            (_, None | Some(Line::Recover)) | (None, _) => (),
            // Best effort: without it the call is taken for one that may have been cut.
            (Some(log), _) => drop(log.end(&Line::Done)),
        }
        Ok(())
    }
}

/// At most so many bytes go out in one write.
const LONGEST_RUN: usize = 1 << 18;

/// A list on its way. Sectors of a group that follow one another go out in one write: within a group
/// any of them may land without the others.
struct Sending<'d, D> {
    device: &'d mut D,
    /// Sectors that are not sent yet, and the first one's number.
    run: Vec<u8>,
    first: u64,
    /// Sectors sent before the last barrier.
    landed: u64,
    /// Sectors sent after it.
    sent: u64,
}

impl<'d, D: Device> Sending<'d, D> {
    fn new(device: &'d mut D) -> Sending<'d, D> {
        Sending {
            device,
            run: Vec::new(),
            first: 0,
            landed: 0,
            sent: 0,
        }
    }

    fn step(&mut self, step: Step) -> io::Result<()> {
        match step {
            Step::Write(write) => {
                let next = self.first + (self.run.len() / SECTOR) as u64;
                if write.sector != next || self.run.len() >= LONGEST_RUN {
                    self.send_run()?;
                }
                if self.run.is_empty() {
                    self.first = write.sector;
                }
                self.run.extend_from_slice(write.contents);
            }
            Step::Barrier => {
                self.send_run()?;
                self.device.barrier()?;
                self.landed += self.sent;
                self.sent = 0;
            }
        }
        Ok(())
    }

    fn send_run(&mut self) -> io::Result<()> {
        if self.run.is_empty() {
            return Ok(());
        }
        // Counted before: of a write that fails, a part may land.
        self.sent += (self.run.len() / SECTOR) as u64;
        self.device.write(self.first, &self.run)?;
        self.run.clear();
        Ok(())
    }

    fn broken_off(&self, writes: u64, changes_done: usize, cause: io::Error) -> Error {
        Error::Interrupted(Interrupted {
            writes,
            landed: self.landed,
            sent: self.sent,
            changes_done,
            cause,
        })
    }
}

/// Formats a device. Until the last record has landed, the volume on it is unfinished.
/// `progress` is given how many records are done.
pub fn format(
    device: &mut impl Device,
    format: &Format,
    progress: &mut dyn FnMut(u64),
) -> Result<(), Error> {
    format.record(0)?;
    let needed = format.sectors.saturating_mul(SECTOR as u64);
    if device.length() < needed {
        return Err(Error::DeviceTooShort {
            needed,
            present: device.length(),
        });
    }
    let writes = format.records()? - FORMAT_BARRIERS;
    let mut sending = Sending::new(device);
    let mut position = 0;
    while let Some(record) = format.record(position)? {
        sending
            .step(step(&record))
            .map_err(|cause| sending.broken_off(writes, 0, cause))?;
        position += 1;
        progress(position);
    }
    Ok(())
}

#[cfg(test)]
mod tests {
    use super::*;
    use crate::device::Memory;
    use crate::error::Refusal;
    use crate::image::Edition;
    use crate::log::Sink;
    use std::sync::{Arc, Mutex};

    const SAMPLE: Format = Format {
        sectors: 1_313,
        files: 255,
        edition: Edition::First,
        id: 900,
        mode: 0o755,
        time: 1,
    };

    /// A medium that fails after so many writes and barriers.
    struct Failing {
        medium: Memory,
        left: u64,
    }

    impl Failing {
        fn step(&mut self) -> io::Result<()> {
            self.left = self
                .left
                .checked_sub(1)
                .ok_or_else(|| io::Error::other("the medium is gone"))?;
            Ok(())
        }
    }

    impl Device for Failing {
        fn length(&self) -> u64 {
            self.medium.length()
        }

        fn read(&self, first: u64, into: &mut [u8]) -> io::Result<()> {
            self.medium.read(first, into)
        }

        fn write(&mut self, first: u64, contents: &[u8]) -> io::Result<()> {
            self.step()?;
            self.medium.write(first, contents)
        }

        fn barrier(&mut self) -> io::Result<()> {
            self.step()
        }
    }

    fn formatted() -> Memory {
        let mut medium = Memory::of_sectors(1_313);
        format(&mut medium, &SAMPLE, &mut |_| ()).expect("the sample has room");
        medium
    }

    /// Whatever fails of a create, the report counts what landed, the volume must be
    /// opened again, and recovery makes it as before or as after.
    #[test]
    fn a_failing_device() {
        let before = formatted();
        let create = Change::Create {
            name: b"f",
            id: 1,
            mode: 0,
            time: 2,
        };
        // The sectors that have passed a barrier and those sent after it, for each write and barrier
        // that fails: two copies, which follow one another, the journal, a barrier; the start mark, a
        // barrier; root and entry, which follow one another, too, a barrier; the end mark, a barrier.
        let counts = [
            (0, 2),
            (0, 3),
            (0, 3),
            (3, 1),
            (3, 1),
            (4, 2),
            (4, 2),
            (6, 1),
            (6, 1),
        ];
        for (left, (landed, sent)) in counts.into_iter().enumerate() {
            // Two steps more: the opening sends the superblock, with a barrier.
            let device = Failing {
                medium: before.clone(),
                left: left as u64 + 2,
            };
            let mut volume = Volume::open(device).unwrap();
            let Err(Error::Interrupted(cut)) = volume.apply(&[create]) else {
                panic!("the device failed");
            };
            assert_eq!((cut.writes, cut.landed, cut.sent), (7, landed, sent));
            assert!(matches!(volume.image(), Err(Error::OpenAgain)));
            assert!(matches!(volume.recover(), Err(Error::OpenAgain)));

            let mut again = Volume::open(volume.into_device().medium).unwrap();
            let was_cut = again.recover().unwrap();
            // From the start mark to the end mark there is something to do.
            assert_eq!(was_cut, (4..8).contains(&left), "{left}");
            let image = again.image().unwrap();
            image.check().unwrap();
            let there = image.find(b"f").is_ok();
            assert_eq!(there, left >= 4, "{left}");
            assert_eq!(again.into_device().bytes.len(), before.bytes.len());
        }
    }

    /// A medium that counts the writes and barriers that come to it.
    struct Counting {
        medium: Memory,
        writes: usize,
        barriers: usize,
    }

    impl Device for Counting {
        fn length(&self) -> u64 {
            self.medium.length()
        }

        fn read(&self, first: u64, into: &mut [u8]) -> io::Result<()> {
            self.medium.read(first, into)
        }

        fn write(&mut self, first: u64, contents: &[u8]) -> io::Result<()> {
            self.writes += 1;
            self.medium.write(first, contents)
        }

        fn barrier(&mut self) -> io::Result<()> {
            self.barriers += 1;
            Ok(())
        }
    }

    /// 65,536 bytes into a new file are 135 sectors: 128 of data, two copies, the journal, the start
    /// mark, entry and table, the end mark. Barriers stay; sectors that follow one another go together.
    #[test]
    fn runs_of_sectors_go_out_in_one_write() {
        let mut counting = Counting {
            medium: formatted(),
            writes: 0,
            barriers: 0,
        };
        let mut volume = Volume::open(&mut counting).unwrap();
        let create = Change::Create {
            name: b"f",
            id: 1,
            mode: 0,
            time: 2,
        };
        volume.apply(&[create]).unwrap();
        drop(volume);
        // The superblock at the opening; copies, journal, start mark, root with entry, end mark.
        assert_eq!((counting.writes, counting.barriers), (1 + 5, 1 + 4));
        let mut volume = Volume::open(&mut counting).unwrap();
        let write = Change::Write {
            name: b"f",
            offset: 0,
            data: &[7; 65_536],
            time: 3,
        };
        volume.apply(&[write]).unwrap();
        let held = volume.image().unwrap().bytes().to_vec();
        drop(volume);
        assert_eq!((counting.writes, counting.barriers), (6 + 1 + 7, 5 + 1 + 4));
        assert!(counting.medium.bytes[..held.len()] == held);
    }

    /// Who reads through the image leaves the times alone; who reads through the volume sets an access
    /// time, on the device too, and nothing else.
    #[test]
    fn access_times() {
        let mut medium = formatted();
        let mut volume = Volume::open(&mut medium).unwrap();
        let mut output = [0; 9];
        assert_eq!(volume.entries(77).unwrap(), []);
        assert_eq!(volume.image().unwrap().root().access_time, 1);
        volume.save(b"f", b"counts", 5).unwrap();

        let image = volume.image().unwrap();
        let before = image.bytes().to_vec();
        assert_eq!(image.read(b"f", 1, &mut output).unwrap(), 5);
        assert_eq!(image.contents(b"f").unwrap(), b"counts");
        let mut file = image.find(b"f").unwrap();
        assert_eq!(image.entries().unwrap(), [file.clone()]);
        assert!(volume.image().unwrap().bytes() == before);

        for (offset, given, time) in [(1, 5, 78), (6, 0, 79)] {
            assert_eq!(volume.read(b"f", offset, &mut output, time).unwrap(), given);
            file.access_time = time;
            assert_eq!(volume.image().unwrap().find(b"f"), Ok(file.clone()));
        }
        let mut root = volume.image().unwrap().root();
        assert_eq!(root.access_time, 1);
        assert_eq!(volume.entries(80).unwrap(), [file.clone()]);
        root.access_time = 80;
        assert_eq!(volume.image().unwrap().root(), root);

        for (name, offset, time, refusal) in [
            (&b"f"[..], 7, 81, Refusal::PastTheEnd),
            (b"g", 0, 81, Refusal::NotThere),
            (b"f", 0, 1 << 32, Refusal::BadArgument),
        ] {
            let refused = volume.read(name, offset, &mut output, time);
            assert!(matches!(refused, Err(Error::Refused(found)) if found == refusal));
        }
        let held = volume.image().unwrap().bytes().to_vec();
        assert_eq!(volume.image().unwrap().find(b"f"), Ok(file));
        drop(volume);
        assert!(medium.bytes[..held.len()] == held);
    }

    /// The caller may stop between two changes; what was done is done.
    #[test]
    fn changes_are_stopped() {
        let create = |name| Change::Create {
            name,
            id: u64::from(name[0]),
            mode: 0,
            time: 2,
        };
        let changes = [create(b"a"), create(b"b"), create(b"c")];
        for (stage, stop, left) in [
            (Stage::Tried, 2, 0),
            (Stage::Done, 1, 1),
            (Stage::Done, 2, 2),
        ] {
            let mut volume = Volume::open(formatted()).unwrap();
            let outcome = volume.apply_telling(&changes, &mut |at, count| match (at, count)
                == (stage, stop)
            {
                true => ControlFlow::Break(()),
                false => ControlFlow::Continue(()),
            });
            assert!(
                matches!(outcome, Err(Error::Stopped { changes_done }) if changes_done == left)
            );
            let files = volume.image().unwrap().entries().unwrap().len();
            assert_eq!(files, left);
            let again = Volume::open(volume.into_device()).unwrap();
            assert_eq!(again.image().unwrap().entries().unwrap().len(), left);
        }
        // After the last there is nothing to stop.
        let mut volume = Volume::open(formatted()).unwrap();
        let outcome = volume.apply_telling(&changes, &mut |at, count| match (at, count) {
            (Stage::Done, 3) => ControlFlow::Break(()),
            _ => ControlFlow::Continue(()),
        });
        assert!(outcome.is_ok());
    }

    /// What comes to the log and to the medium, in one row.
    #[derive(Clone, Debug, Default)]
    struct Row(Arc<Mutex<Vec<String>>>);

    impl Row {
        fn add(&self, what: &str) {
            self.0.lock().unwrap().push(what.to_string());
        }
    }

    #[derive(Debug)]
    struct Sent {
        row: Row,
        /// How many calls can be logged.
        left: u64,
    }

    impl Sink for Sent {
        fn send(&mut self, bytes: &[u8]) -> io::Result<()> {
            let read = crate::log::read(bytes).unwrap();
            for (_, line) in read.lines {
                self.row.add(&line.to_string());
            }
            Ok(())
        }

        fn sync(&mut self) -> io::Result<()> {
            self.row.add("sync");
            self.left = self
                .left
                .checked_sub(1)
                .ok_or_else(|| io::Error::other("the line is broken"))?;
            Ok(())
        }
    }

    struct Rowed {
        medium: Memory,
        row: Row,
    }

    impl Device for Rowed {
        fn length(&self) -> u64 {
            self.medium.length()
        }

        fn read(&self, first: u64, into: &mut [u8]) -> io::Result<()> {
            self.medium.read(first, into)
        }

        fn write(&mut self, first: u64, contents: &[u8]) -> io::Result<()> {
            if self
                .row
                .0
                .lock()
                .unwrap()
                .last()
                .is_none_or(|last| last != "writes")
            {
                self.row.add("writes");
            }
            self.medium.write(first, contents)
        }

        fn barrier(&mut self) -> io::Result<()> {
            Ok(())
        }
    }

    /// Each call that writes has its line before its first write, and done after its last; a call that is
    /// refused or has nothing to do has none.
    #[test]
    fn calls_are_logged_before_they_write() {
        let row = Row::default();
        let device = Rowed {
            medium: formatted(),
            row: row.clone(),
        };
        let mut volume = Volume::open(device).unwrap();
        volume.log_to(Log::new(Sent {
            row: row.clone(),
            left: u64::MAX,
        }));
        row.0.lock().unwrap().clear();
        volume.save(b"f", b"ab", 5).unwrap();
        assert!(!volume.recover().unwrap());
        let same = Change::Rename {
            old: b"f",
            new: b"f",
            time: 6,
        };
        volume.apply(&[same]).unwrap();
        assert!(volume
            .apply(&[Change::Delete {
                name: b"g",
                time: 6
            }])
            .is_err());
        volume.read(b"f", 1, &mut [0; 4], 7).unwrap();
        volume.entries(8).unwrap();
        volume
            .save_together(&[(b"f", b"c"), (b"g", b"")], 9)
            .unwrap();
        let mut expected = vec!["start"];
        for call in [
            "create name=f.goofs-saving id=901 mode=644 time=5",
            "write name=f.goofs-saving offset=0 time=5 data=6162",
            "rename old=f.goofs-saving new=f time=5",
            "read name=f offset=1 count=4 time=7",
            "list index=0 time=8",
            "create name=f.goofs-saving id=902 mode=644 time=9",
            "write name=f.goofs-saving offset=0 time=9 data=63",
            "create name=g.goofs-saving id=903 mode=644 time=9",
            "rename_set old=f.goofs-saving new=f old=g.goofs-saving new=g time=9",
        ] {
            expected.extend([call, "sync", "writes", "done"]);
        }
        assert_eq!(*row.0.lock().unwrap(), expected);
    }

    /// Where a call can't be logged, nothing of it is written.
    #[test]
    fn nothing_is_done_unlogged() {
        for left in 0..3 {
            let mut volume = Volume::open(formatted()).unwrap();
            let row = Row::default();
            volume.log_to(Log::new(Sent {
                row: row.clone(),
                left,
            }));
            let failed = volume.save(b"f", b"ab", 5);
            let Err(Error::Unlogged { changes_done, .. }) = failed else {
                panic!("the log failed");
            };
            assert_eq!(changes_done as u64, left);
            let image = volume.image().unwrap();
            assert_eq!(image.entries().unwrap().len() as u64, left.min(1));
            let held = image.bytes().to_vec();
            assert!(volume.into_device().bytes[..held.len()] == held);
            let logged = row.0.lock().unwrap();
            let done = logged.iter().filter(|line| *line == "done").count();
            assert_eq!(done as u64, left);
        }
    }

    /// The image in memory stays what the device holds, and a refused batch writes nothing.
    #[test]
    fn image_and_device_in_step() {
        let mut volume = Volume::open(formatted()).unwrap();
        let name = b"f";
        let data = [7; 65_536];
        let create = Change::Create {
            name,
            id: 1,
            mode: 0,
            time: 2,
        };
        let write = |offset| Change::Write {
            name,
            offset,
            data: &data,
            time: 3,
        };
        volume.apply(&[create, write(0)]).unwrap();
        let full = [write(65_536), write(131_072), write(196_608)];
        let held = volume.image().unwrap().bytes().to_vec();
        assert!(matches!(
            volume.apply(&full),
            Err(Error::Refused(Refusal::NoRoom))
        ));
        assert!(volume.image().unwrap().bytes() == held);
        volume.apply(&full[..2]).unwrap();
        let held = volume.image().unwrap().bytes().to_vec();
        let device = volume.into_device();
        assert!(device.bytes[..held.len()] == held);
    }

    /// Two superblocks, root, 255 entries, one table sector and three barriers.
    #[test]
    fn records_of_a_format() {
        for edition in [Edition::First, Edition::Second] {
            let request = Format { edition, ..SAMPLE };
            assert_eq!(request.records(), Ok(262));
            let mut medium = Memory::of_sectors(1_313);
            format(&mut medium, &request, &mut |_| ()).unwrap();
            let summary = Image::load(&medium).unwrap().summary();
            assert_eq!(request.geometry(), Ok(summary));
            assert_eq!(summary.edition, edition);
            let latest = edition.latest_time();
            let at = |time| Format { time, ..request }.record(0);
            assert!(at(latest).is_ok());
            if let Some(later) = latest.checked_add(1) {
                assert_eq!(at(later), Err(Refusal::BadArgument));
            }
        }
        let too_few = Format {
            sectors: 1_056,
            ..SAMPLE
        };
        assert_eq!(too_few.records(), Err(Refusal::BadArgument));
        assert_eq!(too_few.geometry(), Err(Refusal::BadArgument));
    }

    #[test]
    fn a_device_too_short_for_its_format() {
        let mut medium = Memory::of_sectors(1_312);
        assert!(matches!(
            format(&mut medium, &SAMPLE, &mut |_| ()),
            Err(Error::DeviceTooShort { .. })
        ));
        assert!(medium.bytes.iter().all(|byte| *byte == 0));
    }
}
