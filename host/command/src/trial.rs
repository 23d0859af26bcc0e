//! The command trial: a change on a copy in memory, cut at every point, with recoveries that are cut
//! in turn; and what came of it.

use std::ffi::OsStr;
use std::fs;
use std::io;
use std::os::unix::ffi::OsStrExt;

use goofs::change::{Change, List, Write};
use goofs::device::SECTOR;
use goofs::error::Error;
use goofs::image::Image;

use crate::arguments::Arguments;
use crate::card;
use crate::changing::{edition_for, rename_change, renames, time, NewFile};
use crate::failure::{of_call, of_card, of_file, of_new, of_renames, or_frozen, quoted, Failure};
use crate::output::{print, save_image};
use crate::progress::Progress;
use crate::space::Space;
use crate::text;
use crate::writing::{
    look_up, of_put, one_write, put_changes, put_renames, read_all, resize_changes, size, How,
    Source,
};

/// Groups of up to this many writes are cut in every way.
const SMALL_GROUP: usize = 8;
/// So many subsets of a larger group are drawn.
const DRAWN_SUBSETS: usize = 32;
/// A recovery is cut in at most so many ways for each cut of the change, unless all are asked for.
const RECOVERY_CUTS: usize = 64;

pub fn run(arguments: &Arguments) -> Result<(), Failure> {
    let names: &[&str] = match arguments.places_or_more(&["CARD", "CHANGE"])?[1].as_bytes() {
        b"put" => &["FILE"],
        b"create" | b"rm" | b"get" => &["NAME"],
        b"ls" => &[],
        b"mv" => &["OLD", "NEW"],
        b"resize" => &["NAME", "SIZE"],
        b"write" => &["NAME", "OFFSET", "FILE"],
        other => {
            return Err(Failure::Usage(format!(
                "trial knows put, create, rm, mv, resize, write, get and ls, not {}",
                text::word(other)
            )))
        }
    };
    let names = [&["CARD", "CHANGE"], names].concat();
    let together = arguments.flag("together");
    let places = match arguments.places_or_more(&names)?[1].as_bytes() {
        b"mv" => arguments.places_or_more(&names)?,
        b"put" if together => arguments.places_or_more(&names)?,
        _ => arguments.places(&names)?,
    };
    let (new_file, time) = (NewFile::options(arguments)?, time(arguments)?);
    let seed = arguments.number("seed", 10, u64::MAX)?.unwrap_or(1);
    let leave = arguments.word("leave");
    let (card, kind, rest) = (&places[0], places[1].as_bytes(), &places[2..]);
    let how = How::options(arguments, rest.len())?;
    if kind != b"put" && (how != How::Beside || arguments.word("as").is_some()) {
        return Err(Failure::Usage(
            "--as, --in-place and --together are for put".to_string(),
        ));
    }
    if let (Some(id), b"put", 2..) = (new_file.id, kind, rest.len()) {
        return Err(Failure::Usage(format!(
            "--id {id} is for one file, and there are {} FILEs",
            rest.len()
        )));
    }
    // A trial may be long, so this is found out before it.
    if let Some(file) = leave.filter(|file| fs::symlink_metadata(file).is_ok()) {
        return Err(of_file(file)(io::ErrorKind::AlreadyExists.into()));
    }

    let mut image = card::read(card, arguments.wait()?)?;
    let edition = edition_for(card, &image, time)?;
    let sources = match kind {
        b"put" => Source::all(rest, arguments.word("as"))?,
        _ => Vec::new(),
    };
    let (puts, space) = (
        look_up(card, &image, &sources, &new_file, how, time)?,
        Space::of(&image),
    );
    let contents = match kind {
        b"write" => vec![one_write(&rest[2])?],
        _ => read_all(card, space, &puts)?,
    };
    let name = match &sources[..] {
        [source] => source.name,
        _ => rest.first().map_or(&b""[..], |name| name.as_bytes()),
    };
    let renames = match kind {
        b"mv" => renames(rest)?,
        _ => put_renames(&puts),
    };
    let changes = match kind {
        b"create" => {
            let create = new_file.change(&image, name, time);
            vec![create.map_err(of_card(card))?]
        }
        b"rm" => vec![Change::Delete { name, time }],
        b"mv" => vec![rename_change(&renames, time)],
        b"put" => put_changes(card, space, &puts, &contents, &renames)?,
        b"resize" => resize_changes(card, &image, name, size(&rest[1])?, time)?,
        b"get" => vec![Change::Touch { name, time }],
        b"ls" => {
            let files = image.entries().map_err(of_card(card))?;
            let index = files.first().map_or(0, |file| file.index);
            vec![Change::TouchRoot { index, time }]
        }
        _ => vec![Change::Write {
            name,
            offset: size(&rest[1])?,
            data: &contents[0],
            time,
        }],
    };
    // A refusal of any change comes before the first line of the table.
    let mut tried = Progress::new("changes tried", changes.len() as u64);
    let outcome = image.try_out(&changes, &mut |count| tried.at(count as u64));
    let refused = |error: Error| match kind {
        b"create" => of_new(card, name, edition, new_file.id, "take another NAME")(error),
        b"mv" => of_renames(card, &image, &renames, time)(error),
        b"put" => of_put(card, space, &puts)(error),
        b"ls" => of_card(card)(error),
        _ => of_call(card, name, edition)(error),
    };
    outcome.map_err(or_frozen(card, space, refused))?;
    drop(tried);

    let mut draw = Draw(seed);
    let every = arguments.flag("every");
    let mut all = Tally::default();
    // As wide as the longest change.
    let widths = changes.iter().map(|change| words(change).chars().count());
    let width = widths.max().unwrap_or(0).max(28);
    let line = |what: &str, tally: &Tally| line(what, width, tally);
    print(&format!(
        "{:<width$} {:>7} {:>7} {:>10} {:>7} {:>7} {:>7} {:>9}\n",
        "change", "writes", "cuts", "recoveries", "before", "part", "after", "different"
    ))?;
    for (done, change) in changes.iter().enumerate() {
        let tally = trial(&mut image, change, &mut draw, every).map_err(of_card(card))?;
        print(&line(&words(change), &tally))?;
        all.add(&tally);
        match leave.filter(|_| done + 1 == changes.len()) {
            Some(file) => {
                land_start_mark(&mut image, change).map_err(of_card(card))?;
                leave_image(card, file, &image)?;
            }
            None => image
                .list_of(change)
                .and_then(|list| Ok(image.carry_out(&list)?))
                .map_err(of_card::<Error>(card))?,
        }
    }
    if changes.len() > 1 {
        print(&line("all", &all))?;
    }
    print(&closing(&all))?;
    match all.different {
        0 => Ok(()),
        _ => Err(Failure::Other(format!(
            "{}: {} ends are neither as before nor as after; the first: {}.\n\
             Next: please report this with the card's image; it should not happen.",
            quoted(card),
            all.different,
            all.first_difference.unwrap_or_default()
        ))),
    }
}

/// The change cut right after its start mark.
fn land_start_mark(image: &mut Image, change: &Change) -> Result<(), Error> {
    let list = image.list_of(change)?;
    for write in list.groups().into_iter().take(2).flatten() {
        image.land(write)?;
    }
    Ok(())
}

fn leave_image(card: &OsStr, file: &OsStr, image: &Image) -> Result<(), Failure> {
    let length = image.summary().sectors() * SECTOR as u64;
    let mut progress = Progress::new("bytes written", length);
    let read = |start: u64, piece: &mut [u8]| {
        let read = image.sectors(start / SECTOR as u64, piece);
        read.map_err(of_card(card))
    };
    save_image(file, length, read, &mut |done| progress.at(done))
}

/// How much of what could be tried was tried.
fn closing(tally: &Tally) -> String {
    let (tried, ways) = (tally.recovery_cuts, tally.recovery_ways);
    let more = match tried < ways {
        true => "; --every tries them all",
        false => "",
    };
    let large = match tally.large_groups {
        0 => String::new(),
        groups => format!(
            "groups of more than {SMALL_GROUP} writes: {groups}, cut in some of their subsets only\n"
        ),
    };
    format!("{large}recoveries cut in {tried} of {ways} ways{more}\n")
}

fn words(change: &Change) -> String {
    match change {
        Change::Create { name, .. } => format!("create {}", text::word(name)),
        Change::Delete { name, .. } => format!("rm {}", text::word(name)),
        Change::Rename { old, new, .. } => format!("mv {} {}", text::word(old), text::word(new)),
        Change::RenameSet { renames, .. } => {
            let names = renames.iter().flat_map(|(old, new)| [*old, *new]);
            let names = names.map(text::word);
            format!("mv {}", Vec::from_iter(names).join(" "))
        }
        Change::Resize { name, size, .. } => format!("resize {} {size}", text::word(name)),
        Change::Write { name, offset, .. } => format!("write {} at {offset}", text::word(name)),
        Change::Touch { name, .. } => format!("get {}", text::word(name)),
        Change::TouchRoot { .. } => "ls".to_string(),
    }
}

fn line(what: &str, width: usize, tally: &Tally) -> String {
    format!(
        "{what:<width$} {:>7} {:>7} {:>10} {:>7} {:>7} {:>7} {:>9}\n",
        tally.writes,
        tally.cuts,
        tally.recoveries,
        tally.before,
        tally.part,
        tally.after,
        tally.different
    )
}

#[derive(Default)]
struct Tally {
    writes: u64,
    cuts: u64,
    /// Groups of the change that are too large for all subsets.
    large_groups: u64,
    recoveries: u64,
    /// The first recovery after each cut of the change: in how many ways it was cut, and could be.
    recovery_cuts: u64,
    recovery_ways: u64,
    before: u64,
    part: u64,
    after: u64,
    different: u64,
    first_difference: Option<String>,
}

impl Tally {
    fn add(&mut self, other: &Tally) {
        self.writes += other.writes;
        self.cuts += other.cuts;
        self.large_groups += other.large_groups;
        self.recoveries += other.recoveries;
        self.recovery_cuts += other.recovery_cuts;
        self.recovery_ways += other.recovery_ways;
        self.before += other.before;
        self.part += other.part;
        self.after += other.after;
        self.different += other.different;
        if self.first_difference.is_none() {
            self.first_difference.clone_from(&other.first_difference);
        }
    }

    fn differs(&mut self, what: String) {
        self.different += 1;
        self.first_difference.get_or_insert(what);
    }
}

/// What an end is compared with: the metadata but for the journal and, of each data sector that the
/// change writes, the bytes that belong to a file. A trial writes to nothing else, so that its memory
/// and time do not depend on how many bytes the files have.
///
/// Create, delete and rename raise the root's version and set its change time; write and resize leave
/// the root as it is; get and ls only set an access time. In all of them the root, the entries and the table change with the start mark,
/// together. So at an end the metadata are all as before or all as after. Only bytes of files may be
/// old in one sector and new in another, and only where the metadata are as before.
#[derive(Debug)]
struct Snapshot {
    metadata: [Vec<u8>; 2],
    sectors: Vec<(u64, Vec<u8>)>,
}

impl Snapshot {
    /// Of a sound volume. Whether it is sound depends on these metadata alone.
    fn of(image: &Image, data_sectors: &[u64]) -> Result<Snapshot, Error> {
        image.check()?;
        Ok(Snapshot {
            metadata: metadata(image).map(<[u8]>::to_vec),
            sectors: data_sectors
                .iter()
                .map(|sector| Ok((*sector, file_bytes(image, *sector)?)))
                .collect::<Result<_, Error>>()?,
        })
    }

    fn has_metadata_of(&self, image: &Image) -> bool {
        metadata(image) == [&self.metadata[0][..], &self.metadata[1]]
    }

    fn is(&self, image: &Image) -> Result<bool, Error> {
        if !self.has_metadata_of(image) {
            return Ok(false);
        }
        for (sector, bytes) in &self.sectors {
            if file_bytes(image, *sector)? != *bytes {
                return Ok(false);
            }
        }
        Ok(true)
    }

    /// Whether the image has these metadata, and each sector of a file is as here or as after.
    fn is_in_part(&self, after: &Snapshot, image: &Image) -> Result<bool, Error> {
        if !self.has_metadata_of(image) {
            return Ok(false);
        }
        for ((sector, before), (_, after)) in self.sectors.iter().zip(&after.sectors) {
            let now = file_bytes(image, *sector)?;
            if now != *before && Some(&now[..]) != after.get(..now.len()) {
                return Ok(false);
            }
        }
        Ok(true)
    }
}

/// Superblock, root and directory, and the table.
fn metadata(image: &Image) -> [&[u8]; 2] {
    let summary = image.summary();
    let [journal_at, table_at, data_at] =
        [summary.journal_at(), summary.table_at(), summary.data_at()]
            .map(|sector| sector as usize * SECTOR);
    let bytes = image.bytes();
    [&bytes[..journal_at], &bytes[table_at..data_at]]
}

/// The bytes of a data sector that belong to a file: those of its extent up to the file's size.
fn file_bytes(image: &Image, sector: u64) -> Result<Vec<u8>, Error> {
    let (summary, bytes) = (image.summary(), image.bytes());
    let number = |at: usize, count: usize| {
        let digits = bytes[at..at + count].iter();
        digits.fold(0, |sum, byte| sum << 8 | u64::from(*byte))
    };
    let place = sector - summary.data_at();
    let extent = place / summary.extent_sectors;
    let table_entry = summary.table_at() as usize * SECTOR + extent as usize * 4;
    let (file, offset) = (number(table_entry, 2), number(table_entry + 2, 2));
    let size = match file < summary.files {
        true => number((2 + file as usize) * SECTOR + 2, 8),
        false => 0,
    };
    let before = (offset * summary.extent_sectors + place % summary.extent_sectors) * SECTOR as u64;
    let count = size.saturating_sub(before).min(SECTOR as u64) as usize;
    let mut contents = vec![0; SECTOR];
    image.sectors(sector, &mut contents)?;
    contents.truncate(count);
    Ok(contents)
}

/// What lands of a list: all groups before this one, and of it the writes with these places.
struct Cut {
    group: usize,
    landed: Vec<usize>,
}

fn cuts(groups: &[Vec<Write>], draw: &mut Draw) -> Vec<Cut> {
    let mut cuts = Vec::new();
    for (group, writes) in groups.iter().enumerate() {
        let count = writes.len();
        let mut subsets: Vec<Vec<usize>> = Vec::new();
        if count <= SMALL_GROUP {
            for chosen in 0..1_usize << count {
                subsets.push((0..count).filter(|i| chosen >> i & 1 == 1).collect());
            }
        } else {
            subsets.extend((0..=count).map(|first| (0..first).collect()));
            // The first write alone is among the first parts already.
            subsets.extend((1..count).map(|single| vec![single]));
            subsets.extend(
                (0..DRAWN_SUBSETS).map(|_| (0..count).filter(|_| draw.below(2) == 0).collect()),
            );
        }
        cuts.extend(subsets.into_iter().map(|landed| Cut { group, landed }));
    }
    cuts
}

/// Sectors that were landed over, so that an image can be taken back without a copy of all of it.
type Undo = Vec<(u64, [u8; SECTOR])>;

fn land(image: &mut Image, groups: &[Vec<Write>], cut: &Cut) -> Result<Undo, Error> {
    let whole = groups[..cut.group].iter().flatten();
    let part = cut.landed.iter().map(|place| &groups[cut.group][*place]);
    land_writes(image, whole.chain(part))
}

fn land_all(image: &mut Image, groups: &[Vec<Write>]) -> Result<Undo, Error> {
    land_writes(image, groups.iter().flatten())
}

fn land_writes<'w>(
    image: &mut Image,
    writes: impl Iterator<Item = &'w Write<'w>>,
) -> Result<Undo, Error> {
    writes
        .map(|write| Ok((write.sector, image.land(*write)?)))
        .collect()
}

fn take_back(image: &mut Image, undo: Undo) -> Result<(), Error> {
    for (sector, contents) in undo.into_iter().rev() {
        image.land(Write {
            sector,
            contents: &contents,
        })?;
    }
    Ok(())
}

/// Cuts one change in every way. The image is then as it was.
fn trial(image: &mut Image, change: &Change, draw: &mut Draw, every: bool) -> Result<Tally, Error> {
    let list = image.list_of(change)?;
    let groups = list.groups();
    let data_at = image.summary().data_at();
    let written = groups.iter().flatten().map(|write| write.sector);
    let data_sectors: Vec<u64> = written.filter(|sector| *sector >= data_at).collect();
    let before = Snapshot::of(image, &data_sectors)?;
    let undo = land_all(image, &groups)?;
    let after = Snapshot::of(image, &data_sectors)?;
    take_back(image, undo)?;
    let cuts = cuts(&groups, draw);
    let mut scene = Scene {
        before,
        after,
        every,
        tally: Tally {
            writes: groups.iter().map(Vec::len).sum::<usize>() as u64,
            large_groups: groups
                .iter()
                .filter(|group| group.len() > SMALL_GROUP)
                .count() as u64,
            cuts: cuts.len() as u64,
            ..Tally::default()
        },
    };
    let mut progress = Progress::new("cuts", cuts.len() as u64);
    for (done, cut) in cuts.iter().enumerate() {
        let undo = land(image, &groups, cut)?;
        let point = format!(
            "cut in group {} with {} of its {} writes landed",
            cut.group + 1,
            cut.landed.len(),
            groups[cut.group].len()
        );
        scene.recoveries(image, &point, draw)?;
        take_back(image, undo)?;
        progress.at(done as u64 + 1);
    }
    Ok(scene.tally)
}

struct Scene {
    before: Snapshot,
    after: Snapshot,
    /// Whether recoveries are cut in all ways.
    every: bool,
    tally: Tally,
}

impl Scene {
    /// A recovery that goes through, and recoveries that are cut, and cut again, before one does.
    fn recoveries(&mut self, image: &mut Image, point: &str, draw: &mut Draw) -> Result<(), Error> {
        let Some(list) = self.completed(image, point)? else {
            return Ok(());
        };
        let groups = list.groups();
        let mut cuts = cuts(&groups, draw);
        self.tally.recovery_ways += cuts.len() as u64;
        while cuts.len() > RECOVERY_CUTS && !self.every {
            cuts.swap_remove(draw.below(cuts.len()));
        }
        self.tally.recovery_cuts += cuts.len() as u64;
        for cut in &cuts {
            let undo = land(image, &groups, cut)?;
            self.tally.recoveries += 1;
            let point = format!("{point}, a recovery cut in group {}", cut.group + 1);
            let again = self.completed(image, &point)?;
            if let Some(again) = again {
                self.second_cut(image, &again, &point, draw)?;
            }
            take_back(image, undo)?;
        }
        Ok(())
    }

    /// A second recovery in a row that is cut, at one point drawn.
    fn second_cut(
        &mut self,
        image: &mut Image,
        list: &List,
        point: &str,
        draw: &mut Draw,
    ) -> Result<(), Error> {
        let groups = list.groups();
        let group = draw.below(groups.len());
        let landed = (0..groups[group].len())
            .filter(|_| draw.below(2) == 0)
            .collect();
        let undo = land(image, &groups, &Cut { group, landed })?;
        self.tally.recoveries += 1;
        self.completed(
            image,
            &format!("{point}, another cut in group {}", group + 1),
        )?;
        take_back(image, undo)?;
        Ok(())
    }

    /// Completes a recovery, judges its end and takes it back. Gives the recovery's list unless it
    /// is empty or was refused.
    fn completed(&mut self, image: &mut Image, point: &str) -> Result<Option<List>, Error> {
        self.tally.recoveries += 1;
        let list = match image.recovery() {
            Ok(list) => list,
            Err(Error::Refused(refusal)) => {
                self.tally
                    .differs(format!("{point}: recovery gives {}", refusal.number()));
                return Ok(None);
            }
            Err(error) => return Err(error),
        };
        let groups = list.groups();
        let data_at = image.summary().data_at();
        if groups.iter().flatten().any(|write| write.sector >= data_at) {
            self.tally
                .differs(format!("{point}: recovery writes to the data area"));
            return Ok(None);
        }
        let undo = land_all(image, &groups)?;
        self.judge(image, point)?;
        take_back(image, undo)?;
        Ok((!list.is_empty()).then_some(list))
    }

    fn judge(&mut self, image: &Image, point: &str) -> Result<(), Error> {
        if self.before.is(image)? {
            self.tally.before += 1;
        } else if self.after.is(image)? {
            self.tally.after += 1;
        } else if self.before.is_in_part(&self.after, image)? {
            self.tally.part += 1;
        } else {
            self.tally.differs(match image.check() {
                Ok(()) => format!("{point}: another root, other files or other bytes"),
                Err(refusal) => {
                    let number = refusal.number();
                    format!("{point}: check gives {number} ({refusal})")
                }
            });
        }
        Ok(())
    }
}

/// A small generator of random numbers (splitmix64); a trial is repeated with its seed. The first
/// number is a one-to-one function of the seed, so all seeds draw differently.
struct Draw(u64);

impl Draw {
    fn number(&mut self) -> u64 {
        self.0 = self.0.wrapping_add(0x9e37_79b9_7f4a_7c15);
        let mixed = (self.0 ^ self.0 >> 30).wrapping_mul(0xbf58_476d_1ce4_e5b9);
        let mixed = (mixed ^ mixed >> 27).wrapping_mul(0x94d0_49bb_1331_11eb);
        mixed ^ mixed >> 31
    }

    fn below(&mut self, bound: usize) -> usize {
        (self.number() % bound as u64) as usize
    }
}

#[cfg(test)]
mod tests {
    use super::*;
    use goofs::change::Format;
    use goofs::device::Memory;
    use goofs::image::Edition;
    use goofs::volume;

    fn sample() -> Image {
        let mut medium = Memory::of_sectors(1_313);
        let format = Format {
            sectors: 1_313,
            files: 255,
            edition: Edition::First,
            id: 900,
            mode: 0,
            time: 1,
        };
        volume::format(&mut medium, &format, &mut |_| ()).expect("the sample has room");
        Image::new(medium.bytes).expect("it is a volume")
    }

    fn with_file(mut image: Image, name: &[u8]) -> Image {
        let create = Change::Create {
            name,
            id: 1,
            mode: 0,
            time: 2,
        };
        carry_out(&mut image, &create);
        image
    }

    fn carry_out(image: &mut Image, change: &Change) {
        let list = image.list_of(change).unwrap();
        image.carry_out(&list).unwrap();
    }

    /// The image with these bytes in a sector.
    fn changed(mut image: Image, sector: u64, at: usize, bytes: &[u8]) -> Image {
        let start = sector as usize * SECTOR;
        let mut contents: [u8; SECTOR] = image.bytes()[start..start + SECTOR].try_into().unwrap();
        contents[at..at + bytes.len()].copy_from_slice(bytes);
        let write = Write {
            sector,
            contents: &contents,
        };
        image.land(write).unwrap();
        image
    }

    fn judged(before: &Image, after: &Image, ends: &[Image]) -> Tally {
        let data_at = before.summary().data_at();
        let sectors: Vec<u64> = (data_at..before.summary().sectors()).collect();
        let mut scene = Scene {
            before: Snapshot::of(before, &sectors).unwrap(),
            after: Snapshot::of(after, &sectors).unwrap(),
            every: false,
            tally: Tally::default(),
        };
        for image in ends {
            scene.judge(image, "here").unwrap();
        }
        scene.tally
    }

    /// Ends that are neither as before nor as after are found and reported.
    #[test]
    fn differences_are_counted() {
        let (before, after) = (sample(), with_file(sample(), b"f"));
        let other = with_file(sample(), b"g");
        let unsound = changed(sample(), 2, 0, &[1; SECTOR]);
        let ends = [sample(), with_file(sample(), b"f"), other, unsound];
        let tally = judged(&before, &after, &ends);
        assert_eq!((tally.before, tally.after, tally.part), (1, 1, 0));
        assert_eq!(tally.different, 2);
        assert_eq!(
            tally.first_difference.as_deref(),
            Some("here: another root, other files or other bytes")
        );
    }

    /// Each field of the root counts, and it must be of the same side as the entries.
    #[test]
    fn the_root_is_compared() {
        let (before, after) = (sample(), with_file(sample(), b"f"));
        let root_of = |image: &Image| image.bytes()[SECTOR..2 * SECTOR].to_vec();
        let mixed = [
            changed(sample(), 1, 0, &root_of(&after)),
            changed(with_file(sample(), b"f"), 1, 0, &root_of(&before)),
        ];
        let tally = judged(&before, &after, &mixed);
        assert_eq!(
            (tally.different, tally.before + tally.after + tally.part),
            (2, 0)
        );

        // The last byte of the version, id, mode, access time and change time.
        let fields = [3, 11, 15, 19, 23].map(|last| changed(sample(), 1, last, &[77]));
        let tally = judged(&before, &after, &fields);
        assert_eq!(
            (tally.different, tally.before + tally.after + tally.part),
            (5, 0)
        );
    }

    /// Sectors may be mixed only where root and entries are as before.
    #[test]
    fn mixed_sectors_need_the_root_of_before() {
        let file = || {
            let mut image = with_file(sample(), b"f");
            carry_out(&mut image, &write(&[1; 1_024]));
            image
        };
        fn write(data: &[u8]) -> Change<'_> {
            Change::Write {
                name: b"f",
                offset: 0,
                data,
                time: 3,
            }
        }
        let (before, mut after) = (file(), file());
        carry_out(&mut after, &write(&[2; 1_024]));
        let data_at = before.summary().data_at();
        let part = changed(file(), data_at, 0, &[2; SECTOR]);
        let other = changed(file(), data_at, 0, &[3; SECTOR]);
        let root = changed(changed(file(), data_at, 0, &[2; SECTOR]), 1, 3, &[77]);
        let tally = judged(&before, &after, &[part, other, root]);
        assert_eq!((tally.part, tally.different), (1, 2));
        // The last byte of the file, and the first byte behind it.
        let last = changed(file(), data_at + 1, 511, &[9]);
        let behind = changed(file(), data_at + 2, 0, &[9]);
        let tally = judged(&before, &after, &[last, behind]);
        assert_eq!((tally.different, tally.before), (1, 1));
    }

    #[test]
    fn seeds_draw_differently() {
        let drawn = |seed| {
            let mut draw = Draw(seed);
            (0..4).map(|_| draw.number()).collect::<Vec<_>>()
        };
        let seeds = [0, 1, 2, 3, 4, 5, u64::MAX - 1, u64::MAX];
        for (i, one) in seeds.iter().enumerate() {
            assert_eq!(drawn(*one), drawn(*one));
            for other in &seeds[..i] {
                assert_ne!(drawn(*one), drawn(*other), "{one} and {other}");
            }
        }
        // Subsets are drawn by single bits.
        let mut draw = Draw(0);
        let ones = (0..1_000).filter(|_| draw.below(2) == 1).count();
        assert!((400..600).contains(&ones), "{ones}");
    }

    /// An image is taken back to the byte after each cut.
    #[test]
    fn landing_is_taken_back() {
        let mut image = with_file(sample(), b"f");
        let delete = Change::Delete {
            name: b"f",
            time: 3,
        };
        let list = image.list_of(&delete).unwrap();
        let groups = list.groups();
        let held = image.bytes().to_vec();
        for cut in cuts(&groups, &mut Draw(1)) {
            let undo = land(&mut image, &groups, &cut).unwrap();
            take_back(&mut image, undo).unwrap();
            assert!(image.bytes() == held);
        }
        trial(&mut image, &delete, &mut Draw(1), false).unwrap();
        assert!(image.bytes() == held);
    }
}
