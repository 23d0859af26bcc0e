//! Changes on a card whose writes and barriers fail, as a system with a page cache lets them fail: what
//! a failed barrier did not bring to the medium is shown all the same, and the next barrier succeeds.
//! After each fault comes what the command advises, then another change that the power cuts at each of
//! its points, then a recovery. The oracle's ledger says what the volume may hold.

use std::collections::{BTreeMap, BTreeSet};
use std::io;
use std::ops::Range;
use std::rc::Rc;

use goofs::change::{Change, Format, RECORD};
use goofs::device::{Device, SECTOR};
use goofs::error::Error;
use goofs::image::{Edition, Image, State};
use goofs::volume::{self, Volume};
use oracle::draw::Draw;
use oracle::ledger::CutReport;
use oracle::power::{data_sectors, groups};
use oracle::testing::requests::{create, delete, list, read, rename, resize, shortened, write};
use oracle::{FormatRequest, Ledger, Lent, Request};

/// Which pages the system forgets when it is asked to.
#[derive(Clone, Copy, Debug, PartialEq, Eq)]
enum Forgets {
    All,
    None,
    Drawn,
}

/// What becomes of the sectors that are not on the medium when a write or barrier fails.
#[derive(Clone, Copy, Debug, PartialEq, Eq)]
enum Fate {
    AllLost,
    AllLanded,
    /// They are still to be written, as when the program is ended.
    Kept,
    /// Each on its own.
    Drawn(u64),
}

#[derive(Clone, Copy, Debug)]
struct Fault {
    /// The write or barrier that fails.
    at: u64,
    fate: Fate,
}

/// A medium, and what the system shows of it. All cards of a test share the sectors that they began
/// with.
#[derive(Clone)]
struct Card {
    began: Rc<Vec<u8>>,
    medium: BTreeMap<u64, [u8; SECTOR]>,
    /// Sectors that are shown in the place of the medium's.
    pages: BTreeMap<u64, [u8; SECTOR]>,
    /// Those of them that the system has still to write.
    unwritten: BTreeSet<u64>,
    /// Sectors of a page: with one of them all that are shown of it are written.
    page: u64,
    forgets: Forgets,
    fault: Option<Fault>,
    steps: u64,
}

fn place(sector: u64) -> Range<usize> {
    let at = sector as usize * SECTOR;
    at..at + SECTOR
}

impl Card {
    fn of(bytes: Vec<u8>) -> Card {
        Card {
            began: Rc::new(bytes),
            medium: BTreeMap::new(),
            pages: BTreeMap::new(),
            unwritten: BTreeSet::new(),
            page: 1,
            forgets: Forgets::All,
            fault: None,
            steps: 0,
        }
    }

    /// The card after this step fails, or not.
    fn set(mut self, fault: Option<Fault>) -> Card {
        (self.fault, self.steps) = (fault, 0);
        self
    }

    /// The power is cut and comes back.
    fn cut(mut self) -> Card {
        self.pages.clear();
        self.unwritten.clear();
        self.set(None)
    }

    fn land(&mut self, sector: u64) {
        self.medium.insert(sector, self.pages[&sector]);
    }

    /// All bytes on the medium.
    fn bytes(&self) -> Vec<u8> {
        let mut bytes = self.began.to_vec();
        for (sector, contents) in &self.medium {
            bytes[place(*sector)].copy_from_slice(contents);
        }
        bytes
    }

    /// Whether this step fails; then its fate has been dealt out.
    fn fails(&mut self, is_barrier: bool) -> bool {
        self.steps += 1;
        let Some(Fault { at, fate }) = self.fault else {
            return false;
        };
        if self.steps - 1 != at {
            return false;
        }
        let mut draw = Draw::new(match fate {
            Fate::Drawn(seed) => seed,
            _ => 0,
        });
        let mut kept = BTreeSet::new();
        for sector in std::mem::take(&mut self.unwritten) {
            match fate {
                Fate::AllLost => {}
                Fate::AllLanded => self.land(sector),
                Fate::Kept => _ = kept.insert(sector),
                Fate::Drawn(_) => match draw.below(if is_barrier { 2 } else { 3 }) {
                    0 => {}
                    1 => self.land(sector),
                    _ => _ = kept.insert(sector),
                },
            }
        }
        self.unwritten = kept;
        true
    }
}

impl Device for Card {
    fn length(&self) -> u64 {
        self.began.len() as u64
    }

    fn read(&self, first: u64, into: &mut [u8]) -> io::Result<()> {
        let at = first as usize * SECTOR;
        into.copy_from_slice(&self.began[at..at + into.len()]);
        let end = first + (into.len() / SECTOR) as u64;
        for sectors in [&self.medium, &self.pages] {
            for (sector, contents) in sectors.range(first..end) {
                into[place(sector - first)].copy_from_slice(contents);
            }
        }
        Ok(())
    }

    fn write(&mut self, first: u64, contents: &[u8]) -> io::Result<()> {
        // Of a write that fails, the first half is taken.
        let fails = self.fault.is_some_and(|fault| fault.at == self.steps);
        let count = contents.len() / SECTOR / if fails { 2 } else { 1 };
        for (sector, contents) in (first..).zip(contents.chunks_exact(SECTOR)).take(count) {
            self.pages.insert(sector, contents.try_into().unwrap());
            let page = sector / self.page * self.page;
            let shown = self.pages.range(page..page + self.page);
            self.unwritten.extend(shown.map(|(sector, _)| sector));
        }
        match self.fails(false) {
            true => Err(io::Error::other("the write failed")),
            false => Ok(()),
        }
    }

    fn barrier(&mut self) -> io::Result<()> {
        if self.fails(true) {
            return Err(io::Error::other("the barrier failed"));
        }
        for sector in std::mem::take(&mut self.unwritten) {
            self.land(sector);
        }
        Ok(())
    }

    fn forget(&mut self) {
        let mut draw = Draw::new(self.steps);
        self.pages.retain(|sector, _| {
            let forgets = match self.forgets {
                Forgets::All => true,
                Forgets::None => false,
                Forgets::Drawn => draw.one_in(2),
            };
            !forgets || self.unwritten.contains(sector)
        });
    }
}

/// Longer than any list.
const LENT: Lent = Lent::both(2_000 * RECORD);

fn change(request: &Request) -> Change<'_> {
    match request {
        Request::Create {
            name,
            id,
            mode,
            time,
        } => Change::Create {
            name,
            id: *id,
            mode: *mode,
            time: *time,
        },
        Request::Delete { name, time } => Change::Delete { name, time: *time },
        Request::Rename { old, new, time } => Change::Rename {
            old,
            new,
            time: *time,
        },
        Request::Resize { name, size, time } => Change::Resize {
            name,
            size: *size,
            time: *time,
        },
        Request::Write {
            name,
            offset,
            data,
            time,
        } => Change::Write {
            name,
            offset: *offset,
            data,
            time: *time,
        },
        Request::Read { name, time, .. } => Change::Touch { name, time: *time },
        Request::List { index, time } => Change::TouchRoot {
            index: *index,
            time: *time,
        },
        _ => panic!("it changes nothing"),
    }
}

/// Opens the card and does the changes.
fn run(card: &mut Card, requests: &[Request]) -> Result<(), Error> {
    let changes: Vec<Change> = requests.iter().map(change).collect();
    Volume::open(card)?.apply(&changes)
}

/// What the command advises after a failure, and what is done after a cut: a recovery. The volume must
/// then be sound, and one of these ends; all of them that it can be are given.
fn recovered(card: &mut Card, ends: Vec<End>, what: &str) -> Vec<End> {
    let mut volume = Volume::open(card).unwrap_or_else(|error| panic!("{what}: {error}"));
    if let Err(error) = volume.recover() {
        panic!("{what}: {error}");
    }
    let image = volume.image().unwrap();
    if let Err(refusal) = image.check() {
        panic!("{what}: {refusal}");
    }
    let differences: Vec<Option<String>> = ends
        .iter()
        .map(|end| end.ledger.compare(image.bytes()).err())
        .collect();
    assert!(differences.contains(&None), "{what}: {differences:?}");
    let matching = ends.into_iter().zip(differences);
    matching
        .filter_map(|(end, difference)| difference.is_none().then_some(end))
        .collect()
}

/// What changes may have come to that were cut or failed somewhere.
#[derive(Clone)]
struct End {
    /// So many of them are done.
    done: usize,
    ledger: Ledger,
}

/// All ends. The first change that is not done may have left any of its data sectors.
fn ends(before: &Ledger, requests: &[Request]) -> Vec<End> {
    let mut ends = Vec::new();
    let mut ledger = before.clone();
    for done in 0..=requests.len() {
        ends.push(End {
            done,
            ledger: ledger.clone(),
        });
        let Some(request) = requests.get(done) else {
            break;
        };
        for landed in 1..1_u32 << data_sectors_of(request) {
            let mut part = ledger.clone();
            let report = CutReport {
                start_mark: false,
                data_sectors: (0..32).filter(|place| landed >> place & 1 == 1).collect(),
            };
            part.cut_call(request, LENT, &report);
            if ends.iter().all(|end| end.ledger != part) {
                ends.push(End { done, ledger: part });
            }
        }
        let told = ledger.call(request, LENT);
        assert_eq!(told.answer.code(), 0, "{}", shortened(request));
    }
    ends
}

/// At most, of a write or of a resize that grows a little; the ledger passes over what isn't there.
fn data_sectors_of(request: &Request) -> usize {
    match request {
        Request::Write { offset, data, .. } => {
            let end = offset + data.len() as u64;
            (end.div_ceil(SECTOR as u64) - offset / SECTOR as u64) as usize
        }
        Request::Resize { .. } => 2,
        _ => 0,
    }
}

/// Five extents, of which one is the reserve.
fn format(edition: Edition) -> Format {
    Format {
        sectors: 546 + 255 + 5 * 128,
        files: 255,
        edition,
        id: 900,
        mode: 0o755,
        time: 1,
    }
}

const EDITIONS: [Edition; 2] = [Edition::First, Edition::Second];

/// The ledger after the format.
fn empty(edition: Edition) -> Ledger {
    let Format {
        sectors,
        files,
        edition,
        id,
        mode,
        time,
    } = format(edition);
    let format = FormatRequest {
        edition: edition.number(),
        sectors,
        files,
        id,
        mode,
        time,
    };
    Ledger::new(&format).unwrap()
}

/// A volume with the files `f`, of three sectors, `g` and `h`, and its ledger.
fn sample(edition: Edition) -> (Card, Ledger) {
    let format = format(edition);
    let mut card = Card::of(vec![0; format.sectors as usize * SECTOR]);
    volume::format(&mut card, &format, &mut |_| ()).unwrap();
    let mut ledger = empty(edition);
    let requests = [
        create(b"f", 1),
        create(b"g", 2),
        create(b"h", 3),
        write(b"f", 0, vec![1; 1_400]),
        write(b"g", 0, vec![2; 600]),
    ];
    run(&mut card, &requests).unwrap();
    for request in &requests {
        ledger.call(request, LENT);
    }
    ledger.compare(&card.bytes()).unwrap();
    (Card::of(card.bytes()), ledger)
}

/// What one command does: the changes, and what they are of.
fn commands() -> Vec<(&'static str, Vec<Request>)> {
    vec![
        ("create", vec![create(b"n", 9)]),
        ("rm", vec![delete(b"f")]),
        ("resize, shorter", vec![resize(b"f", 100)]),
        ("resize, to nothing", vec![resize(b"f", 0)]),
        ("resize, longer", vec![resize(b"f", 1_900)]),
        ("write over old bytes", vec![write(b"f", 300, vec![7; 900])]),
        ("write at the end", vec![write(b"f", 1_400, vec![7; 900])]),
        (
            "put of a new file",
            vec![create(b"n", 9), write(b"n", 0, vec![8; 1_000])],
        ),
        (
            "put over a longer file",
            vec![write(b"f", 0, vec![8; 700]), resize(b"f", 700)],
        ),
        ("mv", vec![rename(b"f", b"n")]),
        ("get --touch", vec![read(b"f", 0, 0), read(b"g", 0, 0)]),
        ("ls --touch", vec![list(0)]),
        (
            "put beside a file and mv onto it",
            vec![
                create(b"n", 9),
                write(b"n", 0, vec![8; 700]),
                rename(b"n", b"f"),
            ],
        ),
    ]
}

/// Changes of other files, which go through whatever became of the first.
fn next_changes() -> Vec<Vec<Request>> {
    vec![
        vec![create(b"o", 10)],
        vec![delete(b"g")],
        vec![resize(b"g", 10)],
        vec![resize(b"g", 1_300)],
        vec![write(b"g", 100, vec![5; 500])],
        vec![write(b"h", 0, vec![6; 400])],
        vec![rename(b"h", b"g")],
    ]
}

const FATES: [Fate; 5] = [
    Fate::AllLost,
    Fate::AllLanded,
    Fate::Kept,
    Fate::Drawn(1),
    Fate::Drawn(2),
];

/// In each way that a step fails, on a system that forgets all pages, none or some.
const WAYS: [(Fate, Forgets); 11] = [
    (Fate::AllLost, Forgets::All),
    (Fate::AllLost, Forgets::None),
    (Fate::AllLanded, Forgets::All),
    (Fate::AllLanded, Forgets::None),
    (Fate::Kept, Forgets::All),
    (Fate::Kept, Forgets::None),
    (Fate::Drawn(1), Forgets::All),
    (Fate::Drawn(1), Forgets::None),
    (Fate::Drawn(2), Forgets::All),
    (Fate::Drawn(2), Forgets::None),
    (Fate::Drawn(3), Forgets::Drawn),
];

/// Each write and barrier of each command fails, the opening's too; then the advice; then another
/// change, or the rest of the same, that is cut at each of its writes and barriers.
#[test]
fn a_fault_then_the_advice_then_a_cut() {
    for edition in EDITIONS {
        fault_then_cut(sample(edition));
    }
}

fn fault_then_cut((card, ledger): (Card, Ledger)) {
    let others = next_changes();
    let (mut faults, mut cuts) = (0, 0);
    for (name, command) in commands() {
        for at in 0.. {
            let mut reached = false;
            for (fate, forgets) in WAYS {
                let what = format!("{name}, step {at} fails, {fate:?}, forgets {forgets:?}");
                let mut failed = card.clone().set(Some(Fault { at, fate }));
                failed.forgets = forgets;
                failed.page = if at % 2 == 0 { 1 } else { 8 };
                let outcome = run(&mut failed, &command);
                reached = outcome.is_err();
                if !reached {
                    break;
                }
                faults += 1;
                assert!(
                    matches!(outcome, Err(Error::Interrupted(_) | Error::Unsettled(_))),
                    "{what}"
                );
                let mut failed = failed.set(None);
                let seen = recovered(&mut failed, ends(&ledger, &command), &what);
                let done = seen[0].done;
                assert!(seen.iter().all(|end| end.done == done), "{what}");
                // Bytes of a change that is not done may show what the medium lacks, unless the system
                // has forgotten it.
                let before: Vec<End> = match forgets {
                    Forgets::All => seen,
                    _ => ends(&ledger, &command)
                        .into_iter()
                        .filter(|end| end.done == done)
                        .collect(),
                };
                let mut next = others[faults % others.len()].clone();
                if done < command.len() && faults % 2 == 0 {
                    next = command[done..].to_vec();
                }
                cuts += cut_at_each_step(&failed, &before, &next, &what);
            }
            if !reached {
                break;
            }
        }
    }
    // At least the two steps of the opening and eight of a change, in each way.
    assert!(faults > commands().len() * 10 * WAYS.len(), "{faults}");
    assert!(cuts > 10 * faults, "{cuts}");
}

/// The recovery after a fault fails in turn, at each of its writes and barriers and at those of its
/// opening; then it is given again.
#[test]
fn a_fault_then_a_recovery_that_fails() {
    for edition in EDITIONS {
        fault_then_failing_recovery(sample(edition));
    }
}

fn fault_then_failing_recovery((card, ledger): (Card, Ledger)) {
    let others = next_changes();
    let mut faults = 0;
    for (name, command) in commands() {
        'fault: for at in 0.. {
            for (fate, forgets) in [
                (Fate::AllLost, Forgets::None),
                (Fate::AllLost, Forgets::All),
                (Fate::Drawn(at), Forgets::Drawn),
            ] {
                let mut failed = card.clone().set(Some(Fault { at, fate }));
                failed.forgets = forgets;
                if run(&mut failed, &command).is_ok() {
                    break 'fault;
                }
                for second in 0.. {
                    let what =
                        format!("{name}, steps {at} and {second} fail, {fate:?}, {forgets:?}");
                    let mut again = failed.clone().set(Some(Fault { at: second, fate }));
                    let outcome = Volume::open(&mut again).and_then(|mut volume| volume.recover());
                    if outcome.is_ok() {
                        break;
                    }
                    faults += 1;
                    let mut again = again.set(None);
                    let seen = recovered(&mut again, ends(&ledger, &command), &what);
                    let before: Vec<End> = ends(&ledger, &command)
                        .into_iter()
                        .filter(|end| end.done == seen[0].done)
                        .collect();
                    let next = &others[faults % others.len()];
                    cut_at_each_step(&again, &before, next, &what);
                }
            }
        }
    }
    // At least the two steps of an opening after each of ten steps.
    assert!(faults > commands().len() * 10 * 3 * 2, "{faults}");
}

/// The changes are cut at each step. Gives how many cuts there were.
fn cut_at_each_step(card: &Card, before: &[End], next: &[Request], what: &str) -> usize {
    for at in 0.. {
        let fate = FATES[(at as usize + what.len()) % FATES.len()];
        let what = format!("{what}; {} cut at {at}, {fate:?}", shortened(&next[0]));
        let mut cut = card.clone().set(Some(Fault { at, fate }));
        if run(&mut cut, next).is_ok() {
            return at as usize;
        }
        let ends = before.iter().flat_map(|end| ends(&end.ledger, next));
        recovered(&mut cut.cut(), ends.collect(), &what);
    }
    unreachable!("a command has an end")
}

/// A format that fails anywhere is done again, as the command advises.
#[test]
fn a_format_that_fails() {
    // A volume of the other edition stood there before.
    let (card, _) = sample(Edition::First);
    let format = format(Edition::Second);
    let mut faults = 0;
    for at in 0.. {
        let mut reached = false;
        for fate in FATES {
            let mut failed = card.clone().set(Some(Fault { at, fate }));
            failed.forgets = Forgets::None;
            reached = volume::format(&mut failed, &format, &mut |_| ()).is_err();
            if !reached {
                break;
            }
            faults += 1;
            let mut again = failed.set(None);
            volume::format(&mut again, &format, &mut |_| ()).unwrap();
            let formatted = empty(Edition::Second);
            recovered(&mut again.cut(), ends(&formatted, &[]), "format");
        }
        if !reached {
            break;
        }
    }
    assert!(faults >= 6 * FATES.len(), "{faults}");
}

/// What was not begun is not made true by an opening: a format whose first barrier failed leaves the
/// old volume on the medium, and a refused command must not take it away.
#[test]
fn an_opening_leaves_an_unfinished_volume_alone() {
    let (card, ledger) = sample(Edition::First);
    let mut failed = card.set(Some(Fault {
        at: 1,
        fate: Fate::AllLost,
    }));
    failed.forgets = Forgets::None;
    let format = format(Edition::Second);
    assert!(volume::format(&mut failed, &format, &mut |_| ()).is_err());
    let mut failed = failed.set(None);
    let volume = Volume::open(&mut failed).unwrap();
    assert_eq!(volume.image().unwrap().summary().state, State::Unfinished);
    drop(volume);
    ledger.compare(&failed.bytes()).unwrap();
}

/// The data sectors of a list, as the ledger counts them, are no more than are tried above.
#[test]
fn data_sectors_are_all_tried() {
    let (card, _) = sample(Edition::First);
    let image = Image::new(card.bytes()).unwrap();
    for (_, command) in commands() {
        let list = image.list_of(&change(&command[0])).unwrap();
        let count = data_sectors(&groups(list.bytes()));
        assert!(count <= data_sectors_of(&command[0]));
    }
}
