//! The forms that are lent only the sectors before the data area, against the oracle on the whole image: the
//! same answers, lists and outputs, and the sectors that they ask for in the oracle's order. Fronts that are
//! too short or longer, other counts of sectors, steps with other than a sector, with buffers too short and
//! after the end.

use std::cell::Cell;
use std::io;

use crate::counts::{count, Compared};
use crate::shared::{calls, on_both, Both};
use goofs::device::{Device, Reader};
use goofs::error::Error;
use goofs::image::Image;
use goofs::{Part, Reading, Recovering, Writing};
use oracle::answers::{
    code, CheckAnswer, FormatRecordAnswer, RecoverAnswer, RepairAnswer, SliceAnswer,
};
use oracle::draw::Draw;
use oracle::layout::{Edition, SECTOR};
use oracle::lists::{CONTENTS, NUMBER, RECORD};
use oracle::testing::beside::same_bytes;
use oracle::testing::cuts::{cut_each_kind_of_call, cut_on_a_foreign_volume, foreign_files};
use oracle::testing::damage::{
    draw_journal, journal_of_all_targets, set_journal, spoil_fields, FAULTS, METADATA,
};
use oracle::testing::foreign::{each_call, every_choice, foreign_volume};
use oracle::testing::repairs::{repair_leaky_volumes, repaired_alike};
use oracle::testing::requests::{read, resize, write};
use oracle::testing::runs::random_runs;
use oracle::testing::volumes::{sample_of, some_files_of, Volume, ANY, ANY_LIST};
use oracle::testing::{checks_alike, with_each_buffer, Filled, Oracle, Subject};
use oracle::{Answer, FormatRequest, Lent, Request};
use soak::lent::{self, front_length, geometry, refused_steps, Front};
use soak::proved::Proved;

thread_local! {
    /// Counts fronts, so that each kind comes in turn.
    static FRONTS: Cell<usize> = const { Cell::new(0) };
}

fn front_of(image: &[u8]) -> Front<'_> {
    let turn = FRONTS.get();
    FRONTS.set(turn + 1);
    Front::of(image, turn)
}

/// Each call by its lent form: it must answer and fill what the oracle does on the whole image, and ask for
/// the sectors that the oracle names.
struct ByLentForms;

impl ByLentForms {
    /// The same of any front, by the image that the form goes by.
    fn ask_with(&self, request: &Request, front: &Front, lent: Lent) -> (Answer, Filled) {
        counted(lent::ask_alike(&Proved, request, front, lent))
    }

    fn recover_with(&self, front: &Front, list_length: usize) -> (RecoverAnswer, Vec<u8>) {
        counted(lent::recover_alike(&Proved, front, list_length))
    }

    fn repair_with(&self, front: &Front, list_length: usize) -> (RepairAnswer, Vec<u8>) {
        counted(lent::repair_alike(&Proved, front, list_length))
    }

    fn check_with(&self, front: &Front, scratch_length: usize) -> CheckAnswer {
        counted(lent::check_alike(&Proved, front, scratch_length))
    }
}

fn counted<A>(answer: A) -> A {
    count(Compared::Calls, 1);
    count(Compared::LentCalls, 1);
    answer
}

impl Subject for ByLentForms {
    fn ask(&self, request: &Request, image: &[u8], lent: Lent) -> (Answer, Filled) {
        self.ask_with(request, &front_of(image), lent)
    }

    fn recover(&self, image: &[u8], list_length: usize) -> (RecoverAnswer, Vec<u8>) {
        self.recover_with(&front_of(image), list_length)
    }

    /// It has no such form: the library makes a card's slice of the recovery's list. Its buffer is always
    /// long enough.
    fn recover_slice(
        &self,
        image: &[u8],
        budget: u64,
        list_length: usize,
    ) -> (SliceAnswer, Vec<u8>) {
        let whole = Oracle.recover_slice(image, budget, (budget.min(1_024) as usize + 2) * RECORD);
        let slice = Image::load(&Card(image)).and_then(|image| image.recovery_slice(budget));
        match slice {
            Ok(slice) => {
                assert_eq!(whole.0.code, code::DONE);
                same_bytes(slice.bytes(), &whole.1, || format!("slice of {budget}"));
            }
            Err(Error::Refused(refusal)) => assert_eq!(refusal.number(), whole.0.code),
            Err(error) => panic!("{error}"),
        }
        count(Compared::Calls, 1);
        Oracle.recover_slice(image, budget, list_length)
    }

    fn repair(&self, image: &[u8], list_length: usize) -> (RepairAnswer, Vec<u8>) {
        self.repair_with(&front_of(image), list_length)
    }

    fn check_with_scratch(&self, image: &[u8], scratch_length: usize) -> CheckAnswer {
        self.check_with(&front_of(image), scratch_length)
    }

    fn format_record(
        &self,
        format: &FormatRequest,
        position: u64,
        output_length: usize,
    ) -> (FormatRecordAnswer, Vec<u8>) {
        Oracle.format_record(format, position, output_length)
    }

    fn carry_out(&self, image: &mut [u8], list: &[u8]) -> u64 {
        Oracle.carry_out(image, list)
    }
}

/// A card with these bytes that is only read.
struct Card<'c>(&'c [u8]);

#[derive(Debug)]
struct CardReader(Vec<u8>);

impl Reader for CardReader {
    fn read(&self, first: u64, into: &mut [u8]) -> io::Result<()> {
        Card(&self.0).read(first, into)
    }
}

impl Device for Card<'_> {
    fn length(&self) -> u64 {
        self.0.len() as u64
    }

    fn read(&self, first: u64, into: &mut [u8]) -> io::Result<()> {
        into.copy_from_slice(&self.0[first as usize * SECTOR..][..into.len()]);
        Ok(())
    }

    fn write(&mut self, _: u64, _: &[u8]) -> io::Result<()> {
        unreachable!("it is only read")
    }

    fn barrier(&mut self) -> io::Result<()> {
        unreachable!("it is only read")
    }

    fn reader(&self) -> Option<Box<dyn Reader>> {
        Some(Box::new(CardReader(self.0.to_vec())))
    }
}

#[test]
fn random_runs_by_lent_forms() {
    random_runs(&ByLentForms, 600);
}

#[test]
fn cuts() {
    on_both(|edition| {
        cut_each_kind_of_call(&ByLentForms, edition);
        cut_on_a_foreign_volume(&ByLentForms, edition);
    });
}

/// Volumes of other writers, every choice of free extents of six, with each length of the buffers.
#[test]
fn foreign_volumes() {
    on_both(|edition| {
        for free in every_choice() {
            each_call(&ByLentForms, edition, &free);
        }
    });
}

#[test]
fn leaky_volumes() {
    repair_leaky_volumes(&ByLentForms, 300);
}

/// Puts all calls, recovery, slices and repair to an image and gives what check says.
fn calls_alike(image: &[u8]) -> CheckAnswer {
    for request in calls() {
        ByLentForms.ask(&request, image, ANY);
    }
    ByLentForms.recover(image, ANY_LIST);
    ByLentForms.repair(image, ANY_LIST);
    checks_alike(&ByLentForms, image)
}

/// Each fault of `some_files`, and several fields at once.
#[test]
fn damaged_images() {
    on_both(|edition| {
        let sound = some_files_of(edition).image;
        let mut image = sound.clone();
        for (_, spoil) in FAULTS {
            image[..METADATA].copy_from_slice(&sound[..METADATA]);
            spoil(&mut image);
            calls_alike(&image);
            repaired_alike(&ByLentForms, &image);
        }
        let frozen = foreign_volume(edition, &[]).image;
        assert_eq!(calls_alike(&frozen).code, 0);
    });
    spoil_fields(3_000, calls_alike);
}

/// Journals that no call wrote, with slices of each length; and the longest, in any order.
#[test]
fn waiting_journals() {
    on_both(|edition| {
        let mut image = Volume::formatted(&Oracle, &sample_of(edition)).image;
        let mut draw = Draw::new(71);
        let mut codes = [0; 15];
        for _ in 0..300 {
            let entries = draw_journal(&mut draw);
            set_journal(&mut image, &entries);
            let needed = (entries.len() + 3) * RECORD;
            for length in [0, needed - 1, needed, needed + 1] {
                let (answer, _) = ByLentForms.recover(&image, length);
                codes[answer.code as usize] += 1;
            }
            for budget in [0, 1, 2, entries.len() as u64, u64::MAX] {
                ByLentForms.recover_slice(&image, budget, needed);
            }
        }
        assert!(
            codes[0] > 30 && codes[6] > 30 && codes[14] > 30,
            "{codes:?}"
        );
        let mut entries = journal_of_all_targets();
        for _ in 0..3 {
            set_journal(&mut image, &entries);
            let needed = (entries.len() + 3) * RECORD;
            assert_eq!(ByLentForms.recover(&image, needed).0.code, 0);
            assert_eq!(ByLentForms.recover(&image, needed - 1).0.code, 14);
            for at in (1..entries.len()).rev() {
                entries.swap(at, draw.below(at as u64 + 1) as usize);
            }
        }
    });
}

/// A recovery in slices to its end, of each length: on a card and by the oracle.
#[test]
fn slices_to_their_end() {
    on_both(|edition| {
        for budget in [1, 2, 3, 100, u64::MAX] {
            let mut image = some_files_of(edition).image;
            set_journal(
                &mut image,
                &[(1_000, 289), (1_001, 1), (1_001, 200), (900, 2)],
            );
            let mut slices = 0;
            while oracle::summary(&image).entries > 0 {
                let (answer, list) = ByLentForms.recover_slice(&image, budget, ANY_LIST);
                assert_eq!(answer.code, 0);
                assert_eq!(oracle::carry_out(&mut image, &list), 0);
                slices += 1;
            }
            assert_eq!(slices, 4_u64.div_ceil(budget) + 1, "{budget}");
        }
    });
}

/// Images of both states in which calls are answered, with calls and what they come to.
fn clean_and_waiting(edition: Edition) -> [Vec<u8>; 2] {
    let clean = some_files_of(edition).image;
    let mut waiting = clean.clone();
    set_journal(&mut waiting, &[(1_000, 2), (1_001, 1), (1_002, 289)]);
    [clean, waiting]
}

/// All calls with this front, which must answer as on the image.
fn all_with(front: &Front) -> u64 {
    for request in calls() {
        ByLentForms.ask_with(&request, front, ANY);
    }
    ByLentForms.recover_with(front, ANY_LIST);
    ByLentForms.repair_with(front, ANY_LIST);
    for length in [0, 4 * 255 + 7, 4 * 255 + 8] {
        ByLentForms.check_with(front, length);
    }
    let (answer, _) = ByLentForms.ask_with(&Request::Summary, front, Lent::NONE);
    answer.code()
}

/// Every front around the sectors before the data area: one that ends before them is refused as an image of
/// so few sectors is, longer ones are as good, and one of other than whole sectors is refused 1.
#[test]
fn fronts_of_every_length() {
    on_both(|edition| {
        for image in clean_and_waiting(edition) {
            let count = (image.len() / SECTOR) as u64;
            let length = front_length(&image).expect("it is a volume");
            let sectors = (0..=4)
                .chain(length / SECTOR - 3..length / SECTOR + 3)
                .chain([image.len() / SECTOR]);
            for sectors in sectors {
                for odd in [-1_isize, 0, 1] {
                    let Some(end) = (sectors * SECTOR).checked_add_signed(odd) else {
                        continue;
                    };
                    let Some(lent) = image.get(..end) else {
                        continue;
                    };
                    let is_front = odd == 0 && end >= length;
                    let front = Front {
                        sectors: lent,
                        count,
                        image: if is_front { &image } else { lent },
                    };
                    let expected = match (is_front, odd, end) {
                        (true, ..) => 0,
                        (false, 0, 1..) => 3,
                        _ => 1,
                    };
                    assert_eq!(all_with(&front), expected, "{end} bytes");
                }
            }
        }
    });
}

/// Every count around the volume's: fewer sectors than it has are refused 3, as an image of so many is; more
/// are a longer medium.
#[test]
fn counts_of_sectors() {
    on_both(|edition| {
        for image in clean_and_waiting(edition) {
            let geometry = geometry(&image).expect("it is a volume");
            let (data_at, end) = (geometry.data_at().0, geometry.end().0);
            let all = [
                0,
                1,
                2,
                data_at - 1,
                data_at,
                data_at + 1,
                end - 1,
                end,
                end + 1,
                1 << 55,
                (1 << 55) + 1,
                u64::MAX - 1,
                u64::MAX,
            ];
            for count in all {
                for extra in [0, 1] {
                    let length = (data_at + extra) as usize * SECTOR;
                    // 0 stands for 1.
                    let shown = count.clamp(1, (image.len() / SECTOR) as u64) as usize;
                    let front = Front {
                        sectors: &image[..length],
                        count,
                        image: &image[..shown * SECTOR],
                    };
                    let expected = if count < end { 3 } else { 0 };
                    assert_eq!(all_with(&front), expected, "{count}");
                }
            }
        }
    });
}

/// Lent sectors that no volume has, of any count.
#[test]
fn fronts_of_anything() {
    let mut draw = Draw::new(72);
    let mut codes = [0; 15];
    for _ in 0..4_000 {
        // The smallest volume has 290 sectors before its data area.
        let sectors = match draw.one_in(2) {
            true => draw.between(289, 292),
            false => draw.below(300),
        };
        let mut lent = vec![0; sectors as usize * SECTOR];
        if !lent.is_empty() {
            draw.fill(&mut lent[..SECTOR]);
            lent[0..2].copy_from_slice(&(*draw.pick(&[254_u16, 255, 256])).to_be_bytes());
            lent[2..4].copy_from_slice(&(*draw.pick(&[1_u16, 2, 129])).to_be_bytes());
            lent[4..8].copy_from_slice(&(*draw.pick(&[127_u32, 128, 129])).to_be_bytes());
            if !draw.one_in(4) {
                lent[8..16].copy_from_slice(b"/Goo/FS/");
            }
            lent[16..18].copy_from_slice(&(*draw.pick(&[1_u16, 1, 2, 2, 3])).to_be_bytes());
        }
        if draw.one_in(4) {
            let length = draw.below(lent.len() as u64 + 1) as usize;
            lent.truncate(length);
        }
        let is_front = front_length(&lent).is_some();
        let count = *draw.pick(&[0, 1, 546, 547, 548, 600, u64::MAX]);
        let mut image = lent.clone();
        if is_front {
            let end = geometry(&lent).expect("it has one").end().0;
            image.resize(count.clamp(1, end) as usize * SECTOR, 0);
        }
        let front = Front {
            sectors: &lent,
            count,
            image: &image,
        };
        let (answer, _) = ByLentForms.ask_with(&Request::Summary, &front, Lent::NONE);
        ByLentForms.ask_with(&Request::Check, &front, Lent::NONE);
        ByLentForms.recover_with(&front, ANY_LIST);
        ByLentForms.repair_with(&front, ANY_LIST);
        codes[answer.code() as usize] += 1;
    }
    assert!(codes[..4].iter().all(|times| *times > 20), "{codes:?}");
}

/// Reads and writes over the edges of sectors and extents, with each length of their buffers, and on the
/// whole image by the call itself.
#[test]
fn spans() {
    on_both(|edition| {
        let image = foreign_files(edition).image;
        let mut draw = Draw::new(73);
        let edges = [
            0, 1, 511, 512, 513, 65_024, 65_535, 65_536, 65_537, 69_999, 70_000, 70_001,
        ];
        for offset in edges {
            for length in [0, 1, 2, 511, 512, 513, 1_024, 1_025, 65_535, 65_536, 65_537] {
                let requests = [
                    read(b"alpha", offset, length),
                    write(b"alpha", offset, draw.bytes(length as usize)),
                    resize(b"alpha", offset + length),
                ];
                for request in requests {
                    with_each_buffer(&ByLentForms, &request, &image);
                    with_each_buffer(&Both, &request, &image);
                }
            }
        }
    });
}

/// A read that was begun, with an output that is too short for it.
#[test]
fn outputs_too_short_for_a_step() {
    let image = foreign_files(Edition::First).image;
    let front = front_of(&image);
    let mut list = [0; 20 * RECORD];
    let (name, room) = (b"alpha", 1_500);
    let begun = goofs::read_lent(
        front.sectors,
        front.count,
        name,
        300,
        room,
        9,
        room,
        &mut list,
    );
    assert_eq!((begun.code, begun.count), (0, 1_500));
    let sector = front.sector(begun.wanted);
    let mut output = vec![9; 1_500];
    for length in [0, 1, 211, 212, 213, 1_499] {
        refused_steps(begun, &mut output[..length], &[sector], &goofs::read_step);
    }
    // Its own record, which no read gives, with other numbers.
    for spoilt in [
        Reading { skip: 512, ..begun },
        Reading {
            done: 1_500,
            ..begun
        },
        Reading {
            count: 1_501,
            ..begun
        },
        Reading { wanted: 0, ..begun },
        Reading {
            wanted: u64::MAX,
            ..begun
        },
    ] {
        refused_steps(spoilt, &mut output, &[sector], &goofs::read_step);
    }
    assert_eq!(goofs::read_step(begun, sector, &mut output).done, 212);
}

/// A write that was begun, with a list that ends before the record of its sector.
#[test]
fn lists_too_short_for_a_step() {
    let image = foreign_files(Edition::First).image;
    let front = front_of(&image);
    let mut list = vec![0; ANY_LIST];
    let data = [8; 1_000];
    let begun = goofs::write_lent(
        front.sectors,
        front.count,
        b"alpha",
        300,
        &data,
        9,
        &mut list,
    );
    assert_eq!((begun.code, begun.length), (0, 0));
    assert_eq!((begun.wanted.from, begun.wanted.to), (300, 512));
    assert_eq!(
        (begun.last.from, begun.last.to, begun.last.position),
        (0, 276, 2)
    );
    let sector = front.sector(begun.wanted.sector);
    for length in [0, RECORD - 1] {
        refused_steps(begun, &mut list[..length], &[sector], &goofs::write_step);
    }
    let second = goofs::write_step(begun, sector, &mut list);
    assert_eq!((second.code, second.length), (0, 0));
    assert_eq!((second.wanted, second.last), (begun.last, Part::default()));
    for length in [0, RECORD, 3 * RECORD - 1] {
        refused_steps(second, &mut list[..length], &[sector], &goofs::write_step);
    }
    let part = second.wanted;
    for wanted in [
        Part { from: 277, ..part },
        Part { to: 513, ..part },
        Part {
            position: ANY_LIST as u64 / RECORD as u64,
            ..part
        },
        Part {
            position: u64::MAX,
            ..part
        },
        Part {
            sector: u64::MAX,
            ..part
        },
    ] {
        let spoilt = Writing { wanted, ..second };
        refused_steps(spoilt, &mut list, &[sector], &goofs::write_step);
    }
    let sector = front.sector(second.wanted.sector);
    let done = goofs::write_step(second, sector, &mut list);
    assert_eq!((done.code, done.length), (0, begun.full));
}

/// A recovery that was begun, with another front or list than its own.
#[test]
fn fronts_and_lists_that_are_not_the_recoverys() {
    let mut image = some_files_of(Edition::Second).image;
    set_journal(&mut image, &[(1_000, 289), (1_001, 1), (900, 2)]);
    let mut other = image.clone();
    set_journal(&mut other, &[(1_002, 289), (1_001, 1)]);
    let mut clean = image.clone();
    clean[18..20].fill(0);
    let length = front_length(&image).expect("it is a volume");
    let count = (image.len() / SECTOR) as u64;
    let needed = 6 * RECORD;
    let mut list = vec![0; needed];
    let begun = goofs::recover_lent(&image[..length], count, &mut list);
    assert_eq!((begun.code, begun.length, begun.wanted), (0, 0, 1_000));
    let sector = &image[1_000 * SECTOR..1_001 * SECTOR];
    let with = |front: &[u8], call: Recovering, list: &mut [u8]| {
        let step =
            |call, bytes: &[u8], list: &mut [u8]| goofs::recover_step(call, front, bytes, list);
        refused_steps(call, list, &[sector], &step);
    };
    for front in [
        &image[..length - SECTOR],
        &image[..length - 1],
        &image[..length + 1],
        &[],
        &other[..length],
        &clean[..length],
    ] {
        with(front, begun, &mut list);
    }
    with(&image[..length], begun, &mut list[..needed - 1]);
    with(
        &image[..length],
        Recovering { entry: 1, ..begun },
        &mut list,
    );
    with(
        &image[..length],
        Recovering { entry: 3, ..begun },
        &mut list,
    );
    with(
        &image[..length],
        Recovering {
            wanted: 1_001,
            ..begun
        },
        &mut list,
    );
    let next = goofs::recover_step(begun, &image[..length], sector, &mut list);
    assert_eq!((next.code, next.wanted, next.entry), (0, 1_001, 1));

    // Target 289 is the highest of three, so its source goes into record 2; but into record 0 where a list shows it there.
    let goes_into = |mut list: Vec<u8>, record: usize| {
        let mut expected = list.clone();
        expected[record * RECORD + CONTENTS..][..SECTOR].copy_from_slice(sector);
        goofs::recover_step(begun, &image[..length], sector, &mut list);
        assert!(list == expected, "record {record}");
    };
    goes_into(vec![0; needed], 2);
    goes_into(list.clone(), 2);
    list[NUMBER..CONTENTS].copy_from_slice(&289_u64.to_be_bytes());
    goes_into(list, 0);
}
