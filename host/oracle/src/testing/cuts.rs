//! Every cut of a call, each followed by recovery, whole or in slices, and by the cuts of that
//! recovery. Large groups are cut by all prefixes, all singles, all but one, and some random subsets.

use super::audit::audit;
use super::foreign::{calls_with_lists, foreign_volume};
use super::requests::{create, delete, list, read, rename, rename_set, resize, write};
use super::slices::{differing, expected_slice};
use super::volumes::{format_list, sample_of, Volume, ANY};
use super::{Counts, Filled, Oracle, Subject};
use crate::answers::{code, state, Refusal, SliceAnswer, SummaryAnswer};
use crate::draw::Draw;
use crate::layout::{superblock, Edition};
use crate::ledger::Ledger;
use crate::lists::RECORD;
use crate::power::{draw_cut, every_cut, groups, Cut, Group};
use crate::request::{Answer, Lent, Request};
use crate::FormatRequest;

/// The sample: "alpha" has two of the three usable extents, "beta" is empty.
pub fn two_files(edition: Edition) -> Volume {
    let mut volume = Volume::formatted(&Oracle, &sample_of(edition));
    let mut draw = Draw::new(11);
    volume.done(&create(b"alpha", 1));
    volume.done(&create(b"beta", 2));
    volume.done(&write(b"alpha", 0, draw.bytes(65_536)));
    volume.done(&write(b"alpha", 65_536, draw.bytes(4_464)));
    volume
}

/// Each kind of call on `two_files`, with lists of every shape.
fn calls_on_two_files(draw: &mut Draw) -> Vec<Request> {
    vec![
        create(b"gamma", 3),
        delete(b"alpha"),
        delete(b"beta"),
        // Over the extent edge without growing; the last bytes of the file; growing within the
        // extent.
        write(b"alpha", 65_000, draw.bytes(2_000)),
        write(b"alpha", 69_990, draw.bytes(10)),
        write(b"alpha", 69_000, draw.bytes(5_000)),
        // A new extent for an empty file, and one for a file that has two.
        write(b"beta", 0, draw.bytes(65_536)),
        write(b"alpha", 69_999, draw.bytes(65_536)),
        write(b"beta", 0, draw.bytes(1)),
        resize(b"alpha", 0),
        resize(b"alpha", 65_536),
        resize(b"alpha", 69_999),
        resize(b"alpha", 70_001),
        resize(b"alpha", 70_000 + 65_536),
        resize(b"beta", 600),
        // To a new name; onto a file with extents and onto one without.
        rename(b"alpha", b"gamma"),
        rename(b"beta", b"alpha"),
        rename(b"alpha", b"beta"),
        // A swap, no swap, and a chain onto a file with extents.
        rename_set(&[(b"alpha", b"t"), (b"beta", b"alpha"), (b"t", b"beta")]),
        rename_set(&[(b"alpha", b"beta"), (b"beta", b"alpha")]),
        rename_set(&[(b"beta", b"alpha"), (b"alpha", b"gamma")]),
        // These set an access time.
        read(b"alpha", 65_000, 1_000),
        read(b"beta", 0, 0),
        list(1),
    ]
}

/// Cuts each kind of call on the sample everywhere.
pub fn cut_each_kind_of_call(subject: &dyn Subject, edition: Edition) -> Counts {
    let mut draw = Draw::new(12);
    let requests = calls_on_two_files(&mut draw);
    cut_everywhere(subject, &two_files(edition), &requests, &mut draw)
}

/// Cuts a delete, a resize, a rename and a set everywhere whose freed extents stand in two table sectors.
pub fn cut_over_two_table_sectors(subject: &dyn Subject, edition: Edition) -> Counts {
    let format = FormatRequest {
        sectors: 546 + 255 + 130 * 128,
        ..sample_of(edition)
    };
    let mut volume = Volume::formatted(&Oracle, &format);
    volume.done(&create(b"all", 1));
    volume.done(&create(b"new", 2));
    for extents in 1..=129 {
        volume.done(&resize(b"all", extents * 65_536));
    }
    let requests = [
        delete(b"all"),
        resize(b"all", 65_536),
        rename(b"new", b"all"),
        rename_set(&[(b"new", b"all"), (b"all", b"new")]),
    ];
    cut_everywhere(subject, &volume, &requests, &mut Draw::new(14))
}

/// Another writer's volume of six extents: the files have the first, the third and the last. Copies
/// are staged in the fifth.
pub fn foreign_files(edition: Edition) -> Volume {
    let format = FormatRequest {
        sectors: 546 + 255 + 6 * 128,
        ..sample_of(edition)
    };
    let mut volume = Volume::formatted(&Oracle, &format);
    volume.put_file(3, b"alpha", 70_000, &[5, 2]);
    volume.put_file(7, b"be ta", 9, &[0]);
    volume.compare();
    volume
}

/// Cuts calls on another writer's volume everywhere.
pub fn cut_on_a_foreign_volume(subject: &dyn Subject, edition: Edition) -> Counts {
    let mut draw = Draw::new(15);
    let requests = [
        create(b"gamma", 3),
        delete(b"alpha"),
        write(b"alpha", 69_000, draw.bytes(65_000)),
        write(b"be ta", 0, draw.bytes(5)),
        resize(b"alpha", 1),
        rename(b"be ta", b"alpha"),
        read(b"be ta", 1, 3),
        list(3),
    ];
    let volume = foreign_files(edition);
    cut_everywhere(subject, &volume, &requests, &mut draw)
}

/// Cuts everywhere the calls of another writer's volume with these free extents.
pub fn cut_with_free_extents(subject: &dyn Subject, edition: Edition, free: &[u64]) -> Counts {
    let volume = foreign_volume(edition, free);
    let requests = calls_with_lists(&volume);
    cut_everywhere(subject, &volume, &requests, &mut Draw::new(16))
}

/// Cuts each of the calls everywhere; some cuts leave it undone, some done.
fn cut_everywhere(
    subject: &dyn Subject,
    volume: &Volume,
    requests: &[Request],
    draw: &mut Draw,
) -> Counts {
    let mut counts = Counts::default();
    for request in requests {
        let before = counts.clone();
        cut_call_everywhere(subject, volume, request, draw, &mut counts);
        assert!(counts.undone_cuts > before.undone_cuts);
        assert!(counts.done_cuts > before.done_cuts);
        assert!(counts.cut_recoveries > before.cut_recoveries);
    }
    counts
}

/// Lands every cut of the call and recovers; the ledger says what must stand there then.
fn cut_call_everywhere(
    subject: &dyn Subject,
    volume: &Volume,
    request: &Request,
    draw: &mut Draw,
    counts: &mut Counts,
) {
    let (answer, Filled { list, .. }) = subject.ask(request, &volume.image, ANY);
    assert!(answer.code() == 0 && !list.is_empty());
    let mut after = volume.ledger.clone();
    after.call(request, ANY);
    audit(request, &volume.ledger, &after, &volume.image, &list);

    let call_groups = groups(&list);
    for cut in every_cut(&call_groups, 60, draw) {
        let mut image = volume.image.clone();
        cut.apply(&call_groups, &mut image);
        let mut ledger = volume.ledger.clone();
        let report = cut.report(&call_groups);
        let told = ledger
            .cut_call(request, ANY, &report)
            .expect("a list that is not empty is cut");
        assert_eq!(told.answer, answer);
        if report.start_mark {
            assert!(ledger == after, "{cut:?}");
            counts.done_cuts += 1;
        } else {
            counts.undone_cuts += 1;
        }

        let recovery = recovery_list(subject, &image, counts);
        let waiting = !recovery.is_empty();
        assert_eq!(
            check(subject, &image),
            if waiting { code::WAITING } else { 0 }
        );
        assert_eq!(
            waiting,
            report.start_mark && !cut.landed_whole(&call_groups)
        );
        let recovery_groups = groups(&recovery);
        for second_cut in recovery_cuts(&recovery_groups, &image, draw) {
            let mut image = image.clone();
            second_cut.apply(&recovery_groups, &mut image);
            counts.cut_recoveries += 1;
            let second_recovery = recovery_list(subject, &image, counts);
            assert_eq!(subject.carry_out(&mut image, &second_recovery), 0);
            finished(subject, &image, &ledger, &cut);
        }
        if waiting {
            for budget in [1, 2, u64::MAX] {
                let ended = |image: &[u8]| finished(subject, image, &ledger, &cut);
                recover_by_slices(subject, &image, budget, draw, counts, &ended);
            }
        }
        assert_eq!(subject.carry_out(&mut image, &recovery), 0);
        finished(subject, &image, &ledger, &cut);
    }
}

/// Images of more bytes are copied less often.
pub(super) const LARGE_IMAGE: usize = 4 << 20;

/// Every cut of a recovery's list; of a large image's some.
fn recovery_cuts(groups: &[Group], image: &[u8], draw: &mut Draw) -> Vec<Cut> {
    if image.len() < LARGE_IMAGE {
        every_cut(groups, 0, draw)
    } else {
        (0..4).filter_map(|_| draw_cut(groups, draw)).collect()
    }
}

/// Recovers the image slice by slice. Each slice is also cut, and the other recovery ends it then.
/// Hands on all the images that this ends with.
fn recover_by_slices(
    subject: &dyn Subject,
    image: &[u8],
    budget: u64,
    draw: &mut Draw,
    counts: &mut Counts,
    ended: &dyn Fn(&[u8]),
) {
    let mut image = image.to_vec();
    let differing = differing(&image);
    let calls = differing.div_ceil(budget) + 1;
    let mut reported = Vec::new();
    for _ in 0..calls {
        let (answer, list) = slice_list(subject, &image, budget, counts);
        reported.push(answer.count);
        let slice_groups = groups(&list);
        for cut in recovery_cuts(&slice_groups, &image, draw) {
            let mut image = image.clone();
            cut.apply(&slice_groups, &mut image);
            counts.cut_slices += 1;
            let rest = recovery_list(subject, &image, counts);
            assert_eq!(subject.carry_out(&mut image, &rest), 0);
            ended(&image);
        }
        assert_eq!(subject.carry_out(&mut image, &list), 0);
    }
    assert_eq!(reported.pop(), Some(1));
    assert_eq!(reported.iter().sum::<u64>(), differing);
    let (answer, _) = slice_list(subject, &image, budget, counts);
    assert_eq!((answer.count, answer.length), (0, 0));
    ended(&image);
}

/// A slice in a list of exactly the right length; one byte less is 14, and no budget 8.
fn slice_list(
    subject: &dyn Subject,
    image: &[u8],
    budget: u64,
    counts: &mut Counts,
) -> (SliceAnswer, Vec<u8>) {
    let expected = expected_slice(image, budget);
    let length = expected.1.len();
    if length > 0 {
        let (short, _) = subject.recover_slice(image, budget, length - 1);
        assert_eq!(short, Refusal::new(code::BUFFER_TOO_SHORT).into());
    }
    let (no_budget, _) = subject.recover_slice(image, 0, length);
    assert_eq!(no_budget, Refusal::new(code::BAD_ARGUMENT).into());
    let found = subject.recover_slice(image, budget, length);
    assert!(found == expected, "{:?}, not {:?}", found.0, expected.0);
    counts.recoveries += 1;
    counts.slices += 1;
    found
}

/// Recovers the image with a list of exactly the right length; one byte less is 14.
fn recovery_list(subject: &dyn Subject, image: &[u8], counts: &mut Counts) -> Vec<u8> {
    let needed = recovery_length(subject, image);
    if needed > 0 {
        let (refused, _) = subject.recover(image, needed - 1);
        assert_eq!((refused.code, refused.length), (code::BUFFER_TOO_SHORT, 0));
        counts.recoveries += 1;
        counts.short_recoveries += 1;
    }
    let (answer, list) = subject.recover(image, needed);
    assert_eq!((answer.code, list.len()), (0, needed));
    counts.recoveries += 1;
    list
}

/// The length of the list that recovery needs, by the volume's state.
pub fn recovery_length(subject: &dyn Subject, image: &[u8]) -> usize {
    let summary = summary(subject, image);
    match summary.state {
        state::WAITING => (summary.entries as usize + 3) * RECORD,
        _ => 0,
    }
}

fn summary(subject: &dyn Subject, image: &[u8]) -> SummaryAnswer {
    match subject.ask(&Request::Summary, image, Lent::NONE).0 {
        Answer::Summary(summary) => summary,
        other => panic!("{other:?} is no summary"),
    }
}

fn check(subject: &dyn Subject, image: &[u8]) -> u64 {
    subject.ask(&Request::Check, image, Lent::NONE).0.code()
}

fn finished(subject: &dyn Subject, image: &[u8], ledger: &Ledger, cut: &Cut) {
    assert_eq!(check(subject, image), 0, "{cut:?}");
    ledger
        .compare(image)
        .unwrap_or_else(|difference| panic!("{difference} after {cut:?}"));
}

/// Cuts the sample's format everywhere, in both editions: from its first record to its last it leaves
/// an unfinished volume, whatever subset of its middle landed. Gives the number of cuts.
pub fn cut_the_format(subject: &dyn Subject) -> usize {
    let formats = Edition::BOTH.map(sample_of);
    formats
        .iter()
        .map(|format| cut_a_format(subject, format))
        .sum()
}

fn cut_a_format(subject: &dyn Subject, format: &FormatRequest) -> usize {
    // An older volume of another geometry stands there.
    let mut older = Volume::sample().image;
    older[superblock::EXTENTS + 1] = 3;
    let list = format_list(subject, format);
    let format_groups = groups(&list);
    let cuts = every_cut(&format_groups, 20, &mut Draw::new(13));
    for cut in &cuts {
        cut_of_a_format(subject, format, &older, &format_groups, cut);
    }
    cuts.len()
}

/// Cuts a format of an image on which something else stands: it stays as it was, or the volume is
/// unfinished, or formatted.
pub fn cut_of_a_format(
    subject: &dyn Subject,
    format: &FormatRequest,
    older: &[u8],
    format_groups: &[Group],
    cut: &Cut,
) {
    let ledger = Ledger::new(format).expect("the format is not refused");
    let extents = ledger.geometry().extents();
    let mut image = older.to_vec();
    cut.apply(format_groups, &mut image);
    let told = summary(subject, &image);
    if cut.groups_before == 0 && cut.landed.is_empty() {
        assert_eq!(told, summary(subject, older));
    } else if cut.landed_whole(format_groups) {
        assert_eq!((told.state, told.extents), (state::CLEAN, extents));
        finished(subject, &image, &ledger, cut);
    } else {
        assert_eq!((told.state, told.extents), (state::UNFINISHED, extents));
        assert_eq!(check(subject, &image), code::UNFINISHED);
        assert_eq!(subject.recover(&image, 0).0.code, code::UNFINISHED);
    }
}
