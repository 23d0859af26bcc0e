//! The states: changes that were cut at each of their stages, journals that no recovery takes, damaged and
//! unfinished volumes, and images that hold no volume.

use oracle::layout::{
    put16, put32, sector, superblock, Edition, Extent, FileIndex, Geometry, Sector, SECTOR,
};
use oracle::power::{groups, Cut, Group};
use oracle::testing::damage::set_journal;
use oracle::testing::requests::{create, delete, write};
use oracle::testing::volumes::{format_list, ANY};
use oracle::testing::{Oracle, Subject};
use oracle::{carry_out, Request};

use crate::maker::{format_of, sector_mut, Maker, EXTENT, EXTENT_SECTORS, FILES};
use crate::sound::{reserve_taken, some_files, two_table_sectors, vector};
use crate::statement::{JournalEntry, Recovered, Stands, Vector};

/// The changes that are cut.
pub fn changes(edition: Edition) -> Vec<Vector> {
    let mut vectors = stages(
        "create",
        "Create of \"new\" in the lowest free entry; targets: root and entry.",
        some_files(edition),
        create(b"new", 50),
    );
    let mut maker = Maker::formatted(edition, 4);
    maker.file("beta", 10);
    maker.file("grows", EXTENT - 136);
    vectors.extend(stages(
        "write",
        "Write of 1,400 bytes over the end of \"grows\", which takes an extent; targets: entry and table. Of its three data sectors two \
         hold bytes below the old size.",
        maker,
        write(b"grows", EXTENT - 1_000, vec![b'w'; 1_400]),
    ));
    if edition == Edition::First {
        vectors.extend(stages(
            "delete",
            "Delete of \"all\" with its 129 extents; targets: root, entry and both table sectors.",
            two_table_sectors(edition),
            delete(b"all"),
        ));
    }
    vectors
}

/// Changes on volumes of other writers, after their start mark.
pub fn others_changes(edition: Edition) -> Vec<Vector> {
    let mut vectors = stages(
        "create-elsewhere",
        "Create on the volume reserve-taken: the copies stand in extent 4, the highest free one; the last belongs to a file.",
        reserve_taken(edition),
        create(b"new", 50),
    );
    vectors.retain(|vector| matches!(vector.stands, Stands::Waiting(..)));
    vectors.push(long_journal(edition));
    vectors
}

/// Another writer's journal: 40 new files, in two journal sectors, in falling order of their targets.
fn long_journal(edition: Edition) -> Vector {
    let geometry = Geometry::new(FILES, 3, EXTENT_SECTORS).expect("within the bounds");
    let before = Maker::other_writer(edition, geometry);
    let mut after = before.clone();
    for index in 0..40 {
        after.put(index, format!("many-{index}").as_bytes(), 0, &[]);
    }
    let mut image = before.volume.image;
    let mut recovered = after.volume.image;
    let mut entries = Vec::new();
    for k in 0..40 {
        let (source, target) = (
            geometry.extent_at(Extent(1)).0 + k,
            geometry.entry_at(FileIndex(39 - k)).0,
        );
        let contents = *sector(&recovered, Sector(target));
        sector_mut(&mut image, Sector(source)).copy_from_slice(&contents);
        entries.push((source, target));
    }
    set_journal(&mut image, &entries);
    // Finished, the journal and the copies still stand there.
    let journal = geometry.journal_at().0 as usize * SECTOR;
    recovered[journal..].copy_from_slice(&image[journal..]);
    let recovered = Recovered {
        image: recovered,
        ledger: Box::new(after.volume.ledger),
    };
    let what = "A change of another writer with 40 targets, 40 new entries, whose journal has two sectors and falls. None is written.";
    let stands = Stands::Waiting(edition, geometry, entries, Some(recovered));
    vector("long-journal", edition, what, image, stands)
}

/// The volume after each stage of the call's list: groups A, B, C and D.
fn stages(name: &str, what: &str, mut maker: Maker, request: Request) -> Vec<Vector> {
    let request = maker.timed(request);
    let before = &maker.volume;
    let (answer, filled) = Oracle.ask(&request, &before.image, ANY);
    assert_eq!(answer.code(), 0);
    let call_groups = groups(&filled.list);
    let [a, _, c, _] = &call_groups[..] else {
        panic!("a change has four groups")
    };
    let mut done = before.clone();
    done.call(&Oracle, &request);
    let entries = journal(c, a);

    let cut = |groups_before, landed: &[usize]| Cut {
        groups_before,
        landed: landed.to_vec(),
    };
    let last = c.len() - 1;
    let cuts = [
        (
            "a-part",
            "cut within group A, after its first sector: not done, clean",
            cut(0, &[0]),
        ),
        (
            "a",
            "cut after group A, before the start mark: not done, clean",
            cut(1, &[]),
        ),
        (
            "b",
            "cut after group B, the start mark: waiting, no target is written",
            cut(2, &[]),
        ),
        (
            "c-first",
            "cut within group C: waiting, the first target is written",
            cut(2, &[0]),
        ),
        (
            "c-last",
            "cut within group C: waiting, only the last target is written",
            cut(2, &[last]),
        ),
        (
            "c",
            "cut after group C: waiting, all targets are written",
            cut(3, &[]),
        ),
        ("d", "all four groups landed: done, clean", cut(4, &[])),
    ];
    let stage = |(stage, how, cut): &(&str, &str, Cut)| {
        let mut image = before.image.clone();
        cut.apply(&call_groups, &mut image);
        let report = cut.report(&call_groups);
        let mut ledger = before.ledger.clone();
        ledger
            .cut_call(&request, ANY, &report)
            .expect("the list is not empty");
        let stands = if (2..4).contains(&cut.groups_before) {
            assert!(ledger == done.ledger);
            let recovered = Recovered {
                image: done.image.clone(),
                ledger: Box::new(ledger),
            };
            Stands::Waiting(
                maker.edition,
                maker.geometry(),
                entries.clone(),
                Some(recovered),
            )
        } else {
            ledger.compare(&image).expect("image and ledger agree");
            Stands::Sound(Box::new(ledger))
        };
        vector(
            &format!("{name}-{stage}"),
            maker.edition,
            &format!("{what} Here {how}."),
            image,
            stands,
        )
    };
    cuts.iter().map(stage).collect()
}

/// The journal's entries, by the groups: the copies stand in group A in the targets' order, and one journal
/// sector after them.
fn journal(targets: &Group, group_a: &Group) -> Vec<JournalEntry> {
    let copies = &group_a[group_a.len() - 1 - targets.len()..];
    let entries = copies.iter().zip(targets);
    entries
        .map(|(copy, target)| {
            assert_eq!(copy.contents, target.contents);
            (copy.sector, target.sector)
        })
        .collect()
}

/// Journals that recovery refuses with 6; the superblock says waiting.
pub fn bad_journals(edition: Edition) -> Vec<Vector> {
    let maker = some_files(edition);
    let journals: [(&str, &str, &[JournalEntry]); 6] = [
        ("crossed", "Source and target stand in the order of the note's worked example: the target comes first.", &[(1, 674), (2, 675)]),
        ("source-in-table", "A source lies before the data area.", &[(674, 1), (289, 2)]),
        ("source-past-end", "A source is the first sector after the volume.", &[(802, 1)]),
        ("target-superblock", "A target is the superblock.", &[(674, 1), (675, 0)]),
        ("target-journal", "A target lies in the journal.", &[(674, 257)]),
        ("target-twice", "Two entries have the same target.", &[(674, 1), (675, 2), (676, 1)]),
    ];
    let vectors = journals.iter().map(|(name, what, entries)| {
        let mut image = maker.volume.image.clone();
        set_journal(&mut image, entries);
        let stands = Stands::Waiting(edition, maker.geometry(), entries.to_vec(), None);
        vector(&format!("bad-journal-{name}"), edition, what, image, stands)
    });
    vectors.collect()
}

/// Journal lengths that no change writes, and formats that were cut.
pub fn damaged_and_unfinished(edition: Edition) -> Vec<Vector> {
    let maker = some_files(edition);
    let geometry = maker.geometry();
    let mut vectors = Vec::new();
    for (length, what) in [
        (
            1_025,
            "The journal length is 1,025, one more than the journal holds.",
        ),
        (
            65_534,
            "The journal length is 65,534, one less than an unfinished volume's.",
        ),
    ] {
        let mut image = maker.volume.image.clone();
        put16(&mut image, superblock::JOURNAL_LENGTH, length);
        let name = format!("damaged-{length}");
        vectors.push(vector(
            &name,
            edition,
            what,
            image,
            Stands::Damaged(edition, geometry),
        ));
    }
    let format = format_of(edition, 4);
    let list = format_list(&Oracle, &format);
    let format_groups = groups(&list);
    let middle: Vec<usize> = (0..format_groups[1].len()).collect();
    for (name, what, groups_before, landed) in [
        ("first", "A format over the volume some-files was cut after its first superblock: the old files are still there, and nobody reads them.", 1, &[][..]),
        ("middle", "A format over some-files was cut after root and the first entries were written.", 1, &middle[..3]),
        ("last", "A format over some-files was cut before its last superblock: all else is written.", 2, &[]),
    ] {
        let mut image = maker.volume.image.clone();
        let cut = Cut { groups_before, landed: landed.to_vec() };
        cut.apply(&format_groups, &mut image);
        let stands = Stands::Unfinished(edition, geometry);
        vectors.push(vector(&format!("unfinished-{name}"), edition, what, image, stands));
    }
    let mut image = maker.volume.image;
    assert_eq!(carry_out(&mut image, &list), 0);
    let ledger = oracle::Ledger::new(&format).expect("the format is not refused");
    let what = "The same format, landed whole: the files are gone, their bytes still stand in free extents.";
    vectors.push(vector(
        "formatted-again",
        edition,
        what,
        image,
        Stands::Sound(Box::new(ledger)),
    ));
    vectors
}

/// Images that are refused before a state is read.
pub fn no_volumes() -> Vec<Vector> {
    let empty = Maker::formatted(Edition::First, 2);
    let end = empty.geometry().end().0 as usize * SECTOR;
    let image = empty.volume.image;
    let spoilt = |spoil: &dyn Fn(&mut [u8])| {
        let mut image = image.clone();
        spoil(&mut image);
        image
    };
    let refused = |name: &str, number, what: &str, image| Vector {
        name: format!("no-volume-{name}"),
        what: what.to_string(),
        image,
        stands: Stands::Nothing(number),
    };
    vec![
        refused("no-sector", 1, "An image without a sector.", Vec::new()),
        refused(
            "magic",
            2,
            "The last byte of the magic is another.",
            spoilt(&|image| image[15] = b'-'),
        ),
        refused(
            "version-0",
            2,
            "Version 0.",
            spoilt(&|image| put16(image, superblock::VERSION, 0)),
        ),
        refused(
            "version-3",
            2,
            "Version 3, which no edition has.",
            spoilt(&|image| put16(image, superblock::VERSION, 3)),
        ),
        refused(
            "files-254",
            3,
            "254 entries, one too few.",
            spoilt(&|image| put16(image, superblock::FILES, 254)),
        ),
        refused(
            "extents-1",
            3,
            "One extent, one too few.",
            spoilt(&|image| put16(image, superblock::EXTENTS, 1)),
        ),
        refused(
            "extent-sectors-127",
            3,
            "Extents of 127 sectors, one too few.",
            spoilt(&|image| put32(image, superblock::EXTENT_SECTORS, 127)),
        ),
        refused(
            "image-short",
            3,
            "The image is shorter by a sector than its volume.",
            image[..end - SECTOR].to_vec(),
        ),
    ]
}
