//! Volumes longer than the memory, as sparse files: all commands on one of 6 GiB, on one of 400 GiB and on one
//! of 12 TiB, in some hundred MB of addresses.

mod shared;

use std::fs::{self, File, OpenOptions};
use std::os::unix::fs::{FileExt, MetadataExt};
use std::path::Path;

use goofs::change::Change;
use goofs::device::Disk;
use goofs::image::Image;
use oracle::layout::Geometry;
use oracle::testing::images::{blank, put_file};
use shared::{with_limit, Folder, Said};

/// Seconds of the processor's time, which a busy machine does not lengthen: far more than what takes it
/// needs, far less than reading 300 GiB of zeros, or a judgement for each of 65,535 files.
const WORK: &str = "-t 10";

/// The addresses that a command may have, in KiB: far fewer than the volumes here have bytes. The system's
/// library for memory takes some 130 MB of them for a thread, used or not.
const MEMORY: &str = "-v 300000";

/// Runs the command with little memory.
fn on(command: &str, card: &Path, rest: &[&str]) -> Said {
    with_limit(MEMORY, command, card, rest)
}

/// The same, which must succeed.
fn good(command: &str, card: &Path, rest: &[&str]) -> String {
    let said = on(command, card, rest);
    assert_eq!(said.status, 0, "{command} {rest:?}: {}", said.err);
    said.text()
}

/// The first bytes of a card, past its metadata. The whole of it is too long to be compared.
fn start(card: &Path) -> Vec<u8> {
    let mut bytes = vec![0; 2 << 20];
    File::open(card)
        .and_then(|file| file.read_exact_at(&mut bytes, 0))
        .unwrap();
    bytes
}

/// Puts a card into the state of a create that was cut right after its start mark.
fn cut_create(card: &Path, name: &[u8]) {
    let file = OpenOptions::new()
        .read(true)
        .write(true)
        .open(card)
        .unwrap();
    let image = Image::load(&Disk::shared(file.try_clone().unwrap()).unwrap()).unwrap();
    let create = Change::Create {
        name,
        id: 99,
        mode: 0,
        time: 2,
    };
    let list = image.list_of(&create).unwrap();
    for write in list.groups().iter().take(2).flatten() {
        file.write_all_at(write.contents, write.sector * 512)
            .unwrap();
    }
}

fn all_commands(gib: u64, extent_bytes: u64) {
    let folder = Folder::new(&format!("{gib}-gib"));
    let card = folder.file("card");
    let sectors = (gib << 21).to_string();
    let said = good("format", &card, &["--sectors", &sectors, "--sparse"]);
    let room: u64 = said
        .split_whitespace()
        .filter_map(|word| word.parse().ok())
        .next_back()
        .unwrap();
    assert!(
        room > (gib << 30) - (gib << 24) && room < gib << 30,
        "{said}"
    );
    // Only the metadata are written.
    let metadata = fs::metadata(&card).unwrap();
    assert_eq!(metadata.len(), gib << 30);
    assert!(metadata.blocks() * 512 < 4 << 20);

    let contents: Vec<u8> = (0..200_000_u32).map(|i| (i * 7 + i / 256) as u8).collect();
    let file = folder.write("source", &contents);
    let file = file.to_str().unwrap();
    let copy = folder.file("copy");
    for name in ["a", "b"] {
        good("put", &card, &[file, "--as", name]);
        good("get", &card, &[name, "--as", copy.to_str().unwrap()]);
        assert!(fs::read(&copy).unwrap() == contents);
    }
    good("resize", &card, &["b", "300000"]);
    good("rm", &card, &["a"]);
    assert_eq!(good("check", &card, &[]), "sound, 1 files\n");
    let used = 300_000_u64.div_ceil(extent_bytes);
    let info = good("info", &card, &[]);
    assert!(
        info.contains(&format!("extents used     {used}\n"))
            && info.contains(&format!("sectors ({extent_bytes} bytes)")),
        "{info}"
    );

    let held = start(&card);
    assert!(good("trial", &card, &["create", "c"]).contains("recoveries cut in 36 of 36 ways"));
    let said = on("rm", &card, &["c"]);
    assert!(
        said.status == 1 && said.err.contains("refused (9)"),
        "{said:?}"
    );
    let said = on("resize", &card, &["b", &(room + 1).to_string()]);
    assert!(
        said.status == 1 && said.err.contains("refused (13)"),
        "{said:?}"
    );
    assert!(start(&card) == held);

    for budget in [None, Some("2")] {
        cut_create(&card, b"c");
        let said = on("ls", &card, &[]);
        assert!(
            said.status == 1 && said.err.contains("refused (5)"),
            "{said:?}"
        );
        let words = budget.map_or(vec![], |budget| vec!["--budget", budget]);
        // Two copies, and the end mark.
        let slices = if budget.is_some() { 2 } else { 1 };
        for slice in 1..=slices {
            let said = good("recover", &card, &words);
            assert_eq!(said.starts_with("recovered"), slice == slices, "{said}");
        }
        assert_eq!(good("check", &card, &[]), "sound, 2 files\n");
        good("rm", &card, &["c"]);
    }

    // Files past the first 4 GiB of extents, and what a file's bytes cost.
    good("put", &card, &[file, "--as", "b", "--in-place"]);
    good("write", &card, &["b", "1000", file]);
    good("mv", &card, &["b", "d"]);
    let map = good("map", &card, &[]);
    assert!(map.contains("d, 201000 bytes"), "{map}");
    good("get", &card, &["d", "--as", copy.to_str().unwrap()]);
    let expected = [&contents[..1_000], &contents].concat();
    assert!(fs::read(&copy).unwrap() == expected);

    // Extents of no file: check refuses, salvage copies what is whole, repair frees them.
    let image = Image::load(&Disk::shared(File::open(&card).unwrap()).unwrap()).unwrap();
    let summary = image.summary();
    drop(image);
    let last = summary.table_at() * 512 + 4 * (summary.extents - 1);
    let leaky = OpenOptions::new().write(true).open(&card).unwrap();
    leaky.write_all_at(&[0, 9, 0, 0], last).unwrap();
    drop(leaky);
    let said = on("check", &card, &[]);
    assert!(
        said.status == 1 && said.err.contains("fault 25"),
        "{said:?}"
    );
    let into = folder.file("salvaged");
    good("salvage", &card, &[into.to_str().unwrap()]);
    assert!(fs::read(into.join("d")).unwrap() == expected);
    good("repair", &card, &["--yes"]);
    assert_eq!(good("check", &card, &[]), "sound, 1 files\n");
}

/// A card of 4 GiB that one file fills. A trial takes little memory, and not the time that reading the file
/// would take. The file itself can't be held, and nothing is written of it.
#[test]
fn a_trial_on_a_full_card() {
    let folder = Folder::new("full-card");
    let card = folder.file("card");
    good(
        "format",
        &card,
        &["--sectors=8389408", "--time=1", "--sparse"],
    );
    let source = folder.write("f", &[1; 3_000]);
    let source = source.to_str().unwrap();
    good("put", &card, &[source]);
    let file = OpenOptions::new().write(true).open(&card).unwrap();
    let extents: u16 = 65_530;
    let size = u64::from(extents) * 65_536;
    file.write_all_at(&size.to_be_bytes(), 2 * 512 + 2).unwrap();
    let table: Vec<u8> = (0..extents)
        .flat_map(|offset| [[0, 0], offset.to_be_bytes()].concat())
        .collect();
    file.write_all_at(&table, (34 + 255) * 512).unwrap();
    drop(file);
    assert_eq!(good("check", &card, &[]), "sound, 1 files\n");

    let smaller = (size - 65_536).to_string();
    for change in [
        &["write", "f", "1000", source][..],
        &["resize", "f", &smaller],
        &["create", "g"],
    ] {
        let said = good("trial", &card, change);
        assert!(said.contains("recoveries cut in "), "{change:?}");
    }
    let copy = folder.file("copy");
    let said = on("get", &card, &["f", "--as", copy.to_str().unwrap()]);
    assert_eq!(said.status, 1);
    assert!(
        said.err.contains("has no memory or addresses for so many") && said.err.contains("Next: "),
        "{}",
        said.err
    );
    assert!(!copy.exists());
}

/// A card of 1 GiB that a goofs without rename has filled: of its 16,128 extents one is free, and two must
/// stay free now. It is read, and can't be changed; info says so.
#[test]
fn an_older_full_card() {
    let folder = Folder::new("older-card");
    let card = folder.file("card");
    let sectors = (546 + 255 + 128 * 16_128).to_string();
    good("format", &card, &["--sectors", &sectors, "--sparse"]);
    let source = folder.write("f", &[1; 3_000]);
    good("put", &card, &[source.to_str().unwrap()]);
    let fill = |extents: u16| {
        let file = OpenOptions::new().write(true).open(&card).unwrap();
        let size = u64::from(extents) * 65_536;
        file.write_all_at(&size.to_be_bytes(), 2 * 512 + 2).unwrap();
        let table: Vec<u8> = (0..extents)
            .flat_map(|offset| [[0, 0], offset.to_be_bytes()].concat())
            .collect();
        file.write_all_at(&table, (34 + 255) * 512).unwrap();
    };
    fill(16_126);
    assert!(good("info", &card, &[]).contains("extents free     2, of which 2 must stay free; 0"));
    good("mv", &card, &["f", "g"]);
    fill(16_127);
    let held = start(&card);
    assert_eq!(good("check", &card, &[]), "sound, 1 files\n");
    let info = good("info", &card, &[]);
    assert!(
        info.contains("extents free     1, of which 2 must stay free; 0 (0 bytes)")
            && info.contains("frozen           yes: "),
        "{info}"
    );
    let said = on("rm", &card, &["g"]);
    assert!(
        said.status == 1 && said.err.contains("refused (13)") && said.err.contains("larger card"),
        "{said:?}"
    );
    assert!(start(&card) == held);
}

/// An image file that is all holes has nothing to lose, and is not read to its end to know that. One
/// byte far behind the metadata is found.
#[test]
fn a_format_of_a_sparse_image() {
    let folder = Folder::new("sparse");
    let card = folder.file("card");
    let file = File::create(&card).unwrap();
    file.set_len(400 << 30).unwrap();
    file.write_all_at(&[1], 300 << 30).unwrap();
    let format = |words: &[&str]| with_limit(WORK, "format", &card, words);
    let said = format(&[]);
    let place = format!("other data, from byte {}", 300_u64 << 30);
    assert!(said.status == 1 && said.err.contains(&place), "{said:?}");
    let said = format(&["--sectors=600000000", "--sparse"]);
    assert_eq!(said.status, 0, "{said:?}");
}

/// The largest directory, full. No command makes a judgement, or a pass over the directory, for each
/// file: `check` and `ls` would take hours then.
#[test]
fn a_directory_of_65535_files() {
    let folder = Folder::new("directory");
    let geometry = Geometry::new(65_535, 4, 128).unwrap();
    let mut image = blank(geometry, geometry.end().0);
    for index in 0..65_535 {
        let (size, extents) = match index {
            65_534 => (600, &[2][..]),
            _ => (0, &[][..]),
        };
        let name = format!("transect-{index}").into_bytes();
        put_file(&mut image, geometry, index, &name, size, extents);
    }
    let card = folder.write("card", &image);
    let within = |command: &str, words: &[&str]| with_limit(WORK, command, &card, words);
    assert_eq!(within("check", &[]).text(), "sound, 65535 files\n");
    let listed = within("ls", &[]).text().lines().count();
    assert!(listed >= 65_535, "{listed} lines");
    assert_eq!(within("info", &[]).status, 0);
    assert_eq!(within("get", &["transect-65534"]).out.len(), 600);
    let source = folder.write("source", &[1; 700]);
    let source = source.to_str().unwrap();
    let full = within("put", &[source, "--as", "new"]);
    assert!(
        full.status == 1 && full.err.contains("refused (11)"),
        "{full:?}"
    );
    // A new file beside the old one needs an entry, too.
    let full = within("put", &[source, "--as", "transect-65534"]);
    assert!(
        full.status == 1 && full.err.contains("refused (11)") && full.err.contains("--in-place"),
        "{full:?}"
    );
    for (command, words) in [
        ("put", &[source, "--as", "transect-65534", "--in-place"][..]),
        ("resize", &["transect-65534", "10"]),
        ("rm", &["transect-7"]),
        ("put", &[source, "--as", "transect-65534"]),
        ("put", &[source, "--as", "new"]),
        ("mv", &["transect-65534", "transect-7"]),
        ("mv", &["transect-7", "transect-65534"]),
        ("trial", &["rm", "transect-65534"]),
    ] {
        let said = within(command, words);
        assert_eq!(said.status, 0, "{command}: {}", said.err);
    }
    assert_eq!(within("check", &[]).text(), "sound, 65535 files\n");
}

#[test]
fn a_format_for_65535_files() {
    let folder = Folder::new("most-files");
    let card = folder.file("card");
    let words = ["--sectors=66593", "--files=65535", "--time=1"];
    let said = good("format", &card, &words);
    assert!(
        said.starts_with("formatted: 65535 files at most, "),
        "{said}"
    );
    assert_eq!(good("check", &card, &[]), "sound, 0 files\n");
    for (files, sectors) in [("65536", "66594"), ("254", "1312")] {
        let words = ["--sectors", sectors, "--files", files, "--yes"];
        let said = on("format", &card, &words);
        assert!(
            said.status == 1 && said.err.contains("give 255 to 65535 files"),
            "{said:?}"
        );
    }
}

#[test]
fn a_volume_of_6_gib() {
    all_commands(6, 1 << 17);
}

#[test]
fn a_volume_of_400_gib() {
    all_commands(400, 1 << 23);
}

#[test]
fn a_volume_of_12_tib() {
    all_commands(12 << 10, 1 << 28);
}
