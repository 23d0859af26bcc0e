//! The command map: the picture in the terminal, with colours and without, and the SVG file.

mod shared;

use std::fs;
use std::path::{Path, PathBuf};
use std::process::Command;

use shared::{bad, good, name_by_hand, on, on_terminal, run, Folder};

/// A volume with holes between its files.
fn sample(folder: &Folder) -> PathBuf {
    let card = folder.file("card");
    good("format", &card, &["--size=1M", "--time=1000"]);
    for (name, length) in [("a", 70_000), ("b", 1), ("c", 140_000), ("none", 0)] {
        let file = folder.write(name, &vec![7; length]);
        good("put", &card, &[file.to_str().unwrap(), "--time=1001"]);
    }
    good("rm", &card, &["b"]);
    let file = folder.write("d", &[7; 100_000]);
    good("put", &card, &[file.to_str().unwrap(), "--time=1001"]);
    name_by_hand(&card, 2, b"<c> & 'c'");
    card
}

const PICTURE: &str = "\
superblock  sectors 0 to 0  clean
root        sectors 1 to 1
directory   sectors 2 to 256  4 of 255 entries used
journal     sectors 257 to 288
table       sectors 289 to 289  9 entries
data        sectors 290 to 1441  9 extents of 65536 bytes

from extent  each sign is an extent
          0  AABCCCB..

  A  a, 70000 bytes, 2 extents in 1 run
  B  d, 100000 bytes, 2 extents in 2 runs
  C  '<c> & '\\''c'\\''', 140000 bytes, 3 extents in 1 run
  .  free, 2 extents; 1 of them no file gets
     1 file without an extent
";

#[test]
fn a_picture_in_letters() {
    let folder = Folder::new("map");
    let card = sample(&folder);
    let before = fs::read(&card).unwrap();
    assert_eq!(good("map", &card, &[]), PICTURE);
    assert_eq!(good("map", &card, &["--color=auto"]), PICTURE);
    assert!(fs::read(&card).unwrap() == before);
    bad("map", &card, &["--color=loud"], 2);
    bad("map", &folder.file("nothing"), &[], 1);
}

/// The same letters, each file in a colour, only where that is wanted.
#[test]
fn a_picture_in_colours() {
    let folder = Folder::new("map-colours");
    let card = sample(&folder);
    let coloured = good("map", &card, &["--color", "always"]);
    assert!(
        coloured.contains(
            "  \x1b[30;48;5;117mAA\x1b[0m\x1b[30;48;5;214mB\x1b[0m\x1b[30;48;5;120mCCC\x1b[0m"
        ),
        "{coloured:?}"
    );
    assert_eq!(without_colours(&coloured), PICTURE);
    let words = ["map", card.to_str().unwrap()];
    for (settings, is_coloured) in [
        (&[][..], true),
        (&[("NO_COLOR", "")], true),
        (&[("NO_COLOR", "1")], false),
        (&[("TERM", "dumb")], false),
    ] {
        if let Some(said) = on_terminal(&words, settings) {
            let expected = if is_coloured { &coloured } else { PICTURE };
            assert_eq!(said.replace('\r', ""), *expected, "{settings:?}");
        }
    }
    let never = [&words[..], &["--color=never"]].concat();
    if let Some(said) = on_terminal(&never, &[]) {
        assert_eq!(said.replace('\r', ""), PICTURE);
    }
}

fn without_colours(text: &str) -> String {
    let mut parts = text.split('\x1b');
    let mut plain = parts.next().unwrap().to_string();
    for part in parts {
        plain.push_str(part.split_once('m').expect("a colour").1);
    }
    plain
}

/// Volumes that are not sound are shown as they stand; an unfinished one has nothing to show.
#[test]
fn volumes_that_are_not_sound() {
    let folder = Folder::new("map-unsound");
    let mut image = fs::read(sample(&folder)).unwrap();
    // Extent 7 is given to entry 9, and the entry of "d" is marked as neither.
    image[289 * 512 + 28..][..4].copy_from_slice(&[0, 9, 0, 0]);
    image[3 * 512..][..2].copy_from_slice(&[1, 1]);
    let unsound = folder.write("unsound", &image);
    let said = good("map", &unsound, &[]);
    for line in [
        "          0  AA?BBB??.",
        "  ?  3 extents of no file",
        "  .  free, 1 extent; 1 of them no file gets",
        &format!("next: goofs check {}", unsound.display()),
    ] {
        assert!(said.lines().any(|said| said == line), "{line} in\n{said}");
    }
    assert!(
        said.contains("\nthe volume is not sound: fault 21, directory entry 1"),
        "{said}"
    );
    // A name that is longer than its sector.
    image[4 * 512 + 34..][..2].copy_from_slice(&[255, 255]);
    good("map", &folder.write("long", &image), &[]);
    image[18..20].copy_from_slice(&[0, 3]);
    let waiting = good("map", &folder.write("waiting", &image), &[]);
    assert!(
        waiting.starts_with("superblock  sectors 0 to 0  waiting\n"),
        "{waiting}"
    );
    image[18..20].copy_from_slice(&[255, 255]);
    let err = bad("map", &folder.write("unfinished", &image), &[], 1);
    assert!(err.contains("refused (4)"), "{err}");
}

/// More files than letters, and more extents than signs.
#[test]
fn a_large_volume() {
    let folder = Folder::new("map-large");
    let card = folder.file("card");
    good("format", &card, &["--size=100M", "--sparse"]);
    let files: Vec<PathBuf> = (0..80)
        .map(|i| {
            folder.write(
                &format!("f{i:02}"),
                &vec![1; if i < 70 { 65_537 } else { 1 }],
            )
        })
        .collect();
    let words: Vec<&str> = files.iter().map(|file| file.to_str().unwrap()).collect();
    good("put", &card, &words);
    let said = good("map", &card, &[]);
    assert!(
        said.contains("each sign is 2 extents, and stands for the file"),
        "{said}"
    );
    assert!(
        said.contains(
            "\n          0  ABCDEFGHIJKLMNOPQRSTUVWXYZabcdefghijklmnopqrstuvwxyz0123456789##\n"
        ),
        "{said}"
    );
    assert!(
        said.contains("  #  18 other files with fewer, together 26 extents\n"),
        "{said}"
    );
}

/// What python's XML reader finds in a file.
fn xml(file: &Path, script: &str) -> Option<String> {
    if Command::new("python3").arg("--version").output().is_err() {
        eprintln!("python3 is not there: the SVG file is not read");
        return None;
    }
    let script = format!(
        "import sys, xml.etree.ElementTree as xml\nroot = xml.parse(sys.argv[1]).getroot()\n\
         S = '{{http://www.w3.org/2000/svg}}'\n{script}"
    );
    let said = run(Command::new("python3").args(["-c", &script]).arg(file));
    assert_eq!(said.status, 0, "{}", said.err);
    Some(said.text())
}

#[test]
fn an_svg_file() {
    let folder = Folder::new("map-svg");
    let card = sample(&folder);
    let svg = folder.write("map.svg", b"old");
    let words = ["--svg", svg.to_str().unwrap()];
    assert_eq!(good("map", &card, &words), "");
    let titles = "for t in root.iter(S + 'title'): print(t.text)";
    if let Some(said) = xml(&svg, titles) {
        assert_eq!(
            said,
            "extent 0 to 1: a\nextent 2 to 2: d\nextent 3 to 5: '<c> & '\\''c'\\'''\nextent 6 to 6: d\n\
             extent 7 to 8: free\n"
        );
    }
    // The two pieces of "d" have one colour, as its place in the legend.
    let fills = "r = [e for e in root.iter(S + 'rect') if len(e)]; f = [e.get('fill') for e in r]\n\
                 print(f[1] == f[3], len(set(f)), sum(e.get('fill') == f[1] for e in root.iter(S + 'rect')))\n\
                 print(root.tag == S + 'svg', all(0 <= float(e.get('x', 0)) and float(e.get('x', 0)) + float(e.get('width')) <= 1000 \
                 for e in root.iter(S + 'rect')))";
    if let Some(said) = xml(&svg, fills) {
        assert_eq!(said, "True 4 3\nTrue True\n");
    }
    let before = fs::read(&card).unwrap();
    let err = bad("map", &card, &["--svg", card.to_str().unwrap()], 1);
    assert!(err.contains("is the card itself"), "{err}");
    assert!(fs::read(&card).unwrap() == before);
    assert_eq!(on("map", &card, &["--svg", "/nowhere/map.svg"]).status, 1);
}
