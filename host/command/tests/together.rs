//! Files that change over together: several renames in one mv, and put --together, which saves all files
//! beside and then renames them in one change. After a cut anywhere all are the old ones or all the new.

mod shared;

use std::fs;
use std::path::{Path, PathBuf};

use shared::{bad, faulty, formatted, good, on, trial, Folder};

const SET: [&str; 3] = ["beam", "temperature", "timing"];

/// Two extents for each of three files, and for some more.
fn card_for_sets(folder: &Folder, edition: &str) -> PathBuf {
    let card = folder.file(&format!("card-{edition}"));
    let words = ["--sectors=2500", "--time=1000", "--edition", edition];
    good("format", &card, &words);
    card
}

/// Files of these names and this day, in a folder of the day.
fn files_of(folder: &Folder, day: &str, names: &[&str]) -> Vec<String> {
    fs::create_dir_all(folder.file(day)).unwrap();
    let files = names.iter().map(|name| {
        let path = folder.write(
            &format!("{day}/{name}"),
            format!("{name} of {day}").as_bytes(),
        );
        path.to_str().unwrap().to_string()
    });
    files.collect()
}

fn words<'w>(files: &'w [String], more: &[&'w str]) -> Vec<&'w str> {
    let files = files.iter().map(String::as_str);
    files.chain(more.iter().copied()).collect()
}

/// A file's bytes as text; none if it is not there.
fn text(card: &Path, name: &str) -> Option<String> {
    let said = on("get", card, &[name]);
    assert!(
        said.status == 0 || said.err.contains("refused (9)"),
        "{}",
        said.err
    );
    (said.status == 0).then(|| said.text())
}

/// Version, id and name of each file, in the directory's order.
fn listed(card: &Path) -> Vec<String> {
    let ls = good("ls", card, &["--numeric"]);
    let lines = ls.lines().map(|line| {
        let words: Vec<&str> = line.split_whitespace().collect();
        let after = |key| words[1 + words.iter().position(|word| *word == key).unwrap()];
        format!(
            "{} {} {}",
            after("version"),
            after("id"),
            words[words.len() - 1]
        )
    });
    lines.collect()
}

/// A card with the files a, b and c, each with its name as contents.
fn with_three(folder: &Folder) -> PathBuf {
    let card = formatted(folder);
    for name in ["a", "b", "c"] {
        let file = folder.write(name, name.as_bytes());
        good("put", &card, &[file.to_str().unwrap(), "--time=1001"]);
    }
    assert_eq!(listed(&card), ["2 2 a", "2 3 b", "2 4 c"]);
    card
}

fn gone(name: &str, id: u64) -> String {
    format!("replaced: the old {name}, of 1 bytes and with id {id}, is gone\n")
}

#[test]
fn several_renames() {
    let folder = Folder::new("several-renames");
    let base = with_three(&folder);
    let before = fs::read(&base).unwrap();
    for (names, said, files) in [
        // Other names; a swap through a third name; names that move on.
        (
            &["a", "x", "b", "y", "c", "z"][..],
            String::new(),
            &["3 2 x", "3 3 y", "3 4 z"][..],
        ),
        (
            &["a", "t", "b", "a", "t", "b"],
            String::new(),
            &["4 2 b", "3 3 a", "2 4 c"],
        ),
        (
            &["c", "d", "b", "c", "a", "b"],
            String::new(),
            &["3 2 b", "3 3 c", "3 4 d"],
        ),
        // There and back is no swap: b's file goes with the first rename.
        (&["a", "b", "b", "a"], gone("b", 3), &["4 2 a", "2 4 c"]),
        // A name that is renamed onto, and away again; one that is replaced twice.
        (&["a", "b", "b", "d"], gone("b", 3), &["4 2 d", "2 4 c"]),
        (
            &["a", "c", "b", "c"],
            gone("a", 2) + &gone("c", 4),
            &["3 3 c"],
        ),
        // To itself nothing is done, among others too.
        (
            &["a", "a", "b", "d"],
            String::new(),
            &["2 2 a", "3 3 d", "2 4 c"],
        ),
    ] {
        let card = folder.write("set", &before);
        let root = |card| {
            good("info", card, &[])
                .lines()
                .find(|line| line.starts_with("root"))
                .map(str::to_string)
        };
        let root_before = root(&card);
        assert_eq!(
            good("mv", &card, &[names, &["--time=1005"]].concat()),
            said,
            "{names:?}"
        );
        assert_eq!(listed(&card), files, "{names:?}");
        assert_ne!(root(&card), root_before, "{names:?}");
        let ids = [(2, "a"), (3, "b"), (4, "c")];
        for file in files {
            let (id, name) = file[2..].split_once(' ').unwrap();
            let contents = ids.iter().find(|(own, _)| own.to_string() == id).unwrap().1;
            assert_eq!(text(&card, name).unwrap(), contents, "{names:?}");
        }
        assert_eq!(
            good("check", &card, &[]),
            format!("sound, {} files\n", files.len())
        );
    }
    // All to themselves: nothing is written.
    let card = folder.write("set", &before);
    let said = good("mv", &card, &["a", "a", "b", "b"]);
    assert_eq!(said, "nothing to do: each of these files has its name\n");
    assert!(fs::read(&card).unwrap() == before);
    // Eight.
    let renames: Vec<String> = (0..8)
        .flat_map(|i| [format!("n{i}"), format!("n{}", i + 1)])
        .collect();
    let renames: Vec<&str> = renames.iter().map(String::as_str).collect();
    good("mv", &card, &["a", "n0"]);
    good("mv", &card, &renames);
    assert_eq!(listed(&card), ["11 2 n8", "2 3 b", "2 4 c"]);
}

/// A refusal says which of the renames it is, and changes nothing.
#[test]
fn refused_with_its_place() {
    let folder = Folder::new("refused-renames");
    let card = with_three(&folder);
    let long = "n".repeat(477);
    for (names, what, next) in [
        (
            &["a", "x", "light", "y", "b", "z"][..],
            "rename 2 of 3, light to y: the name was light",
            "goofs ls",
        ),
        (
            &["light", "y", "a", "x"],
            "rename 1 of 2, light to y: the name was light",
            "goofs ls",
        ),
        (
            &["a", "x", "b", "y z"],
            "rename 2 of 2, b to 'y z': the new name 'y z' has a space",
            "another NEW",
        ),
        (&["a", "x", "b", ""], "the new name is empty", "1 to 476"),
        (
            &["a", "x", "b", "y", &long, "z"],
            "the old name has 477 bytes",
            "1 to 476",
        ),
        // Of two the first is told, whatever its number.
        (
            &["light", "y", "a", "b c"],
            "refused (9): there is no file of this name (rename 1 of 2",
            "goofs ls",
        ),
        (
            &["a", "b c", "light", "y"],
            "refused (8): an argument is out of its bounds (rename 1 of 2",
            "another NEW",
        ),
        // A name that is there, but not any more.
        (
            &["a", "x", "a", "y"],
            "rename 2 of 2, a to y: the name was a; the renames before it",
            "at that point",
        ),
        (
            &["a", "b", "c", "b", "a", "a"],
            "rename 3 of 3, a to a: the name was a; the renames before",
            "that point",
        ),
        (
            &["a", "b", "c", "c.goofs-saving"],
            "names that end in .goofs-saving",
            "another NEW",
        ),
    ] {
        for (command, words) in [("mv", names.to_vec()), ("trial", [&["mv"], names].concat())] {
            let err = bad(command, &card, &words, 1);
            let (happened, advice) = err.split_once(" Nothing was changed.\nNext: ").unwrap();
            assert!(happened.contains(what), "{names:?}: {err}");
            assert!(advice.contains(next), "{names:?}: {err}");
        }
    }
    // A time that the edition can't store is no rename's.
    let err = bad("mv", &card, &["a", "x", "b", "y", "--time=4294967296"], 1);
    assert!(
        err.contains("the time 4294967296") && !err.contains("rename 1 of"),
        "{err}"
    );
    // Words that are no renames.
    for (names, what) in [
        (&["a"][..], "NEW is missing"),
        (
            &["a", "b", "c"],
            "NEW is missing: there is no name for c to get",
        ),
        (&["a", "x", "b", "y", "c"], "no name for c to get"),
        (&["a"; 18], "up to 8 renames, and there are 9"),
    ] {
        for (command, words) in [("mv", names.to_vec()), ("trial", [&["mv"], names].concat())] {
            let err = bad(command, &card, &words, 2);
            assert!(err.contains(what), "{names:?}: {err}");
        }
    }
}

/// Which of the files are those of the day.
fn are_of(card: &Path, day: &str) -> Vec<bool> {
    let are = SET
        .iter()
        .map(|name| text(card, name) == Some(format!("{name} of {day}")));
    are.collect()
}

/// The power cut at each write and barrier of a put of three files over three others, or of new ones.
#[test]
fn a_set_cut_at_each_step() {
    let folder = Folder::new("set-cut");
    let [monday, tuesday] = ["monday", "tuesday"].map(|day| files_of(&folder, day, &SET));
    for (edition, is_over, fault) in [
        ("1", true, "cut"),
        ("1", true, "lost"),
        ("1", true, "landed"),
        ("1", false, "cut"),
        ("2", true, "cut"),
    ] {
        let base = card_for_sets(&folder, edition);
        if is_over {
            good(
                "put",
                &base,
                &words(&monday, &["--together", "--time=1001"]),
            );
        }
        let (mut ends, mut left) = (Vec::new(), 0);
        for at in 0.. {
            let all = words(&tuesday, &["--together", "--time=1002"]);
            let said = faulty(&folder, &base, fault, at, "put", &all);
            let card = folder.file("faulty-card");
            if said.status == 0 {
                assert_eq!(are_of(&card, "tuesday"), [true; 3]);
                break;
            }
            let told = good("recover", &card, &[]);
            let is_new = are_of(&card, "tuesday") == [true; 3];
            let is_old = match is_over {
                true => are_of(&card, "monday") == [true; 3],
                false => SET.iter().all(|name| text(&card, name).is_none()),
            };
            assert!(is_new || is_old, "{fault} at {at}: {told}");
            let beside = SET.iter().filter(|name| {
                told.contains(&format!("left by a put that was cut: {name}.goofs-saving"))
            });
            let beside = beside.count();
            assert!(!is_new || beside == 0, "{fault} at {at}: {told}");
            left += usize::from(beside == 3);
            ends.push(is_new);
            good("check", &card, &[]);
            // The next put ends well, and leaves nothing.
            if at % 5 == 0 {
                good("put", &card, &words(&monday, &["--together"]));
                assert_eq!(are_of(&card, "monday"), [true; 3]);
                assert_eq!(good("check", &card, &[]), "sound, 3 files\n");
            }
        }
        // The new set is there from the start mark of the renames on.
        let news = ends.iter().filter(|is_new| **is_new).count();
        assert!(
            ends.is_sorted() && news > 3 && left > 3,
            "{fault}: {ends:?} {left}"
        );
        assert!(ends.len() > 60, "{} steps", ends.len());
        fs::remove_file(base).unwrap();
    }
}

/// The same of a mv: a swap of two files.
#[test]
fn a_swap_cut_at_each_step() {
    let folder = Folder::new("swap-cut");
    let base = with_three(&folder);
    let mut ends = Vec::new();
    for at in 0.. {
        let said = faulty(
            &folder,
            &base,
            "cut",
            at,
            "mv",
            &["a", "t", "b", "a", "t", "b"],
        );
        let card = folder.file("faulty-card");
        if said.status == 0 {
            break;
        }
        good("recover", &card, &[]);
        let found = ["a", "b", "t"].map(|name| text(&card, name).unwrap_or_default());
        let found = found.each_ref().map(String::as_str);
        assert!(
            found == ["a", "b", ""] || found == ["b", "a", ""],
            "{found:?}"
        );
        ends.push(found[0] == "b");
        assert_eq!(good("check", &card, &[]), "sound, 3 files\n");
    }
    // The opening, and the steps of one change: copies, journal, mark, three targets, mark and barriers.
    assert!(
        ends.is_sorted() && ends.contains(&true) && ends.len() > 8,
        "{ends:?}"
    );
}

#[test]
fn trials_of_sets() {
    let folder = Folder::new("trials-of-sets");
    let card = card_for_sets(&folder, "1");
    let monday = files_of(&folder, "monday", &SET);
    good("put", &card, &words(&monday, &["--together"]));
    // The root and two entries; root, four entries and a table sector.
    for (names, targets) in [
        (&["beam", "t", "timing", "x"][..], 3),
        (&["beam", "timing", "temperature", "beam"], 5),
    ] {
        let (numbers, _) = trial(&card, &[&["mv"], names].concat());
        let [writes, _, _, before, part, after, different] = numbers;
        assert_eq!(writes, 2 * targets + 1 + 2, "{names:?}");
        assert!(
            before > 0 && after > 0 && part == 0 && different == 0,
            "{numbers:?}"
        );
    }
    // Three creates, three writes, and one change with root, six entries and the table sector.
    let cut = folder.file("cut");
    let tuesday = files_of(&folder, "tuesday", &SET);
    let all = words(&tuesday, &["--together", "--leave", cut.to_str().unwrap()]);
    let (numbers, _) = trial(&card, &[&["put"], &all[..]].concat());
    assert_eq!(numbers[0], 3 * 7 + 3 * 8 + 2 * 8 + 1 + 2);
    assert!(numbers[4] == 0 && numbers[6] == 0, "{numbers:?}");
    // Left right after the start mark of the set: a recovery finishes all of it.
    assert_eq!(
        good("recover", &cut, &[]),
        "recovered: the change that was cut is done now\n"
    );
    assert_eq!(are_of(&cut, "tuesday"), [true; 3]);
    bad(
        "trial",
        &card,
        &[&["put"], &words(&tuesday, &[])[..]].concat(),
        2,
    );
    bad("trial", &card, &["rm", "beam", "--together"], 2);
}

#[test]
fn put_together() {
    let folder = Folder::new("put-together");
    let card = card_for_sets(&folder, "1");
    // One file, an empty one, and eight.
    let one = folder.write("one", b"of one");
    good(
        "put",
        &card,
        &[one.to_str().unwrap(), "--together", "--id=77", "--as=first"],
    );
    assert_eq!(listed(&card), ["2 77 first"]);
    let names: Vec<String> = (0..9).map(|i| format!("n{i}")).collect();
    let names: Vec<&str> = names.iter().map(String::as_str).collect();
    let nine = files_of(&folder, "nine", &names);
    let err = bad("put", &card, &words(&nine, &["--together"]), 2);
    assert!(
        err.contains("up to 8 FILEs")
            && err.contains("there are 9")
            && err.contains("leave --together out"),
        "{err}"
    );
    folder.write("nine/n0", b"");
    let small = folder.file("small");
    good("format", &small, &["--sectors=4M"]);
    good(
        "put",
        &small,
        &words(&nine[..8], &["--together", "--mode=600"]),
    );
    assert_eq!(good("check", &small, &[]), "sound, 8 files\n");
    assert_eq!(text(&small, "n0").unwrap(), "");
    assert_eq!(text(&small, "n7").unwrap(), "n7 of nine");
    assert_eq!(listed(&small)[..2], ["1 2 n0", "2 3 n1"]);
    // As the advice says.
    good("put", &small, &words(&nine, &[]));
    assert_eq!(good("check", &small, &[]), "sound, 9 files\n");

    let err = bad(
        "put",
        &card,
        &words(&nine[..2], &["--together", "--in-place"]),
        2,
    );
    assert!(err.contains("give one of the two"), "{err}");
    let err = bad(
        "put",
        &card,
        &words(&nine[..2], &["--together", "--id=5"]),
        2,
    );
    assert!(err.contains("--id 5 is for one file"), "{err}");
    // One of them is refused: none is put.
    folder.write("nine/with space", b"");
    let space = folder.file("nine/with space");
    let err = bad(
        "put",
        &card,
        &[&nine[1], space.to_str().unwrap(), "--together"],
        1,
    );
    assert!(err.contains("refused (8)"), "{err}");
    assert_eq!(listed(&card), ["2 77 first"]);
}

/// All old files stay until all new ones are there, and that needs room.
#[test]
fn no_room_for_a_set() {
    let folder = Folder::new("set-no-room");
    let card = formatted(&folder); // three extents
    let names = ["f", "g"];
    let monday = files_of(&folder, "monday", &names);
    good("put", &card, &words(&monday, &["--together"]));
    let tuesday = files_of(&folder, "tuesday", &names);
    let err = bad("put", &card, &words(&tuesday, &["--together"]), 1);
    assert!(
        err.contains("refused (13)") && err.contains("g: ") && err.contains("no room for both"),
        "{err}"
    );
    assert!(
        err.contains("goofs rm")
            && err.contains("leave --together out")
            && !err.contains("--in-place"),
        "{err}"
    );
    // As the advice says.
    good("put", &card, &words(&tuesday, &[]));
    assert_eq!(text(&card, "f").unwrap(), "f of tuesday");
    // What a cut has left is removed before the first is saved, so that its room is there: six extents.
    let card = folder.file("six");
    good("format", &card, &["--sectors=1697"]);
    good(
        "put",
        &card,
        &words(&files_of(&folder, "monday", &SET), &["--together"]),
    );
    let wednesday = files_of(&folder, "wednesday", &SET);
    let all = words(&wednesday, &["--together"]);
    let cut = folder.file("faulty-card");
    let mut tried = 0;
    for at in 60.. {
        if faulty(&folder, &card, "cut", at, "put", &all).status == 0 {
            break;
        }
        let told = good("recover", &cut, &[]);
        let is_full = good("info", &cut, &[]).contains("; 0 (0 bytes) for files\n");
        if told.matches("left by a put").count() == 3 && is_full {
            good("put", &cut, &all);
            assert_eq!(are_of(&cut, "wednesday"), [true; 3]);
            assert_eq!(good("check", &cut, &[]), "sound, 3 files\n");
            tried += 1;
        }
    }
    assert!(tried > 3, "{tried}");
}
