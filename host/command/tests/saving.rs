//! Files that take another's name: mv, and put, which saves beside and renames. After a cut anywhere
//! the name stands for the old file or the new one, and what is left beside is told and removed.

mod shared;

use std::fs::{self, OpenOptions};
use std::path::{Path, PathBuf};

use goofs::change::Change;
use goofs::device::Disk;
use goofs::image::Image;
use goofs::save::Save;
use goofs::volume::Volume;
use shared::{bad, formatted, good, name_by_hand, on, run, trial, Folder};

fn put(folder: &Folder, card: &Path, name: &str, contents: &[u8]) {
    let file = folder.write("source", contents);
    good("put", card, &[file.to_str().unwrap(), "--as", name]);
}

fn get(card: &Path, name: &str) -> Vec<u8> {
    let said = on("get", card, &[name]);
    assert_eq!(said.status, 0, "{}", said.err);
    said.out
}

/// The first changes of a put of this file, as a stop between two of them leaves them. Gives how many
/// there are in all.
fn begin_put(card: &Path, name: &str, contents: &[u8], done: usize) -> usize {
    let file = OpenOptions::new().read(true).write(true).open(card);
    let mut volume = Volume::open(Disk::exclusive(file.unwrap()).unwrap()).unwrap();
    let image = volume.image().unwrap();
    let id = image.unused_id(&[]).unwrap();
    let save = Save::new(image, name.as_bytes(), id, None, 5).unwrap();
    let changes = save.changes(contents);
    volume.apply(&changes[..done]).unwrap();
    changes.len()
}

#[test]
fn mv_gives_another_name() {
    let folder = Folder::new("mv");
    let card = formatted(&folder);
    put(&folder, &card, "f", b"of f");
    put(&folder, &card, "g", &[b'g'; 70_000]);
    assert_eq!(good("mv", &card, &["f", "new", "--time=77"]), "");
    let ls = good("ls", &card, &["--numeric"]);
    assert!(
        ls.lines()
            .next()
            .unwrap()
            .ends_with("id 2      mode 644    changed 77  new"),
        "{ls}"
    );
    assert_eq!(get(&card, "new"), b"of f");
    assert_eq!(good("check", &card, &[]), "sound, 2 files\n");

    // Onto an existing name, which frees its extents.
    let said = good("mv", &card, &["new", "g"]);
    assert_eq!(
        said,
        "replaced: the old g, of 70000 bytes and with id 3, is gone\n"
    );
    assert_eq!(get(&card, "g"), b"of f");
    assert_eq!(good("check", &card, &[]), "sound, 1 files\n");
    assert!(good("info", &card, &[]).contains("; 2 (131072 bytes) for files\n"));

    // To itself nothing is written.
    let before = fs::read(&card).unwrap();
    let said = good("mv", &card, &["g", "g"]);
    assert_eq!(said, "nothing to do: g has this name\n");
    assert!(fs::read(&card).unwrap() == before);

    // The longest name, and those of an older volume.
    let long = "n".repeat(476);
    good("mv", &card, &["g", &long]);
    assert_eq!(get(&card, &long), b"of f");
    name_by_hand(&card, 0, b"two words");
    good("mv", &card, &["two words", "words"]);
    assert_eq!(get(&card, "words"), b"of f");
}

#[test]
fn mv_refuses() {
    let folder = Folder::new("mv-refuses");
    let card = formatted(&folder);
    put(&folder, &card, "f", b"of f");
    let waiting = folder.file("waiting");
    trial(&card, &["rm", "f", "--leave", waiting.to_str().unwrap()]);
    let long = "n".repeat(477);
    for (rest, what, next) in [
        (["f", ""], "the new name is empty", "1 to 476"),
        (["", "g"], "the old name is empty", "1 to 476"),
        (["f", &long], "the new name has 477 bytes", "1 to 476"),
        ([&long, "g"], "the old name has 477 bytes", "1 to 476"),
        (
            ["f", "a b"],
            "the new name 'a b' has a space",
            "another NEW",
        ),
        (["f", "a/b"], "the new name a/b has a slash", "another NEW"),
        (["f", "ö"], "the new name ö has the byte 195", "another NEW"),
        (["g", "h"], "refused (9)", "goofs ls"),
        (["g", "g"], "refused (9)", "goofs ls"),
        (["g", "f"], "the name was g", "goofs ls"),
        (
            ["f", "f.goofs-saving"],
            "names that end in .goofs-saving",
            "another NEW",
        ),
    ] {
        for (command, rest) in [("mv", &rest[..]), ("trial", &[&["mv"], &rest[..]].concat())] {
            let err = bad(command, &card, rest, 1);
            let (happened, advice) = err.split_once(" Nothing was changed.\nNext: ").unwrap();
            assert!(happened.contains(what), "{rest:?}: {err}");
            assert!(advice.contains(next), "{rest:?}: {err}");
        }
    }
    let err = bad("mv", &waiting, &["f", "g"], 1);
    assert!(err.contains("refused (5)") && err.contains("goofs recover"));
    bad("mv", &card, &["f"], 2);
    bad("mv", &card, &["f", "g", "h"], 2);
    bad("mv", &card, &["f", "g", "--as=h"], 2);
    // A name of an older volume can't be given again, also not to its own file.
    name_by_hand(&card, 0, b"two words");
    let err = bad("mv", &card, &["two words", "two words"], 1);
    assert!(err.contains("refused (8)"), "{err}");
}

#[test]
fn trials_of_mv() {
    let folder = Folder::new("trials-of-mv");
    let card = formatted(&folder);
    put(&folder, &card, "f", b"of f");
    put(&folder, &card, "g", b"of g");
    // Root and entry; with the old file's entry and a table sector.
    for (new, targets) in [("h", 2_u64), ("g", 4)] {
        let (numbers, _) = trial(&card, &["mv", "f", new]);
        let [writes, _, _, before, part, after, different] = numbers;
        assert_eq!(writes, 2 * targets + 1 + 2);
        assert!(before > 0 && after > 0 && part == 0 && different == 0);
    }
    // There is nothing to cut where nothing is to be done.
    let (numbers, _) = trial(&card, &["mv", "f", "f"]);
    assert_eq!(numbers, [0; 7]);
    // The swap that a put ends with, cut right after its start mark.
    let left = folder.file("left");
    trial(&card, &["mv", "f", "g", "--leave", left.to_str().unwrap()]);
    good("recover", &left, &[]);
    assert_eq!(get(&left, "g"), b"of f");
    assert_eq!(good("check", &left, &[]), "sound, 1 files\n");
}

/// Names that stand for what is left of a save are no names for other files.
#[test]
fn names_that_are_kept() {
    let folder = Folder::new("kept");
    let card = formatted(&folder);
    let file = folder.write("f.goofs-saving", b"x");
    let file = file.to_str().unwrap();
    let other = folder.write("other", b"y");
    let other = other.to_str().unwrap();
    for rest in [
        &[file][..],
        &[other, file],
        &[other, "--as=f.goofs-saving"],
        &[other, "--as=.goofs-saving", "--in-place"],
    ] {
        let err = bad("put", &card, rest, 1);
        assert!(
            err.contains("names that end in .goofs-saving")
                && err.contains("Next: give another name with --as NAME"),
            "{err}"
        );
    }
    good("put", &card, &[file, "--as=f"]);
    assert_eq!(get(&card, "f"), b"x");
}

/// Puts that are cut between their changes: the file is the old one or the new one, what is left is
/// told, and the next put of the name removes it.
#[test]
fn what_a_cut_put_leaves() {
    let folder = Folder::new("leaves");
    let card = folder.file("card");
    good("format", &card, &["--sectors=3000", "--time=1"]);
    let (old, new) = (vec![1; 100_000], vec![2; 150_000]);
    for has_old in [false, true] {
        if has_old {
            put(&folder, &card, "f", &old);
        }
        let fresh = fs::read(&card).unwrap();
        // Create, three writes, the rename; then the whole.
        for done in 0..=5 {
            fs::write(&card, &fresh).unwrap();
            assert_eq!(begin_put(&card, "f", &new, done), 5);
            let (is_left, is_new) = ((1..5).contains(&done), done == 5);
            match (is_new, has_old) {
                (true, _) => assert!(get(&card, "f") == new),
                (false, true) => assert!(get(&card, "f") == old),
                (false, false) => assert_eq!(on("get", &card, &["f"]).status, 1),
            }
            let files = u64::from(has_old || is_new) + u64::from(is_left);
            let bytes = (done.max(1) - 1) * 65_536;
            let told = format!(
                "left by a put that was cut: f.goofs-saving, {} bytes. Next: give the put again, \
                 which removes it, or goofs rm {} -- f.goofs-saving.\n",
                bytes.min(150_000),
                card.display()
            );
            let told = if is_left { told } else { String::new() };
            let check = good("check", &card, &[]);
            assert_eq!(check, format!("sound, {files} files\n{told}"));
            let recover = good("recover", &card, &[]);
            let nothing = "nothing to do: the volume is clean and sound\n";
            assert_eq!(recover, format!("{nothing}{told}"));
            // Lines that a program reads have one for each file, as ever.
            let ls = on("ls", &card, &[]);
            assert_eq!((ls.status, &ls.err), (0, &told));
            assert_eq!(ls.text().lines().count() as u64, files);

            // Both advices.
            let held = fs::read(&card).unwrap();
            put(&folder, &card, "f", &new);
            assert!(get(&card, "f") == new);
            assert_eq!(good("check", &card, &[]), "sound, 1 files\n");
            if is_left {
                fs::write(&card, held).unwrap();
                let words = format!("set -- {}", told.split_once(", or goofs ").unwrap().1);
                let words = words.trim_end().trim_end_matches('.');
                let script = format!("{words}; exec \"$GOOFS\" \"$@\"");
                let said = run(std::process::Command::new("sh")
                    .args(["-c", &script])
                    .env("GOOFS", env!("CARGO_BIN_EXE_goofs")));
                assert_eq!(said.status, 0, "{}", said.err);
                let files = u64::from(has_old);
                let check = good("check", &card, &[]);
                assert_eq!(check, format!("sound, {files} files\n"));
            }
        }
        fs::write(&card, &fresh).unwrap();
    }
    // What is left can be kept, too.
    begin_put(&card, "f", &new, 4);
    good("mv", &card, &["f.goofs-saving", "rest"]);
    assert!(get(&card, "rest") == new);
    // Every put of the name removes it: of an empty file, and in place.
    for (contents, option) in [(&b""[..], "--time=9"), (b"xyz", "--in-place")] {
        begin_put(&card, "f", &new, 3);
        assert!(good("check", &card, &[]).contains("f.goofs-saving"));
        let file = folder.write("source", contents);
        good("put", &card, &[file.to_str().unwrap(), "--as=f", option]);
        assert_eq!(get(&card, "f"), contents);
        assert_eq!(good("check", &card, &[]), "sound, 2 files\n");
    }
    // Given again with the same id, as after any cut.
    begin_put(&card, "g", &new, 3);
    let ls = good("ls", &card, &[]);
    let id = ls.lines().find(|line| line.ends_with("g.goofs-saving"));
    let id = id.unwrap().split_whitespace().nth(5).unwrap().to_string();
    let file = folder.write("g", &new);
    good("put", &card, &[file.to_str().unwrap(), "--id", &id]);
    assert!(get(&card, "g") == new);
    assert_eq!(good("check", &card, &[]), "sound, 3 files\n");
}

/// Long names have one name beside. What is left there goes once, whichever is put.
#[test]
fn long_names_share_what_is_left() {
    let folder = Folder::new("long-names");
    let card = formatted(&folder);
    let name = "n".repeat(470);
    let names = ["a", "b"].map(|end| format!("{name}{end}"));
    begin_put(&card, &names[0], b"cut", 2);
    let [one, other] = ["one", "other"].map(|name| folder.write(name, name.as_bytes()));
    good("put", &card, &[one.to_str().unwrap(), "--as", &names[1]]);
    assert_eq!(good("check", &card, &[]), "sound, 1 files\n");
    begin_put(&card, &names[0], b"cut", 2);
    good("put", &card, &[other.to_str().unwrap(), "--as", &names[0]]);
    assert_eq!(get(&card, &names[0]), b"other");
    assert_eq!(get(&card, &names[1]), b"one");
    assert_eq!(good("check", &card, &[]), "sound, 2 files\n");
}

/// The power cut after each write of a put over an old file and of a new one, with a recovery.
#[test]
fn a_put_cut_at_each_write() {
    let folder = Folder::new("each-write");
    let card = formatted(&folder);
    put(&folder, &card, "gain", b"gain 1.25\n");
    let fresh = Image::new(fs::read(&card).unwrap()).unwrap();
    for name in ["gain", "new"] {
        let save = Save::new(&fresh, name.as_bytes(), 9, None, 5).unwrap();
        let old = save.old.as_ref().map(|_| b"gain 1.25\n".to_vec());
        let changes = save.changes(b"gain 1.31\n");
        let (mut ends, mut left) = (Vec::new(), 0);
        for (done, change) in changes.iter().enumerate() {
            for landed in 0.. {
                let mut image = Image::new(fresh.bytes().to_vec()).unwrap();
                for before in &changes[..done] {
                    let list = image.list_of(before).unwrap();
                    image.carry_out(&list).unwrap();
                }
                let list = image.list_of(change).unwrap();
                let writes = list.groups().concat();
                if landed > writes.len() {
                    break;
                }
                for write in &writes[..landed] {
                    image.land(*write).unwrap();
                }
                let cut = folder.write("cut", image.bytes());
                let told = good("recover", &cut, &[]);
                let is_new = on("get", &cut, &[name]).out == b"gain 1.31\n";
                if !is_new {
                    let said = on("get", &cut, &[name]);
                    let found = (said.status == 0).then_some(said.out);
                    assert_eq!(found, old, "{name} {done} {landed}");
                }
                let is_left = told.contains("left by a put");
                assert!(!is_left || !is_new, "{name} {done} {landed}");
                left += u64::from(is_left);
                ends.push(is_new);
                // The next put ends well.
                if landed % 3 == 0 {
                    put(&folder, &cut, name, b"gain 1.40\n");
                    assert_eq!(get(&cut, name), b"gain 1.40\n");
                    assert!(!good("check", &cut, &[]).contains("left by"));
                }
            }
        }
        // The new file is there from the start mark of the rename on, and not before.
        assert!(ends.is_sorted() && left >= 5, "{ends:?}");
        let rename = matches!(changes.last(), Some(Change::Rename { .. }));
        assert!(rename && ends.iter().filter(|is_new| **is_new).count() > 3);
    }
}

#[test]
fn no_room_for_both() {
    let folder = Folder::new("both");
    let card = formatted(&folder); // three extents
    put(&folder, &card, "f", &[1; 70_000]);
    put(&folder, &card, "g", b"of g");
    let file = folder.write("source", &[2; 100_000]);
    let file = file.to_str().unwrap();
    let err = bad("put", &card, &[file, "--as=f"], 1);
    assert!(
        err.contains("refused (13)") && err.contains("no room for both") && err.contains("0 free"),
        "{err}"
    );
    assert!(err.contains("goofs rm") && err.contains("--in-place"));
    // In place the file keeps its mode, and the advice says that, too.
    let err = bad("put", &card, &[file, "--as=f", "--mode=600"], 1);
    assert!(
        err.contains("add --in-place and leave --id and --mode out"),
        "{err}"
    );
    // Both advices: in place, or with room for both.
    let held = fs::read(&card).unwrap();
    good("put", &card, &[file, "--as=f", "--in-place"]);
    assert_eq!(get(&card, "f"), [2; 100_000]);
    fs::write(&card, held).unwrap();
    good("rm", &card, &["g"]);
    bad("put", &card, &[file, "--as=f"], 1);
    let small = folder.write("small", &[3; 60_000]);
    let small = small.to_str().unwrap();
    good("put", &card, &[small, "--as=f"]);
    assert_eq!(get(&card, "f"), [3; 60_000]);
    // The standard input, which is read only once, is told as well.
    good("put", &card, &[file, "--as=f"]);
    let script = "head -c 100000 /dev/zero | \"$GOOFS\" put \"$1\" - --as f";
    let said = run(std::process::Command::new("sh")
        .args(["-c", script, "sh"])
        .arg(&card)
        .env("GOOFS", env!("CARGO_BIN_EXE_goofs")));
    assert!(said.status == 1 && said.err.contains("no room for both"));
    assert_eq!(get(&card, "f"), [2; 100_000]);
}

/// Each file is saved on its own, in their order, and what one frees is there for the next.
#[test]
fn several_over_old_ones() {
    let folder = Folder::new("several-over");
    let card = formatted(&folder); // three extents
    let source = |name: &str, contents: &[u8]| -> PathBuf { folder.write(name, contents) };
    let (f, g) = (source("f", &[1; 100_000]), source("g", b"of g"));
    let [f, g] = [&f, &g].map(|path| path.to_str().unwrap());
    good("put", &card, &[f]);
    // f becomes short while there is room for one more, and then g has room.
    source("f", b"short");
    source("g", &[7; 70_000]);
    good("put", &card, &[f, g]);
    assert_eq!(get(&card, "f"), b"short");
    assert_eq!(get(&card, "g"), [7; 70_000]);
    // In this order there is no room beside the old g, and f stays, too.
    source("f", b"another");
    let err = bad("put", &card, &[g, f], 1);
    assert!(
        err.contains("g: ") && err.contains("no room for both"),
        "{err}"
    );
    good("put", &card, &[g, f, "--in-place"]);
    assert_eq!(get(&card, "f"), b"another");
    assert_eq!(good("check", &card, &[]), "sound, 2 files\n");
}
