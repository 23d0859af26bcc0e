//! The listing program on volumes of both editions: its lines, every refusal, the faults 21 and 22, and inputs that end anywhere. What it
//! prints is given by hand, and on random inputs by the oracle.

use oracle::draw::Draw;
use oracle::layout::Edition;
use oracle::listing::listing;
use oracle::testing::volumes::some_files_of;
use program_tests::{run, run_bytes, start};
use std::io::{BufRead, BufReader, Write};

const SECTOR: usize = 512;

/// The versions of the two editions.
const EDITIONS: [u16; 2] = [1, 2];

/// The size that 4 extents of 128 sectors hold.
const MOST: u64 = 4 * 128 * 512;

/// Where the name's length stands, and the longest name.
fn name_length_at(version: u16) -> usize {
    if version == 1 { 34 } else { 42 }
}

fn longest_name(version: u16) -> usize {
    SECTOR - 2 - name_length_at(version)
}

/// A volume's superblock, root and directory, every entry free.
struct Directory {
    bytes: Vec<u8>,
    version: u16,
}

impl Directory {
    fn of(version: u16, files: u16) -> Directory {
        let mut bytes = Vec::new();
        bytes.extend(files.to_be_bytes());
        bytes.extend(4u16.to_be_bytes());
        bytes.extend(128u32.to_be_bytes());
        bytes.extend(b"/Goo/FS/");
        bytes.extend(version.to_be_bytes());
        bytes.resize((2 + usize::from(files)) * SECTOR, 0);
        // The root is passed over, whatever it holds.
        bytes[SECTOR..2 * SECTOR].fill(0xa5);
        Directory { bytes, version }
    }

    fn sample(version: u16) -> Directory {
        Directory::of(version, 255)
    }

    fn entry(&mut self, index: usize) -> &mut [u8] {
        &mut self.bytes[(2 + index) * SECTOR..][..SECTOR]
    }

    fn put(&mut self, index: usize, size: u64, name: &[u8]) {
        let at = name_length_at(self.version);
        let entry = self.entry(index);
        entry[0..2].copy_from_slice(&[255, 255]);
        entry[2..10].copy_from_slice(&size.to_be_bytes());
        entry[at..at + 2].copy_from_slice(&(name.len() as u16).to_be_bytes());
        entry[at + 2..at + 2 + name.len()].copy_from_slice(name);
    }

    /// Occupied entries at the directory's start, at its end and between.
    fn with_files(version: u16) -> Directory {
        let mut directory = Directory::sample(version);
        for (index, size, name) in [(0, 0, &b"a"[..]), (1, 131_073, b"ab"), (3, 5, b"two words"), (7, 600, b"cab"), (254, MOST, b"last")] {
            directory.put(index, size, name);
        }
        directory
    }

    fn printed(&self) -> String {
        run("listing", &self.bytes)
    }
}

const LINES: &str = "0 0 a\n1 131073 ab\n3 5 two words\n7 600 cab\n254 262144 last\n";

#[test]
fn a_line_for_each_occupied_entry() {
    for version in EDITIONS {
        assert_eq!(Directory::sample(version).printed(), "");
        assert_eq!(Directory::with_files(version).printed(), LINES);
    }
}

/// A whole volume that calls made, with noise where nothing stands.
#[test]
fn volumes_that_calls_made() {
    for edition in Edition::BOTH {
        let mut volume = some_files_of(edition);
        volume.disturb(&mut Draw::new(131));
        assert_eq!(run("listing", &volume.image), "0 0 a\n1 131073 ab\n2 5 abc\n4 0 c\n5 600 cab\n");
    }
}

#[test]
fn names_are_printed_as_they_are() {
    for version in EDITIONS {
        let mut directory = Directory::sample(version);
        directory.put(9, 0, b"\xff \n\t");
        let longest = vec![b'x'; longest_name(version)];
        directory.put(10, 7, &longest);
        directory.put(11, 8, b"\n");
        let mut expected = b"9 0 \xff \n\t\n10 7 ".to_vec();
        expected.extend(&longest);
        expected.extend(b"\n11 8 \n\n");
        assert_eq!(run_bytes("listing", &directory.bytes), expected);
    }
}

#[test]
fn fault_21_at_its_entry() {
    for version in EDITIONS {
        for mark in [1, 7, 255, 256, 65_280, 65_534u16] {
            for (index, line) in [(0, "0 0 a\n"), (3, "3 5 two words\n"), (7, "7 600 cab\n"), (254, "254 262144 last\n")] {
                let mut directory = Directory::with_files(version);
                directory.entry(index)[0..2].copy_from_slice(&mark.to_be_bytes());
                assert_eq!(directory.printed(), LINES.replace(line, &format!("fault 21 at {index}\n")));
            }
        }
        let mut directory = Directory::with_files(version);
        directory.entry(2)[1] = 1;
        assert_eq!(directory.printed(), LINES.replace("3 5", "fault 21 at 2\n3 5"));
    }
}

#[test]
fn fault_22_at_its_entry() {
    for version in EDITIONS {
        let at = name_length_at(version);
        let longest = longest_name(version) as u16;
        for (index, line) in [(0, "0 0 a\n"), (3, "3 5 two words\n"), (254, "254 262144 last\n")] {
            let faulty = LINES.replace(line, &format!("fault 22 at {index}\n"));
            for length in [0, longest + 1, longest + 2, 512, 65_535] {
                let mut directory = Directory::with_files(version);
                directory.entry(index)[at..at + 2].copy_from_slice(&length.to_be_bytes());
                assert_eq!(directory.printed(), faulty);
            }
            for size in [MOST + 1, 1 << 32, u64::MAX] {
                let mut directory = Directory::with_files(version);
                directory.entry(index)[2..10].copy_from_slice(&size.to_be_bytes());
                assert_eq!(directory.printed(), faulty);
            }
            let mut directory = Directory::with_files(version);
            directory.entry(index)[at + 2] = 0;
            assert_eq!(directory.printed(), faulty);
        }
        // A zero byte behind the name is none of the name's; a name that ends earlier is printed so far.
        let mut directory = Directory::with_files(version);
        directory.entry(3)[at + 1] = 3;
        assert_eq!(directory.printed(), LINES.replace("two words", "two"));
        // The longest name is good, unless a byte of it is 0.
        let mut directory = Directory::sample(version);
        directory.put(1, 0, &vec![b'x'; longest.into()]);
        directory.entry(1)[SECTOR - 1] = 0;
        assert_eq!(directory.printed(), "fault 22 at 1\n");
    }
}

/// The faults 23 and 24, two equal names and an id of 0, are not seen; nor is what the table says.
#[test]
fn other_faults_are_not_printed() {
    for version in EDITIONS {
        let mut directory = Directory::with_files(version);
        directory.put(8, 600, b"cab");
        assert_eq!(directory.printed(), LINES.replace("254", "8 600 cab\n254"));
    }
}

#[test]
fn a_superblock_refused() {
    let with = |at: usize, number: u16| {
        let mut directory = Directory::with_files(1);
        directory.bytes[at..at + 2].copy_from_slice(&number.to_be_bytes());
        directory.printed()
    };
    for byte in 8..16 {
        let mut directory = Directory::with_files(1);
        directory.bytes[byte] ^= 1;
        assert_eq!(directory.printed(), "refused 2\n");
    }
    for version in [0, 3, 256, 257, 65_535] {
        assert_eq!(with(16, version), "refused 2\n");
    }
    for files in [0, 1, 254] {
        assert_eq!(with(0, files), "refused 3\n");
    }
    for extents in [0, 1] {
        assert_eq!(with(2, extents), "refused 3\n");
    }
    assert_eq!(with(6, 127), "refused 3\n");
    // The volume's length is not tested: with these the input is far too short for the data.
    assert_eq!(with(2, 65_535), LINES);
    assert_eq!(with(4, 65_535), LINES);
}

#[test]
fn a_state_that_is_not_clean() {
    for version in EDITIONS {
        for (length, number) in [(65_535u16, 4), (1, 5), (1_024, 5), (1_025, 6), (65_534, 6)] {
            let mut directory = Directory::with_files(version);
            directory.bytes[18..20].copy_from_slice(&length.to_be_bytes());
            assert_eq!(directory.printed(), format!("refused {number}\n"));
            // The lowest number is given, and the superblock alone decides.
            assert_eq!(run("listing", &directory.bytes[..SECTOR]), format!("refused {number}\n"));
            directory.bytes[1] = 0;
            assert_eq!(directory.printed(), "refused 3\n");
            directory.bytes[8] = 0;
            assert_eq!(directory.printed(), "refused 2\n");
            assert_eq!(run("listing", &directory.bytes[..SECTOR - 1]), "refused 1\n");
        }
    }
}

/// Input that ends in the superblock prints "refused 1" alone; input that ends behind it but before the directory's end adds it to the
/// lines so far. A part of a sector is no sector.
#[test]
fn an_input_that_ends() {
    for version in EDITIONS {
        let input = Directory::with_files(version).bytes;
        for length in [0, 1, 19, 20, 511] {
            assert_eq!(run("listing", &input[..length]), "refused 1\n");
        }
        for sectors in 1..257 {
            // An entry's line is printed once its sector is whole.
            let read = LINES.lines().filter(|line| line.split(' ').next().unwrap().parse::<usize>().unwrap() + 2 < sectors);
            let lines: String = read.map(|line| format!("{line}\n")).collect();
            for more in [0, 1, 511] {
                assert_eq!(run("listing", &input[..sectors * SECTOR + more]), format!("{lines}refused 1\n"), "{sectors} sectors and {more} bytes");
            }
        }
        assert_eq!(input.len(), 257 * SECTOR);
        assert_eq!(run("listing", &input), LINES);
    }
}

#[test]
fn what_follows_the_directory_is_ignored() {
    for version in EDITIONS {
        for more in [1, 511, 512, 513, 100_000] {
            let mut input = Directory::with_files(version).bytes;
            input.resize(input.len() + more, 255);
            assert_eq!(run("listing", &input), LINES);
        }
    }
}

#[test]
fn the_largest_directory() {
    let mut directory = Directory::of(2, 65_535);
    let mut expected = String::new();
    for index in 0..65_535 {
        let name = format!("file number {index}");
        directory.put(index, index as u64, name.as_bytes());
        expected += &format!("{index} {index} {name}\n");
    }
    assert_eq!(directory.printed(), expected);
}

/// Each line is printed before the next sector is there.
#[test]
fn one_sector_at_a_time() {
    let input = Directory::with_files(1).bytes;
    let mut child = start("listing");
    let mut pipe = child.stdin.take().expect("standard input is a pipe");
    let mut output = BufReader::new(child.stdout.take().expect("standard output is a pipe"));
    let mut line = String::new();
    pipe.write_all(&input[..3 * SECTOR]).expect("the program reads");
    output.read_line(&mut line).expect("the program prints");
    pipe.write_all(&input[3 * SECTOR..4 * SECTOR]).expect("the program reads");
    output.read_line(&mut line).expect("the program prints");
    assert_eq!(line, "0 0 a\n1 131073 ab\n");
    drop(pipe);
    line.clear();
    output.read_line(&mut line).expect("the program prints");
    assert_eq!(line, "refused 1\n");
    assert!(child.wait().expect("the program ends").success());
}

/// Some byte, or a byte at a bound.
fn spoil(draw: &mut Draw, bytes: &mut [u8]) {
    for byte in bytes {
        match draw.below(4) {
            0 => *byte = 0,
            1 => *byte = 255,
            2 => *byte = draw.number() as u8,
            _ => {}
        }
    }
}

#[test]
fn random_inputs_as_the_oracle_has_them() {
    let mut draw = Draw::new(11);
    let mut seen = [0; 5];
    for _ in 0..1_500 {
        let version = *draw.pick(&EDITIONS);
        let mut directory = Directory::sample(version);
        for _ in 0..draw.below(40) {
            let index = draw.below(255) as usize;
            let length = draw.between(0, longest_name(version) as u64) as usize;
            let name = if draw.one_in(8) { draw.bytes(length) } else { vec![draw.between(1, 255) as u8; length] };
            let size = if draw.one_in(4) { draw.number() } else { draw.below(MOST + 2) };
            directory.put(index, size, &name);
            let at = name_length_at(version);
            match draw.below(6) {
                0 => spoil(&mut draw, &mut directory.entry(index)[0..2]),
                1 => spoil(&mut draw, &mut directory.entry(index)[2..10]),
                2 => spoil(&mut draw, &mut directory.entry(index)[at..at + 2]),
                _ => {}
            }
        }
        if draw.one_in(8) {
            let at = 2 * draw.below(10) as usize;
            spoil(&mut draw, &mut directory.bytes[at..at + 2]);
        }
        if draw.one_in(3) {
            let length = draw.below(directory.bytes.len() as u64 + 1) as usize;
            directory.bytes.truncate(length);
        }
        let expected = listing(&directory.bytes);
        assert_eq!(run_bytes("listing", &directory.bytes), expected);
        for (count, text) in seen.iter_mut().zip([&b"fault 21 at "[..], b"fault 22 at ", b"refused 1\n", b"refused 2\n", b"refused 3\n"]) {
            *count += usize::from(expected.windows(text.len()).any(|window| window == text));
        }
    }
    assert!(seen.iter().all(|count| *count > 10), "{seen:?}");
}
