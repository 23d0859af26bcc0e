//! Damage: every bit of every field, each field at its edges, seeded damage to several fields at
//! once, whole sectors, large directories, and images of any bytes.

use crate::counts::{count, Compared};
use crate::shared::{alike, damaged_alike, on_both, output};
use oracle::draw::Draw;
use oracle::layout::{put16, put32, put64, Edition, Geometry, SECTOR};
use oracle::testing::damage::{
    entry_field, journal_field, name_field, name_length_field, set_journal, spoil_fields,
    table_field, METADATA,
};
use oracle::testing::images::{blank_of, put_file};
use oracle::testing::requests::{find, list, read};
use oracle::testing::volumes::{some_files_of, ANY};
use oracle::{Lent, Request};

/// A number in the metadata: its byte offset in the image and its width in bytes.
type Field = (usize, usize);

/// Every field of superblock, root, the first seven entries and the last, the table's first seven
/// entries and the last of its padding, and of the first four journal entries. Of a name it is the
/// first four bytes.
fn fields(edition: Edition) -> Vec<Field> {
    let (root_times, entry_times) = match edition {
        Edition::First => ([16, 20, 24], [26, 30, 34, 36, 40]),
        Edition::Second => ([16, 24, 32], [26, 34, 42, 44, 48]),
    };
    let mut fields = Vec::new();
    let mut add = |start: usize, offsets: &[usize]| {
        let between = offsets.windows(2);
        fields.extend(between.map(|pair| (start + pair[0], pair[1] - pair[0])));
    };
    add(0, &[0, 2, 4, 8, 16, 18, 20]);
    add(SECTOR, &[0, 4, 12, 16]);
    add(SECTOR, &root_times);
    for index in (0..7).chain([254]) {
        add(entry_field(index, 0), &[0, 2, 10, 14, 22, 26]);
        add(entry_field(index, 0), &entry_times);
    }
    for extent in (0..7).chain([127]) {
        add(table_field(extent, 0), &[0, 2, 4]);
    }
    for entry in 0..4 {
        add(journal_field(entry, 0), &[0, 8, 16]);
    }
    fields
}

fn number(image: &[u8], (at, width): Field) -> u64 {
    let bytes = &image[at..at + width];
    bytes
        .iter()
        .fold(0, |number, byte| number << 8 | u64::from(*byte))
}

fn set_number(image: &mut [u8], (at, width): Field, number: u64) {
    image[at..at + width].copy_from_slice(&number.to_be_bytes()[8 - width..]);
}

/// A clean volume, and one that waits with three good journal entries.
fn clean_and_waiting(edition: Edition) -> [Vec<u8>; 2] {
    let clean = some_files_of(edition).image;
    let mut waiting = clean.clone();
    set_journal(&mut waiting, &[(1_000, 2), (1_001, 1), (1_002, 289)]);
    [clean, waiting]
}

/// Puts all calls to the image with this number in the field, and puts the old one back.
fn spoilt_alike(image: &mut [u8], field: Field, spoilt: u64) -> u64 {
    let old = number(image, field);
    set_number(image, field, spoilt);
    let answer = damaged_alike(image);
    set_number(image, field, old);
    answer.code
}

#[test]
fn of_every_bit_of_every_field() {
    on_both(|edition| {
        let mut codes = [0; 15];
        for mut image in clean_and_waiting(edition) {
            for field in fields(edition) {
                for bit in 0..8 * field.1 {
                    let spoilt = number(&image, field) ^ 1 << bit;
                    codes[spoilt_alike(&mut image, field, spoilt) as usize] += 1;
                }
            }
        }
        for code in [0, 2, 3, 5, 6, 7] {
            assert!(codes[code] > 5, "{codes:?}");
        }
    });
}

/// Each field at 0, 1, its largest value, and around its old value and each bound of some rule.
#[test]
fn of_every_field_at_its_edges() {
    on_both(|edition| {
        let bounds = [
            2, 5, 128, 255, 257, 289, 290, 468, 476, 900, 1_024, 1_058, 65_535, 65_536, 327_680,
        ];
        let mut codes = [0; 15];
        for mut image in clean_and_waiting(edition) {
            for field in fields(edition) {
                let largest = u64::MAX >> (64 - 8 * field.1);
                let old = number(&image, field);
                let mut numbers = vec![0, 1, largest - 1, largest];
                for bound in bounds.into_iter().chain([old]) {
                    numbers.extend([bound.wrapping_sub(1), bound, bound.wrapping_add(1)]);
                }
                numbers.retain(|number| *number <= largest && *number != old);
                numbers.sort_unstable();
                numbers.dedup();
                for number in numbers {
                    codes[spoilt_alike(&mut image, field, number) as usize] += 1;
                }
            }
        }
        for code in [0, 2, 3, 4, 5, 6, 7] {
            assert!(codes[code] > 1, "{codes:?}");
        }
    });
}

/// Seeded: several fields at once.
#[test]
fn of_several_fields() {
    spoil_fields(20_000, damaged_alike);
}

/// Noise all over one sector of the metadata.
#[test]
fn of_whole_sectors() {
    on_both(|edition| {
        let sound = some_files_of(edition).image;
        let mut image = sound.clone();
        let mut draw = Draw::new(22);
        for sector in 0..METADATA / SECTOR {
            let at = sector * SECTOR;
            draw.fill(&mut image[at..at + SECTOR]);
            damaged_alike(&image);
            image[at..at + SECTOR].fill(255);
            damaged_alike(&image);
            image[at..at + SECTOR].fill(0);
            damaged_alike(&image);
            image[at..at + SECTOR].copy_from_slice(&sound[at..at + SECTOR]);
        }
    });
}

/// Directories of many short names and small ids, so that the first one that stands twice may be
/// anywhere, or nowhere.
#[test]
fn of_names_and_ids_in_a_large_directory() {
    on_both(|edition| {
        let mut draw = Draw::new(24);
        let mut seen = std::collections::BTreeMap::new();
        for round in 0..1_500 {
            let files = *draw.pick(&[255, 256, 700, 1_024, 1_025]);
            let geometry = Geometry::new(files, 3, 128).expect("within the bounds");
            let mut image = blank_of(edition, geometry, geometry.end().0);
            let occupied = draw.between(1, files);
            let ids = *draw.pick(&[1_000, 100_000, u64::MAX]);
            let letters = draw.between(2, 256);
            let longest = draw.between(3, 12);
            for index in 0..files {
                if draw.below(files) >= occupied {
                    continue;
                }
                let name: Vec<u8> = (0..draw.between(1, longest))
                    .map(|_| 255 - draw.below(letters.min(255)) as u8)
                    .collect();
                put_file(&mut image, geometry, index, &name, 0, &[]);
                put64(&mut image, entry_field(index, 14), draw.between(1, ids - 1));
            }
            if round % 2 == 0 {
                // Other names for all that stand twice, so that the ids are judged too.
                for index in 0..files {
                    let name = format!("{index}");
                    let length_at = name_length_field(&image, index);
                    put16(&mut image, length_at, name.len() as u16);
                    let at = name_field(&image, index, 0);
                    image[at..at + name.len()].copy_from_slice(name.as_bytes());
                }
            }
            count(Compared::DamagedImages, 1);
            let (answer, _) = alike(&Request::Check, &image, Lent::NONE);
            alike(&find(b"7"), &image, Lent::NONE);
            let told = oracle::check(&image);
            *seen.entry((answer.code(), told.fault)).or_insert(0) += 1;
        }
        for kind in [(0, 0), (7, 23), (7, 24)] {
            let times = seen.get(&kind).copied().unwrap_or(0);
            assert!(times > 50, "{kind:?} is too rare: {seen:?}");
        }
    });
}

/// Images of any length and bytes, most with a superblock that is believed.
#[test]
fn of_everything() {
    let mut draw = Draw::new(23);
    let mut codes = [0; 15];
    for round in 0..4_000 {
        let length = match draw.below(4) {
            0 => draw.below(2_000) as usize,
            1 => draw.below(300) as usize * SECTOR,
            _ => 600 * SECTOR,
        };
        let mut image = vec![0; length];
        match draw.below(4) {
            0 => draw.fill(&mut image),
            1 => image.fill(255),
            2 => image.fill(*draw.pick(&[0, 1])),
            _ => {
                // Bytes that are mostly 0 or 255.
                for byte in &mut image {
                    *byte = *draw.pick(&[0, 0, 0, 255, 255, 255, 1, 97]);
                }
            }
        }
        if length >= SECTOR && !draw.one_in(8) {
            put16(&mut image, 0, *draw.pick(&[254, 255, 256, 300]));
            put16(&mut image, 2, *draw.pick(&[1, 2]));
            put32(&mut image, 4, *draw.pick(&[127, 128, 129]));
            image[8..16].copy_from_slice(b"/Goo/FS/");
            put16(&mut image, 16, *draw.pick(&[1, 2]));
            put16(&mut image, 18, *draw.pick(&[0, 0, 0, 1, 2, 2_000, 65_535]));
        }
        codes[damaged_alike(&image).code as usize] += 1;
        if round % 4 == 0 {
            let name = draw.bytes(3);
            alike(&find(&name), &image, Lent::NONE);
            alike(&read(&name, draw.number(), draw.below(70_000)), &image, ANY);
            let index = draw.below(300);
            alike(&list(index), &image, output(100));
        }
    }
    assert!(codes[1..8].iter().all(|times| *times > 20), "{codes:?}");
}
