//! The table of calls: each call's time on both sides, and what it writes.

use std::hint::black_box;

use oracle::layout::{Edition, SECTOR};
use oracle::lists::RECORD;
use oracle::FormatRequest;

use crate::comparing::{Compared, Comparisons};
use crate::images::{self, assert_sound};
use crate::text::{digits, nanoseconds, ratios};
use crate::timing::median_alone;
use crate::write_list::{counts, up_to_start_mark, written_places, Counts};

/// The most bytes of a read, write or growth.
const LONGEST_SPAN: usize = 65_536;
/// The longest list: the format of the largest volume.
const LONGEST_LIST: usize = 66_053 * RECORD;
/// The list of read and list, which sets an access time.
const ACCESS_LIST: usize = 9 * RECORD;

const SAMPLE: &str = "sample";

pub fn print(comparisons: &mut Comparisons) {
    println!("### Calls");
    println!();
    println!(
        "| Call | Input | Rattle ns | plain Rust ns | ratio | of the rounds | sectors | barriers | bytes |\n\
         |---|---|---:|---:|---:|---:|---:|---:|---:|"
    );
    let mut table = CallTable {
        comparisons,
        list: vec![0; LONGEST_LIST],
        output: vec![0; LONGEST_SPAN + ACCESS_LIST],
        slower: Vec::new(),
    };
    sample(&mut table);
    second_edition(&mut table);
    nearly_empty(&mut table);
    full(&mut table);
    almost_full(&mut table);
    one_file(&mut table);
    other_writers(&mut table);
    table.print_slower();
}

fn sample(table: &mut CallTable) {
    let input = SAMPLE;
    let mut image = images::sample(Edition::First);
    let name = b"calibration";
    table.format(input, images::SAMPLE_SECTORS, 255);
    table.summary(input, &image);
    table.check(input, &image);
    table.find("find", input, &image, name);
    table.list("list", input, &image, 0);
    table.read("read, 512 bytes", input, &image, name, 0, 512);
    table.long_reads(input, &image, name);
    table.memory_copy(&image[290 * 512..][..LONGEST_SPAN]);

    table.create("create", input, &image);
    table.write("write, 1 byte over an old one", input, &image, name, 0, 1);
    table.write_new_extent(input, &image, b"empty");
    table.resize("resize, 1 byte less", input, &image, name, 131_071);
    table.resize("resize, to nothing", input, &image, name, 0);
    table.delete("delete, 2 extents", input, &image, name);
    table.rename("rename, to a new name", input, &image, name, b"new");
    table.rename("rename, onto 2 extents", input, &image, b"empty", name);
    table.rename_eight_times(input, &image, name);
    table.rename_onto_eight("sample, sixteen files", &images::sample_filled(16), 16);
    table.rename_onto_eight("sample, full", &images::sample_filled(255), 255);
    let mut leaked = image.clone();
    mark_entry(&mut leaked, 0, 0);
    table.repair("repair, 2 extents", input, &leaked);

    let mut list = vec![0; LONGEST_LIST];
    let data = [5; LONGEST_SPAN];
    let length = oracle::write(&image, b"empty", 0, &data, 2, &mut list).length as usize;
    table.carry_out(
        "carrying out, the write into a new extent",
        input,
        &mut image,
        &list[..length],
    );
    let mut image = images::sample(Edition::First);
    let length = oracle::create(&image, b"new", 77, 1, 2, &mut list).length as usize;
    cut(&mut image, &list[..length]);
    table.recover("recovery, of the create", input, &image);
    table.carry_out(
        "carrying out, the create",
        input,
        &mut image,
        &list[..length],
    );
}

/// Beside the same rows of the sample: what fields that stand by the edition cost.
fn second_edition(table: &mut CallTable) {
    let input = "sample, edition 2";
    let image = images::sample(Edition::Second);
    let name = b"calibration";
    table.check(input, &image);
    table.find("find", input, &image, name);
    table.create("create", input, &image);
    table.write("write, 1 byte over an old one", input, &image, name, 0, 1);
    table.rename("rename, to a new name", input, &image, name, b"new");
}

fn nearly_empty(table: &mut CallTable) {
    let input = "largest, nearly empty";
    let image = images::nearly_empty();
    let name = images::short_name(0);
    let geometry = images::largest();
    // What a format needs besides the data: the longest table, whatever the geometry.
    let sectors = geometry.extents() * geometry.extent_sectors() + 546 + geometry.files();
    table.format("largest", sectors, geometry.files());
    table.check(input, &image);
    table.long_reads(input, &image, &name);
    table.create("create", input, &image);
    table.write("write, 1 byte over an old one", input, &image, &name, 0, 1);
    table.rename("rename, to a new name", input, &image, &name, b"new");
}

fn full(table: &mut CallTable) {
    let image = images::full(images::long_name);
    table.check("largest, full, names of 476 bytes", &image);
    drop(image);

    let input = "largest, full";
    let image = images::full(images::short_name);
    let last = images::largest().files() - 1;
    let name = images::short_name(last);
    table.check(input, &image);
    table.find("find, last entry", input, &image, &name);
    table.list("list, last entry", input, &image, last);
    table.long_reads(input, &image, &name);
}

fn almost_full(table: &mut CallTable) {
    let input = "largest, one entry and extent free";
    let image = images::almost_full();
    let name = images::short_name(images::largest().files() - 2);
    table.create("create, last entry", input, &image);
    table.write("write, 1 byte over an old one", input, &image, &name, 0, 1);
    table.write_new_extent(input, &image, &name);
    table.resize("resize, to nothing", input, &image, &name, 0);
    table.delete("delete, last entry", input, &image, &name);
    table.rename("rename, to a new name", input, &image, &name, b"new");
    let before = images::short_name(images::largest().files() - 3);
    table.rename("rename, onto the last entry", input, &image, &before, &name);
    table.rename_eight_times(input, &image, &name);
    table.rename_onto_eight(input, &image, images::largest().files() - 1);
}

fn one_file(table: &mut CallTable) {
    let input = "largest, one file";
    let mut image = images::one_file();
    table.resize("resize, to nothing", input, &image, b"all", 0);
    table.delete("delete, all extents", input, &image, b"all");
    table.repair("repair, nothing to free", input, &image);
    mark_entry(&mut image, 1_023, 0);
    table.repair("repair, all extents", input, &image);
    mark_entry(&mut image, 1_023, 255);
    let mut list = vec![0; LONGEST_LIST];
    let length = oracle::delete(&image, b"all", 2, &mut list).length as usize;
    cut(&mut image, &list[..length]);
    table.recover("recovery, of the delete", input, &image);
    table.slice("slice of 32, of the delete", input, &image, 32);
    table.carry_out(
        "carrying out, the delete",
        input,
        &mut image,
        &list[..length],
    );
    drop(image);

    let input = "largest, one file and a new one";
    let mut image = images::one_file_and_a_new_one();
    table.rename("rename, onto all extents", input, &image, b"new", b"all");
    let length = oracle::rename(&image, b"new", b"all", 2, &mut list).length as usize;
    cut(&mut image, &list[..length]);
    table.recover("recovery, of the rename", input, &image);
    table.carry_out(
        "carrying out, the rename",
        input,
        &mut image,
        &list[..length],
    );
}

/// Volumes whose free extents aren't the last ones: where copies go is searched for from the end of the
/// table, and an extent to be taken from its start.
fn other_writers(table: &mut CallTable) {
    for (input, image) in [
        ("largest, the lowest extents free", images::free_below()),
        ("largest, scattered extents free", images::free_scattered()),
    ] {
        assert_sound(&image);
        table.list("list", input, &image, 0);
        table.read("read, 512 bytes", input, &image, b"all", 0, 512);
        table.create("create", input, &image);
        table.write("write, 1 byte over an old one", input, &image, b"all", 0, 1);
        table.write_new_extent(input, &image, b"empty");
        table.rename("rename, to a new name", input, &image, b"all", b"other");
        table.rename("rename, onto all extents", input, &image, b"empty", b"all");
        table.delete("delete, all extents", input, &image, b"all");
    }
}

/// A directory entry's mark: 0 frees it, and its file's extents leak; 255 gives it back.
fn mark_entry(image: &mut [u8], index: usize, byte: u8) {
    image[(2 + index) * SECTOR..][..2].fill(byte);
}

/// Power fails when the start mark has landed.
fn cut(image: &mut [u8], list: &[u8]) {
    assert_eq!(oracle::carry_out(image, up_to_start_mark(list)), 0);
}

/// Prints one row for each call that it is asked for. Lent buffers are not cleared between runs.
struct CallTable<'c> {
    comparisons: &'c mut Comparisons,
    list: Vec<u8>,
    /// The output of read and list, and behind it their list.
    output: Vec<u8>,
    slower: Vec<String>,
}

impl CallTable<'_> {
    fn summary(&mut self, input: &str, image: &[u8]) {
        let compared = self.comparisons.filling(
            "summary",
            &mut [],
            |_| goofs::summary(black_box(image)).files,
            |_| oracle::summary(black_box(image)).files,
        );
        self.row("summary", input, &compared, "", "", "");
    }

    fn check(&mut self, input: &str, image: &[u8]) {
        assert_sound(image);
        let compared = self.comparisons.filling(
            "check",
            &mut [],
            |_| goofs::check(black_box(image)).code,
            |_| oracle::check(black_box(image)).code,
        );
        self.row("check", input, &compared, "", "", "");
    }

    fn find(&mut self, call: &str, input: &str, image: &[u8], name: &[u8]) {
        let compared = self.comparisons.filling(
            call,
            &mut [],
            |_| goofs::find(black_box(image), black_box(name)).size,
            |_| oracle::find(black_box(image), black_box(name)).size,
        );
        assert!(compared.answer > 0, "{call}");
        self.row(call, input, &compared, "", "", "");
    }

    fn list(&mut self, call: &str, input: &str, image: &[u8], index: u64) {
        let compared = self.comparisons.filling(
            call,
            &mut self.output,
            |buffers| {
                let (output, list) = buffers.split_at_mut(LONGEST_SPAN);
                goofs::list(black_box(image), index, 2, output, list).name_length
            },
            |buffers| {
                let (output, list) = buffers.split_at_mut(LONGEST_SPAN);
                oracle::list(black_box(image), index, 2, output, list).name_length
            },
        );
        self.row_of_output(call, input, &compared);
    }

    fn read(
        &mut self,
        call: &str,
        input: &str,
        image: &[u8],
        name: &[u8],
        offset: u64,
        count: u64,
    ) {
        let compared = self.comparisons.filling(
            call,
            &mut self.output,
            |buffers| {
                let (output, list) = buffers.split_at_mut(LONGEST_SPAN);
                goofs::read(black_box(image), name, offset, count, 2, output, list).count
            },
            |buffers| {
                let (output, list) = buffers.split_at_mut(LONGEST_SPAN);
                oracle::read(black_box(image), name, offset, count, 2, output, list).count
            },
        );
        self.row_of_output(call, input, &compared);
    }

    fn long_reads(&mut self, input: &str, image: &[u8], name: &[u8]) {
        for (call, offset) in [
            ("read, 65,536 bytes", 0),
            ("read, 65,536 bytes over an extent edge", 30_001),
        ] {
            self.read(call, input, image, name, offset, LONGEST_SPAN as u64);
        }
    }

    /// What a read does besides finding its bytes.
    fn memory_copy(&mut self, bytes: &[u8]) {
        let time = median_alone(&mut self.output[..LONGEST_SPAN], |output| {
            output.copy_from_slice(black_box(bytes));
            0
        });
        println!(
            "| memory copy, 65,536 bytes | | | {} | | | | | {} |",
            nanoseconds(time),
            digits(bytes.len() as u64)
        );
    }

    fn create(&mut self, call: &str, input: &str, image: &[u8]) {
        let compared = self.comparisons.filling(
            call,
            &mut self.list,
            |list| goofs::create(black_box(image), b"new", 77, 1, 2, list).length,
            |list| oracle::create(black_box(image), b"new", 77, 1, 2, list).length,
        );
        self.row_of_list(call, input, &compared);
    }

    fn delete(&mut self, call: &str, input: &str, image: &[u8], name: &[u8]) {
        let compared = self.comparisons.filling(
            call,
            &mut self.list,
            |list| goofs::delete(black_box(image), name, 2, list).length,
            |list| oracle::delete(black_box(image), name, 2, list).length,
        );
        self.row_of_list(call, input, &compared);
    }

    fn rename(&mut self, call: &str, input: &str, image: &[u8], old: &[u8], new: &[u8]) {
        let compared = self.comparisons.filling(
            call,
            &mut self.list,
            |list| goofs::rename(black_box(image), old, new, 2, list).length,
            |list| oracle::rename(black_box(image), old, new, 2, list).length,
        );
        self.row_of_list(call, input, &compared);
    }

    /// A file to a name of its own, then to a second, and so on.
    fn rename_eight_times(&mut self, input: &str, image: &[u8], name: &[u8]) {
        let mut names = vec![name.to_vec()];
        names.extend((1..=8u8).map(|k| vec![b's', b'0' + k]));
        let pairs = Vec::from_iter(names.windows(2).flatten().cloned());
        self.rename_set("rename_set, of eight", input, image, &pairs);
    }

    /// Eight files, spread over the directory, each onto the next of sixteen, the last onto the last.
    fn rename_onto_eight(&mut self, input: &str, image: &[u8], files: u64) {
        let step = files / 16;
        let names = (0..16)
            .rev()
            .map(|k| images::short_name(files - 1 - k * step));
        let pairs = Vec::from_iter(names);
        self.rename_set("rename_set, eight files onto eight", input, image, &pairs);
    }

    fn rename_set(&mut self, call: &str, input: &str, image: &[u8], pairs: &[Vec<u8>]) {
        let lengths = Vec::from_iter(pairs.iter().map(|name| name.len() as u64));
        let names = pairs.concat();
        let compared = self.comparisons.filling(
            call,
            &mut self.list,
            |list| goofs::rename_set(black_box(image), &names, &lengths, 2, list).length,
            |list| oracle::rename_set(black_box(image), &names, &lengths, 2, list).length,
        );
        self.row_of_list(call, input, &compared);
    }

    fn repair(&mut self, call: &str, input: &str, image: &[u8]) {
        let compared = self.comparisons.filling(
            call,
            &mut self.list,
            |list| goofs::repair(black_box(image), list).length,
            |list| oracle::repair(black_box(image), list).length,
        );
        let counts = counts(&self.list[..compared.answer as usize]);
        self.row_of_counts(call, input, &compared, counts);
    }

    fn resize(&mut self, call: &str, input: &str, image: &[u8], name: &[u8], size: u64) {
        let compared = self.comparisons.filling(
            call,
            &mut self.list,
            |list| goofs::resize(black_box(image), name, size, 2, list).length,
            |list| oracle::resize(black_box(image), name, size, 2, list).length,
        );
        self.row_of_list(call, input, &compared);
    }

    fn write(
        &mut self,
        call: &str,
        input: &str,
        image: &[u8],
        name: &[u8],
        offset: u64,
        count: usize,
    ) {
        let data = vec![5; count];
        let compared = self.comparisons.filling(
            call,
            &mut self.list,
            |list| goofs::write(black_box(image), name, offset, &data, 2, list).length,
            |list| oracle::write(black_box(image), name, offset, &data, 2, list).length,
        );
        self.row_of_list(call, input, &compared);
    }

    /// A file that ends at an extent's edge grows by the most that one call allows.
    fn write_new_extent(&mut self, input: &str, image: &[u8], name: &[u8]) {
        let size = oracle::find(image, name).size;
        self.write(
            "write, 65,536 bytes into a new extent",
            input,
            image,
            name,
            size,
            LONGEST_SPAN,
        );
        self.resize(
            "resize, 65,536 bytes more",
            input,
            image,
            name,
            size + LONGEST_SPAN as u64,
        );
    }

    fn recover(&mut self, call: &str, input: &str, image: &[u8]) {
        let compared = self.comparisons.filling(
            call,
            &mut self.list,
            |list| goofs::recover(black_box(image), list).length,
            |list| oracle::recover(black_box(image), list).length,
        );
        self.row_of_list(call, input, &compared);
    }

    fn slice(&mut self, call: &str, input: &str, image: &[u8], budget: u64) {
        let compared = self.comparisons.filling(
            call,
            &mut self.list,
            |list| goofs::recover_slice(black_box(image), budget, list).length,
            |list| oracle::recover_slice(black_box(image), budget, list).length,
        );
        self.row_of_list(call, input, &compared);
    }

    /// All records of a format, asked for one at a time until there are no more.
    fn format(&mut self, input: &str, sectors: u64, files: u64) {
        let request = FormatRequest {
            edition: 1,
            sectors,
            files,
            id: 9,
            mode: 1,
            time: 2,
        };
        let compared = self.comparisons.filling(
            "format",
            &mut self.list,
            |list| {
                all_records(list, |position, list| {
                    let sectors = black_box(sectors);
                    goofs::format_record(sectors, files, 1, 9, 1, 2, position, list).length
                })
            },
            |list| {
                all_records(list, |position, list| {
                    oracle::format_record(black_box(&request), position, list).length
                })
            },
        );
        self.row_of_list("format", input, &compared);
    }

    fn carry_out(&mut self, call: &str, input: &str, image: &mut [u8], list: &[u8]) {
        let compared = self.comparisons.changing(
            call,
            image,
            &written_places(list),
            |image| goofs::carry_out(image, black_box(list)),
            |image| oracle::carry_out(image, black_box(list)),
        );
        assert_eq!(compared.answer, 0, "{call}");
        self.row_of_counts(call, input, &compared, counts(list));
    }

    /// A row of a call that gave the number of bytes that it put out, besides a list.
    fn row_of_output(&mut self, call: &str, input: &str, compared: &Compared) {
        assert!(compared.answer > 0, "{call}");
        let of_list = counts(&self.output[LONGEST_SPAN..]);
        let counts = Counts {
            bytes: of_list.bytes + compared.answer,
            ..of_list
        };
        self.row_of_counts(call, input, compared, counts);
    }

    /// A row of a call that gave the length of its list.
    fn row_of_list(&mut self, call: &str, input: &str, compared: &Compared) {
        assert!(compared.answer > 0, "{call}");
        let counts = counts(&self.list[..compared.answer as usize]);
        self.row_of_counts(call, input, compared, counts);
    }

    fn row_of_counts(&mut self, call: &str, input: &str, compared: &Compared, counts: Counts) {
        let [sectors, barriers, bytes] =
            [counts.sectors, counts.barriers, counts.bytes].map(digits);
        self.row(call, input, compared, &sectors, &barriers, &bytes);
    }

    fn row(
        &mut self,
        call: &str,
        input: &str,
        compared: &Compared,
        sectors: &str,
        barriers: &str,
        bytes: &str,
    ) {
        let times = &compared.times;
        println!(
            "| {call} | {input} | {} | {} | {} | {sectors} | {barriers} | {bytes} |",
            nanoseconds(times.rattle),
            nanoseconds(times.rust),
            ratios(times)
        );
        if times.spread.0 > 1.0 {
            let row = format!("{call} ({input}, {:.2})", times.ratio);
            self.slower.push(row);
        }
        if input == SAMPLE {
            self.comparisons.note_on_sample(call, compared.stack);
        }
    }

    fn print_slower(&self) {
        println!();
        if self.slower.is_empty() {
            println!("No call is slower than plain Rust in every round.");
        } else {
            let rows = self.slower.join("; ");
            println!("Slower than plain Rust in every round: {rows}.");
        }
    }
}

/// Puts the records one behind the other into the list and gives its length.
fn all_records(list: &mut [u8], record: impl Fn(u64, &mut [u8]) -> u64) -> u64 {
    let mut length = 0;
    for position in 0.. {
        let of_record = record(position, &mut list[length..]);
        if of_record == 0 {
            break;
        }
        length += of_record as usize;
    }
    length as u64
}
