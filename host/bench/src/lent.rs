//! The calls on lent sectors, with their steps, beside plain Rust that is lent the same sectors and supplied with
//! the same ones, in the same steps, or by a function that it asks; and the cost of one step.

use std::hint::black_box;
use std::slice::from_ref;

use goofs::{Reading, Recovering, Writing};
use oracle::layout::{get64, sector, Edition, Sector, SECTOR};
use oracle::lent;
use oracle::lists::{CONTENTS, RECORD};

use crate::comparing::{Compared, Comparisons};
use crate::images;
use crate::plain_steps as plain;
use crate::text::{nanoseconds, ratios};
use crate::timing::median_alone;
use crate::write_list::up_to_start_mark;

const LONGEST_SPAN: usize = 65_536;
const ACCESS_LIST: usize = 9 * RECORD;
/// The longest list here, of the recovery with 514 targets.
const LONGEST_LIST: usize = 1_051 * RECORD;

pub fn print(comparisons: &mut Comparisons) {
    println!();
    println!("### Calls on lent sectors");
    println!();
    println!("| Call | Input | asked for | Rattle ns | plain Rust ns | ratio | of the rounds | by a function ns |");
    println!("|---|---|---:|---:|---:|---:|---:|---:|");
    // The system's heap keeps blocks up to the size of one that was given back; else the plain side would
    // pay for new pages in each call.
    drop(black_box(vec![1u8; 4 << 20]));
    let mut table = Table {
        comparisons,
        buffer: vec![0; LONGEST_SPAN + LONGEST_LIST],
        slower: Vec::new(),
    };
    let sample = || images::sample(Edition::First);
    table.rows("sample", sample(), b"calibration");
    let largest = images::nearly_empty();
    table.rows("largest, nearly empty", largest, &images::short_name(0));
    table.one_file();
    table.steps(sample());
    table.print_slower();
}

/// A volume that is lent by its front; the image supplies the data sectors.
#[derive(Clone, Copy)]
struct Card<'i> {
    input: &'i str,
    image: &'i [u8],
    front: &'i [u8],
    sectors: u64,
}

impl<'i> Card<'i> {
    fn new(input: &'i str, image: &'i [u8]) -> Card<'i> {
        let summary = oracle::summary(image);
        let geometry = images::geometry(summary.files, summary.extents);
        Card {
            input,
            image,
            front: &image[..geometry.data_at().0 as usize * SECTOR],
            sectors: (image.len() / SECTOR) as u64,
        }
    }

    fn sector(&self, number: u64) -> &'i [u8; SECTOR] {
        sector(self.image, Sector(number))
    }
}

struct Table<'c> {
    comparisons: &'c mut Comparisons,
    /// An output, and behind it a list.
    buffer: Vec<u8>,
    slower: Vec<String>,
}

impl Table<'_> {
    fn rows(&mut self, input: &str, mut image: Vec<u8>, name: &[u8]) {
        images::assert_sound(&image);
        let card = Card::new(input, &image);
        self.check(card);
        self.create(card);
        self.read("read_lent, 512 bytes", card, name, 0, 512);
        let all = LONGEST_SPAN as u64;
        self.read("read_lent, 65,536 bytes", card, name, 0, all);
        let call = "read_lent, 65,536 bytes over an extent edge";
        self.read(call, card, name, 30_001, all);
        self.write("write_lent, 1 byte over an old one", card, name, 0, 1);
        self.write(
            "write_lent, 65,000 bytes over old ones",
            card,
            name,
            1_300,
            65_000,
        );
        let size = oracle::find(&image, name).size;
        self.resize("resize_lent, 100 bytes more", card, name, size + 100);
        cut_create(&mut image);
        self.recover("recover_lent, of the create", Card::new(input, &image));
    }

    /// A journal of 514 entries.
    fn one_file(&mut self) {
        let mut image = images::one_file();
        let mut list = vec![0; LONGEST_LIST];
        let length = oracle::delete(&image, b"all", 2, &mut list).length as usize;
        assert_eq!(
            oracle::carry_out(&mut image, up_to_start_mark(&list[..length])),
            0
        );
        let card = Card::new("largest, one file", &image);
        self.recover("recover_lent, of the delete", card);
        self.recover_step("recover_step, of 514 entries", card, 257);
        let mut falling = image.clone();
        reverse_journal(&mut falling);
        let card = Card::new("largest, one file", &falling);
        self.recover("recover_lent, targets that fall", card);
    }

    fn check(&mut self, card: Card) {
        let compared = self.comparisons.filling(
            "check_lent",
            &mut [],
            |_| goofs::check_lent(black_box(card.front), card.sectors).code,
            |_| lent::check(black_box(card.front), card.sectors).code,
        );
        assert_eq!(compared.answer, 0);
        self.row("check_lent", card, 0, &compared, None);
    }

    fn create(&mut self, card: Card) {
        let front = card.front;
        let compared = self.comparisons.filling(
            "create_lent",
            &mut self.buffer,
            |list| {
                goofs::create_lent(black_box(front), card.sectors, b"new", 77, 1, 2, list).length
            },
            |list| lent::create(black_box(front), card.sectors, b"new", 77, 1, 2, list).length,
        );
        assert!(compared.answer > 0);
        self.row("create_lent", card, 0, &compared, None);
    }

    fn read(&mut self, call: &str, card: Card, name: &[u8], offset: u64, count: u64) {
        let Card {
            front,
            sectors,
            image,
            ..
        } = card;
        let asked = (offset + count).div_ceil(512) - offset / 512;
        let room = LONGEST_SPAN as u64;
        let buffer = &mut self.buffer[..LONGEST_SPAN + ACCESS_LIST];
        let compared = self.comparisons.filling(
            call,
            buffer,
            |buffer| {
                let (output, list) = buffer.split_at_mut(LONGEST_SPAN);
                let front = black_box(front);
                let first = goofs::read_lent(front, sectors, name, offset, count, 2, room, list);
                read_all(goofs::read_step, image, first, output).count
            },
            |buffer| {
                let (output, list) = buffer.split_at_mut(LONGEST_SPAN);
                let front = black_box(front);
                let first = plain::read_lent(front, sectors, name, offset, count, 2, room, list);
                read_all(plain::read_step, image, first, output).count
            },
        );
        assert_eq!(compared.answer, count);
        let by_function = median_alone(buffer, |buffer| {
            let (output, list) = buffer.split_at_mut(LONGEST_SPAN);
            let front = black_box(front);
            let supply = |s: Sector| card.sector(s.0);
            lent::read(front, sectors, name, offset, count, 2, output, list, supply).count
        });
        self.row(call, card, asked, &compared, Some(by_function));
    }

    fn write(&mut self, call: &str, card: Card, name: &[u8], offset: u64, count: usize) {
        let Card {
            front,
            sectors,
            image,
            ..
        } = card;
        let data = &vec![5; count][..];
        let first = goofs::write_lent(front, sectors, name, offset, data, 2, &mut self.buffer);
        let compared = self.comparisons.filling(
            call,
            &mut self.buffer,
            |list| {
                let front = black_box(front);
                let first = goofs::write_lent(front, sectors, name, offset, data, 2, list);
                write_all(goofs::write_step, image, first, list).length
            },
            |list| {
                let front = black_box(front);
                let first = plain::write_lent(front, sectors, name, offset, data, 2, list);
                write_all(plain::write_step, image, first, list).length
            },
        );
        assert!(compared.answer > 0);
        let by_function = median_alone(&mut self.buffer, |list| {
            let front = black_box(front);
            let supply = |s: Sector| card.sector(s.0);
            lent::write(front, sectors, name, offset, data, 2, list, supply).length
        });
        self.row(call, card, asked_of(first), &compared, Some(by_function));
    }

    fn resize(&mut self, call: &str, card: Card, name: &[u8], size: u64) {
        let Card {
            front,
            sectors,
            image,
            ..
        } = card;
        let old = (name, oracle::find(image, name).size);
        let first = goofs::resize_lent(front, sectors, name, size, 2, &mut self.buffer);
        let compared = self.comparisons.filling(
            call,
            &mut self.buffer,
            |list| {
                let front = black_box(front);
                let first = goofs::resize_lent(front, sectors, name, size, 2, list);
                write_all(goofs::write_step, image, first, list).length
            },
            |list| {
                let first = plain::resize_lent(black_box(front), sectors, old, size, 2, list);
                write_all(plain::write_step, image, first, list).length
            },
        );
        assert!(compared.answer > 0);
        let by_function = median_alone(&mut self.buffer, |list| {
            let supply = |s: Sector| card.sector(s.0);
            lent::resize(black_box(front), sectors, name, size, 2, list, supply).length
        });
        self.row(call, card, asked_of(first), &compared, Some(by_function));
    }

    fn recover(&mut self, call: &str, card: Card) {
        let Card {
            front,
            sectors,
            image,
            ..
        } = card;
        let asked = oracle::summary(image).entries;
        let compared = self.comparisons.filling(
            call,
            &mut self.buffer,
            |list| {
                let first = goofs::recover_lent(black_box(front), sectors, list);
                recover_all(goofs::recover_step, front, image, first, list).length
            },
            |list| {
                let first = plain::recover_lent(black_box(front), sectors, list);
                recover_all(plain::recover_step, front, image, first, list).length
            },
        );
        assert!(compared.answer > 0);
        let by_function = median_alone(&mut self.buffer, |list| {
            let supply = |s: Sector| card.sector(s.0);
            lent::recover(black_box(front), sectors, list, supply).length
        });
        self.row(call, card, asked, &compared, Some(by_function));
    }

    /// One step alone, on a state that a first call gave.
    fn steps(&mut self, mut image: Vec<u8>) {
        let card = Card::new("sample", &image);
        let (front, sectors, name) = (card.front, card.sectors, b"calibration");
        let data = [5; 1_000];
        let room = LONGEST_SPAN as u64;
        let r = goofs::read_lent(front, sectors, name, 100, 9_000, 2, room, &mut self.buffer);
        let contents = card.sector(r.wanted);
        let compared = self.comparisons.filling(
            "read_step",
            &mut self.buffer[..LONGEST_SPAN],
            |output| goofs::read_step(black_box(r), contents, output).wanted,
            |output| plain::read_step(black_box(r), contents, output).wanted,
        );
        self.row("read_step", card, 1, &compared, None);

        let w = goofs::write_lent(front, sectors, name, 100, &data, 2, &mut self.buffer);
        let contents = card.sector(w.wanted.sector);
        let compared = self.comparisons.filling(
            "write_step",
            &mut self.buffer,
            |list| {
                goofs::write_step(black_box(w), contents, list)
                    .wanted
                    .sector
            },
            |list| {
                plain::write_step(black_box(w), contents, list)
                    .wanted
                    .sector
            },
        );
        self.row("write_step", card, 1, &compared, None);

        cut_create(&mut image);
        let card = Card::new("sample", &image);
        self.recover_step("recover_step, of 2 entries", card, 0);
    }

    /// At this entry, in the list of a recovery that was begun. The targets rise, so that the source goes into the record of this number.
    fn recover_step(&mut self, call: &str, card: Card, entry: u64) {
        let first = goofs::recover_lent(card.front, card.sectors, &mut self.buffer);
        let v = recovering_at(card, entry, first);
        let contents = card.sector(v.wanted);
        let front = card.front;
        let at = entry as usize * RECORD + CONTENTS;
        let compared = self.comparisons.changing(
            call,
            &mut self.buffer,
            from_ref(&(at..at + SECTOR)),
            |list| goofs::recover_step(black_box(v), front, contents, list).wanted,
            |list| plain::recover_step(black_box(v), front, contents, list).wanted,
        );
        self.row(call, card, 1, &compared, None);
    }

    fn row(
        &mut self,
        call: &str,
        card: Card,
        asked: u64,
        compared: &Compared,
        by_function: Option<f64>,
    ) {
        let times = &compared.times;
        println!(
            "| {call} | {} | {asked} | {} | {} | {} | {} |",
            card.input,
            nanoseconds(times.rattle),
            nanoseconds(times.rust),
            ratios(times),
            by_function.map(nanoseconds).unwrap_or_default()
        );
        if times.spread.0 > 1.0 {
            self.slower
                .push(format!("{call} ({}, {:.2})", card.input, times.ratio));
        }
        if card.input == "sample" {
            self.comparisons.note_on_sample(call, compared.stack);
        }
    }

    fn print_slower(&self) {
        println!();
        if self.slower.is_empty() {
            println!("No form is slower than plain Rust in every round.");
        } else {
            let rows = self.slower.join("; ");
            println!("Slower than plain Rust in every round: {rows}.");
        }
    }
}

/// A create whose start mark has landed.
fn cut_create(image: &mut [u8]) {
    let mut list = vec![0; LONGEST_LIST];
    let length = oracle::create(image, b"new", 77, 1, 2, &mut list).length as usize;
    assert_eq!(
        oracle::carry_out(image, up_to_start_mark(&list[..length])),
        0
    );
}

/// How many sectors a write asks for.
fn asked_of(first: Writing) -> u64 {
    u64::from(first.wanted.sector != 0) + u64::from(first.last.sector != 0)
}

/// The waiting entries of the journal in falling order of their targets, as no call of ours leaves them.
fn reverse_journal(image: &mut [u8]) {
    let summary = oracle::summary(image);
    let journal = images::geometry(summary.files, summary.extents).journal_at();
    let at = journal.0 as usize * SECTOR;
    let entries = &mut image[at..][..16 * summary.entries as usize];
    let rising: Vec<[u8; 16]> = entries
        .chunks_exact(16)
        .map(|entry| entry.try_into().expect("16 bytes"))
        .collect();
    for (to, from) in entries.chunks_exact_mut(16).zip(rising.iter().rev()) {
        to.copy_from_slice(from);
    }
}

/// The state at an entry of the journal.
fn recovering_at(card: Card, entry: u64, first: Recovering) -> Recovering {
    let summary = oracle::summary(card.image);
    let geometry = images::geometry(summary.files, summary.extents);
    let at = geometry.journal_at().0 as usize * SECTOR + entry as usize * 16;
    Recovering {
        wanted: get64(card.front, at),
        entry,
        ..first
    }
}

/// The forms to their end, by the steps of a side; the image supplies the sectors.
pub fn read_all(
    step: impl Fn(Reading, &[u8], &mut [u8]) -> Reading,
    image: &[u8],
    mut r: Reading,
    output: &mut [u8],
) -> Reading {
    while r.code == 0 && r.wanted != 0 {
        r = step(r, sector(image, Sector(r.wanted)), output);
    }
    r
}

pub fn write_all(
    step: impl Fn(Writing, &[u8], &mut [u8]) -> Writing,
    image: &[u8],
    mut w: Writing,
    list: &mut [u8],
) -> Writing {
    while w.code == 0 && w.wanted.sector != 0 {
        w = step(w, sector(image, Sector(w.wanted.sector)), list);
    }
    w
}

pub fn recover_all(
    step: impl Fn(Recovering, &[u8], &[u8], &mut [u8]) -> Recovering,
    front: &[u8],
    image: &[u8],
    mut v: Recovering,
    list: &mut [u8],
) -> Recovering {
    while v.code == 0 && v.wanted != 0 {
        v = step(v, front, sector(image, Sector(v.wanted)), list);
    }
    v
}
