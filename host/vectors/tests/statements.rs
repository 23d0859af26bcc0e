//! Every statement of the folder against two programs, each put to the image of the text: the second
//! implementation of the rules, and the proved library.

use std::fs;
use std::panic::{catch_unwind, AssertUnwindSafe};
use std::path::Path;

use goofs::image::Image;
use vectors::folder::chapters;
use vectors::json::Json;
use vectors::sha256::sha256;
use vectors::text::to_image;

const SECTOR: usize = 512;
/// Long enough for every list of these calls: the most targets are all of a volume here.
const LIST: usize = 700 * 528;
/// A time that both editions store.
const TIME: u64 = 77;

/// A file's fields, in the order of the calls' answers, and its name.
#[derive(Debug, PartialEq, Eq)]
struct Entry {
    index: u64,
    fields: [u64; 6],
    name: Vec<u8>,
}

const AREAS: [&str; 7] = [
    "table_sectors",
    "reserve_extents",
    "journal_at",
    "table_at",
    "data_at",
    "reserve_at",
    "end",
];

/// The calls of a program; numbers stand in the order of its answers.
trait Reader {
    /// Number, edition, files, extents, sectors of an extent, state, journal entries.
    fn summary(&self, image: &[u8]) -> [u64; 7];
    /// What follows from the summary, in the order of `AREAS`.
    fn areas(&self, image: &[u8]) -> [u64; 7];
    /// Number, fault, place.
    fn check(&self, image: &[u8]) -> [u64; 3];
    fn find(&self, image: &[u8], name: &[u8]) -> Option<Entry>;
    fn list(&self, image: &[u8], index: u64) -> Result<Entry, u64>;
    /// The bytes, or the number of the refusal.
    fn read(&self, image: &[u8], name: &[u8], offset: u64, count: u64) -> Result<Vec<u8>, u64>;
    fn create(&self, image: &[u8], name: &[u8], id: u64) -> u64;
    /// Writes a byte.
    fn write(&self, image: &[u8], name: &[u8], offset: u64) -> u64;
    /// The number, and the image when the list is carried out.
    fn recover(&self, image: &[u8]) -> (u64, Vec<u8>);
}

/// Both programs give their calls and their answers' numbers the same names.
macro_rules! reader {
    ($reader:ident is $program:ident, $areas:expr, $check:expr) => {
        struct $reader;

        impl Reader for $reader {
            fn summary(&self, image: &[u8]) -> [u64; 7] {
                let s = $program::summary(image);
                [
                    s.code,
                    s.edition,
                    s.files,
                    s.extents,
                    s.extent_sectors,
                    s.state,
                    s.entries,
                ]
            }

            fn areas(&self, image: &[u8]) -> [u64; 7] {
                $areas(image)
            }

            fn check(&self, image: &[u8]) -> [u64; 3] {
                $check(image)
            }

            fn find(&self, image: &[u8], name: &[u8]) -> Option<Entry> {
                let f = $program::find(image, name);
                let fields = [
                    f.size,
                    f.version,
                    f.id,
                    f.mode,
                    f.access_time,
                    f.change_time,
                ];
                (f.code == 0).then(|| Entry {
                    index: f.index,
                    fields,
                    name: name.to_vec(),
                })
            }

            fn list(&self, image: &[u8], index: u64) -> Result<Entry, u64> {
                let (mut name, mut list) = (vec![0; SECTOR], vec![0; LIST]);
                let l = $program::list(image, index, TIME, &mut name, &mut list);
                name.truncate(l.name_length as usize);
                let fields = [
                    l.size,
                    l.version,
                    l.id,
                    l.mode,
                    l.access_time,
                    l.change_time,
                ];
                done(
                    l.code,
                    Entry {
                        index,
                        fields,
                        name,
                    },
                )
            }

            fn read(
                &self,
                image: &[u8],
                name: &[u8],
                offset: u64,
                count: u64,
            ) -> Result<Vec<u8>, u64> {
                let (mut output, mut list) = (vec![0; count as usize], vec![0; LIST]);
                let r = $program::read(image, name, offset, count, TIME, &mut output, &mut list);
                output.truncate(r.count as usize);
                done(r.code, output)
            }

            fn create(&self, image: &[u8], name: &[u8], id: u64) -> u64 {
                $program::create(image, name, id, 0, TIME, &mut vec![0; LIST]).code
            }

            fn write(&self, image: &[u8], name: &[u8], offset: u64) -> u64 {
                $program::write(image, name, offset, &[1], TIME, &mut vec![0; LIST]).code
            }

            fn recover(&self, image: &[u8]) -> (u64, Vec<u8>) {
                let mut list = vec![0; LIST];
                let r = $program::recover(image, &mut list);
                let mut image = image.to_vec();
                let carried_out = $program::carry_out(&mut image, &list[..r.length as usize]);
                assert_eq!(carried_out, 0);
                (r.code, image)
            }
        }
    };
}

/// The answer, or the number of the refusal.
fn done<Given>(code: u64, given: Given) -> Result<Given, u64> {
    match code {
        0 => Ok(given),
        refused => Err(refused),
    }
}

reader!(Oracle is oracle, areas_by_the_oracle, |image| {
    let c = oracle::check(image);
    [c.code, c.fault, c.place]
});

fn areas_by_the_oracle(image: &[u8]) -> [u64; 7] {
    let g = oracle::summary(image).geometry().unwrap();
    let starts = [
        g.journal_at(),
        g.table_at(),
        g.data_at(),
        g.reserve_at(),
        g.end(),
    ];
    let [journal, table, data, reserve, end] = starts.map(|sector| sector.0);
    [
        g.table_sectors(),
        g.reserve_extents(),
        journal,
        table,
        data,
        reserve,
        end,
    ]
}

// Both forms of the check say the same.
reader!(Library is goofs, areas_by_the_library, |image| {
    let c = goofs::check(image);
    assert_eq!(goofs::check_with(image, &mut vec![0; 5 * 65_535]), c);
    [c.code, c.fault, c.place]
});

fn areas_by_the_library(image: &[u8]) -> [u64; 7] {
    let s = Image::new(image.to_vec()).unwrap().summary();
    let starts = [
        s.journal_at(),
        s.table_at(),
        s.data_at(),
        s.reserve_at(),
        s.sectors(),
    ];
    let [journal, table, data, reserve, end] = starts;
    [
        s.table_sectors(),
        s.reserve_extents(),
        journal,
        table,
        data,
        reserve,
        end,
    ]
}

/// A volume of the folder as its two files give it.
struct Published {
    name: String,
    image: Vec<u8>,
    json: Json,
}

fn published() -> Vec<Published> {
    let folder = Path::new(env!("CARGO_MANIFEST_DIR")).join("../../vectors");
    let vectors = chapters().into_iter().flat_map(|chapter| chapter.vectors);
    let read = vectors.map(|vector| {
        let read =
            |ending| fs::read_to_string(folder.join(format!("{}.{ending}", vector.name))).unwrap();
        Published {
            image: to_image(&read("txt")).unwrap(),
            json: Json::read(&read("json")).unwrap(),
            name: vector.name,
        }
    });
    read.collect()
}

/// Whether one of the last K extents is given to an entry. Before T-12 that was a fault.
fn takes_the_reserve(volume: &Published) -> bool {
    let geometry = volume.json.get("geometry");
    if *geometry == Json::Null {
        return false;
    }
    let of = |name| geometry.get(name).number() as usize;
    let last = of("extents") - of("reserve_extents")..of("extents");
    last.into_iter().any(|extent| {
        let at = of("table_at") * SECTOR + 4 * extent;
        volume.image[at..at + 2] != [255, 255]
    })
}

/// All of a statement holds for the program.
fn holds(reader: &dyn Reader, volume: &Published) {
    let Published { name, image, json } = volume;
    image_holds(image, json.get("image"), name);
    let verdict = json.get("verdict");
    let number = verdict.get("number").number();
    let told = ["number", "fault", "place"].map(|member| verdict.get(member).number());
    assert_eq!(reader.check(image), told, "{name}");

    let geometry = json.get("geometry");
    let summary = reader.summary(image);
    if *geometry == Json::Null {
        assert_eq!(summary, [number, 0, 0, 0, 0, 0, 0], "{name}");
        assert!(
            (1..=3).contains(&number) && *json.get("state") == Json::Null,
            "{name}"
        );
        return;
    }
    let of = |member| geometry.get(member).number();
    let state = ["clean", "waiting", "damaged", "unfinished"]
        .iter()
        .position(|state| *state == json.get("state").str())
        .unwrap() as u64;
    let entries = json
        .find("journal")
        .map_or(0, |journal| journal.list().len() as u64);
    let told = [
        0,
        of("edition"),
        of("files"),
        of("extents"),
        of("extent_sectors"),
        state,
        entries,
    ];
    assert_eq!(summary, told, "{name}");
    assert_eq!(reader.areas(image), AREAS.map(of), "{name}");
    assert_eq!(of("directory_at"), 2, "{name}");

    let (recovered, after) = reader.recover(image);
    match json.find("recovery") {
        Some(recovery) => {
            assert_eq!(recovered, recovery.get("number").number(), "{name}");
            journal_holds(image, geometry, json.get("journal"), name);
            if recovered == 0 {
                image_holds(&after, recovery.get("image"), name);
                assert_eq!(reader.check(&after), [0, 0, 0], "{name}");
                contents_hold(reader, &after, geometry, recovery.get("contents"), name);
            }
        }
        None => {
            assert_eq!(recovered, if number == 7 { 0 } else { number }, "{name}");
            assert!(after == *image, "{name}");
        }
    }
    match json.find("contents") {
        Some(contents) => {
            assert_eq!(number, 0, "{name}");
            contents_hold(reader, image, geometry, contents, name);
        }
        None => {
            // Whatever the name, the reading calls refuse with the verdict.
            assert_ne!(number, 0, "{name}");
            assert_eq!(reader.list(image, 0), Err(number), "{name}");
            assert_eq!(reader.read(image, b"alpha", 0, 1), Err(number), "{name}");
        }
    }
}

fn image_holds(image: &[u8], told: &Json, name: &str) {
    assert_eq!(
        (image.len() / SECTOR) as u64,
        told.get("sectors").number(),
        "{name}"
    );
    assert_eq!(sha256(image), told.get("sha256").str(), "{name}");
}

fn number(bytes: &[u8]) -> u64 {
    bytes
        .iter()
        .fold(0, |sum, byte| sum << 8 | u64::from(*byte))
}

fn journal_holds(image: &[u8], geometry: &Json, journal: &Json, name: &str) {
    for (k, entry) in journal.list().iter().enumerate() {
        let at = geometry.get("journal_at").number() as usize * SECTOR + 16 * k;
        let told = ["source", "target"].map(|member| entry.get(member).number());
        assert_eq!(
            [number(&image[at..at + 8]), number(&image[at + 8..at + 16])],
            told,
            "{name}"
        );
    }
}

fn contents_hold(reader: &dyn Reader, image: &[u8], geometry: &Json, contents: &Json, name: &str) {
    let files = contents.get("files").list();
    let root = contents.get("root");
    let width = 4 * geometry.get("edition").number() as usize;
    let mut at = SECTOR;
    for (member, bytes) in [
        ("version", 4),
        ("id", 8),
        ("mode", 4),
        ("access_time", width),
        ("change_time", width),
    ] {
        assert_eq!(
            number(&image[at..at + bytes]),
            root.get(member).number(),
            "{name}"
        );
        at += bytes;
    }

    // The directory holds these files and no others.
    let mut expected = files.iter();
    for index in 0..geometry.get("files").number() {
        match reader.list(image, index) {
            Ok(entry) => {
                let file = expected
                    .next()
                    .unwrap_or_else(|| panic!("{name}: {entry:?}"));
                file_holds(reader, image, geometry, file, &entry, name);
            }
            Err(refused) => assert_eq!(refused, 9, "{name}: entry {index}"),
        }
    }
    assert!(expected.next().is_none(), "{name}");
    assert_eq!(
        reader.list(image, geometry.get("files").number()),
        Err(8),
        "{name}"
    );

    // Every extent is free or a file's, and no two files have one.
    let extents = files.iter().flat_map(|file| file.get("extents").list());
    let mut all: Vec<u64> = extents
        .chain(contents.get("free_extents").list())
        .map(Json::number)
        .collect();
    all.sort_unstable();
    assert!(
        all.into_iter().eq(0..geometry.get("extents").number()),
        "{name}"
    );

    // No change is done to a frozen volume, and none that takes an extent if no more are free than must
    // stay so. The new name and the id are nobody's.
    let free = contents.get("free_extents").list().len() as u64;
    let reserve = geometry.get("reserve_extents").number();
    let frozen = free < reserve;
    assert_eq!(*contents.get("frozen"), Json::Bool(frozen), "{name}");
    let created = match (files.len() as u64 == geometry.get("files").number(), frozen) {
        (true, _) => 11,
        (false, true) => 13,
        (false, false) => 0,
    };
    assert_eq!(
        reader.create(image, b"nobody-has-it", 1 << 40),
        created,
        "{name}"
    );
    let extent_bytes = geometry.get("extent_sectors").number() * SECTOR as u64;
    for file in files {
        let size = file.get("size").number();
        let (offset, takes) = (size, size.is_multiple_of(extent_bytes));
        let refused = frozen || takes && free == reserve;
        let written = reader.write(image, &bytes_of(file.get("name_hex").str()), offset);
        assert_eq!(written, if refused { 13 } else { 0 }, "{name}");
    }
}

fn bytes_of(hex: &str) -> Vec<u8> {
    let pairs = (0..hex.len()).step_by(2);
    pairs
        .map(|at| u8::from_str_radix(&hex[at..at + 2], 16).unwrap())
        .collect()
}

fn file_holds(
    reader: &dyn Reader,
    image: &[u8],
    geometry: &Json,
    file: &Json,
    entry: &Entry,
    name: &str,
) {
    let hex: String = entry
        .name
        .iter()
        .map(|byte| format!("{byte:02x}"))
        .collect();
    assert_eq!(hex, file.get("name_hex").str(), "{name}");
    match file.get("name") {
        Json::Null => assert!(
            entry.name.iter().any(|byte| !(32..=126).contains(byte)),
            "{name}"
        ),
        text => assert_eq!(entry.name, text.str().as_bytes(), "{name}"),
    }
    assert_eq!(entry.index, file.get("index").number(), "{name}");
    let fields = [
        "size",
        "version",
        "id",
        "mode",
        "access_time",
        "change_time",
    ];
    assert_eq!(
        entry.fields,
        fields.map(|member| file.get(member).number()),
        "{name}"
    );
    assert_eq!(
        reader.find(image, &entry.name).as_ref(),
        Some(entry),
        "{name}"
    );

    // Read extent by extent, each is what stands where the statement says.
    let size = file.get("size").number();
    let extent_bytes = geometry.get("extent_sectors").number() * SECTOR as u64;
    let extents = file.get("extents").list();
    assert_eq!(extents.len() as u64, size.div_ceil(extent_bytes), "{name}");
    let mut bytes = Vec::new();
    for extent in extents {
        let at = geometry.get("data_at").number() * SECTOR as u64 + extent.number() * extent_bytes;
        let from = bytes.len();
        let piece = extent_bytes.min(size - from as u64);
        while (bytes.len() - from) < piece as usize {
            let asked = 65_536.min(piece - (bytes.len() - from) as u64);
            bytes.extend(
                reader
                    .read(image, &entry.name, bytes.len() as u64, asked)
                    .unwrap(),
            );
        }
        let at = at as usize;
        assert!(
            bytes[from..] == image[at..at + piece as usize],
            "{name}: extent {}",
            extent.number()
        );
    }
    assert_eq!(
        reader.read(image, &entry.name, size, 1),
        Ok(Vec::new()),
        "{name}"
    );
    assert_eq!(
        reader.read(image, &entry.name, size + 1, 1),
        Err(12),
        "{name}"
    );
    assert_eq!(sha256(&bytes), file.get("sha256").str(), "{name}");
}

#[test]
fn by_the_second_implementation() {
    let volumes = published();
    assert!(volumes.len() > 100);
    for volume in &volumes {
        holds(&Oracle, volume);
    }
}

#[test]
fn by_the_proved_library() {
    for volume in published()
        .iter()
        .filter(|volume| !takes_the_reserve(volume))
    {
        holds(&Library, volume);
    }
}

/// These are T-12's: a library of before finds fault 22 or 25 in them.
#[test]
fn by_the_proved_library_where_the_reserve_is_taken() {
    let mut volumes = published();
    volumes.retain(takes_the_reserve);
    assert!(volumes.len() >= 8);
    for volume in &volumes {
        holds(&Library, volume);
    }
}

/// The statement with each of its numbers, texts and truths changed in turn, and with each list shortened;
/// beside it where. Name and sentence are for people.
fn changed(json: &Json) -> Vec<(String, Json)> {
    let within = |place: &str, inner: &Json, put: &dyn Fn(Json) -> Json| -> Vec<(String, Json)> {
        let inner = changed(inner).into_iter();
        inner
            .map(|(at, json)| (format!("{place} {at}"), put(json)))
            .collect()
    };
    match json {
        Json::Null => vec![(String::new(), Json::Number(1))],
        Json::Bool(truth) => vec![(String::new(), Json::Bool(!truth))],
        Json::Number(number) => vec![(String::new(), Json::Number(number ^ 1))],
        Json::Text(text) => {
            let mut other = text.clone();
            let last = other.pop();
            other.push(if last == Some('0') { '1' } else { '0' });
            vec![(String::new(), Json::Text(other))]
        }
        Json::List(values) => {
            let mut all = Vec::new();
            for (i, value) in values.iter().enumerate() {
                all.extend(within(&i.to_string(), value, &|json| {
                    let mut values = values.clone();
                    values[i] = json;
                    Json::List(values)
                }));
            }
            if let [shorter @ .., _] = &values[..] {
                all.push(("shorter".to_string(), Json::List(shorter.to_vec())));
            }
            all
        }
        Json::Object(members) => {
            let mut all = Vec::new();
            for (i, (name, value)) in members.iter().enumerate() {
                if *name != "what" && !(*name == "name" && members[1].0 == "what") {
                    all.extend(within(name, value, &|json| {
                        let mut members = members.clone();
                        members[i].1 = json;
                        Json::Object(members)
                    }));
                }
            }
            all
        }
    }
}

/// Nothing in a statement goes unread here: whatever is changed in it, it no longer holds.
#[test]
fn every_word_is_read() {
    let volumes = published();
    let mut tried = 0;
    for name in [
        "some-files-e2",
        "old-names-e1",
        "none-free-e1",
        "write-c-first-e2",
        "bad-journal-crossed-e1",
        "fault-26-gap-e1",
        "damaged-1025-e2",
        "no-volume-magic",
    ] {
        let volume = volumes.iter().find(|volume| volume.name == name).unwrap();
        for (place, json) in changed(&volume.json) {
            let volume = Published {
                name: name.to_string(),
                image: volume.image.clone(),
                json,
            };
            let outcome = catch_unwind(AssertUnwindSafe(|| holds(&Oracle, &volume)));
            assert!(outcome.is_err(), "{name}: {place} is not read");
            tried += 1;
        }
    }
    assert!(tried > 200, "{tried}");
}
