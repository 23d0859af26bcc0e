//! What stands on a volume, as JSON. It is told by what made the volume, the ledger above all.

use oracle::answers::code;
use oracle::layout::{Edition, Extent, Geometry, SECTOR};
use oracle::ledger::File;
use oracle::Ledger;

use crate::json::Json;
use crate::sha256::sha256;
use crate::text::to_text;

/// A volume of the folder.
pub struct Vector {
    /// The name of its two files.
    pub name: String,
    /// One sentence.
    pub what: String,
    pub image: Vec<u8>,
    pub stands: Stands,
}

/// A journal entry's source and target.
pub type JournalEntry = (u64, u64);

pub enum Stands {
    /// No volume, by this number.
    Nothing(u64),
    Sound(Box<Ledger>),
    /// Clean with this fault at this place.
    Faulty(Edition, Geometry, u64, u64),
    /// A change was cut after its start mark.
    Waiting(Edition, Geometry, Vec<JournalEntry>, Option<Recovered>),
    Damaged(Edition, Geometry),
    Unfinished(Edition, Geometry),
}

/// The volume when a waiting change was finished. Where there is none, the journal is bad.
pub struct Recovered {
    pub image: Vec<u8>,
    pub ledger: Box<Ledger>,
}

impl Vector {
    /// Edition and geometry, if there is a volume.
    pub fn layout(&self) -> Option<(Edition, Geometry)> {
        match &self.stands {
            Stands::Nothing(_) => None,
            Stands::Sound(ledger) => Some((edition_of(ledger), ledger.geometry())),
            Stands::Faulty(edition, geometry, ..)
            | Stands::Waiting(edition, geometry, ..)
            | Stands::Damaged(edition, geometry)
            | Stands::Unfinished(edition, geometry) => Some((*edition, *geometry)),
        }
    }

    pub fn text(&self) -> String {
        to_text(&self.image, self.layout())
    }

    /// "clean", "waiting" and so on, or nothing if there is no volume.
    pub fn state(&self) -> Option<&'static str> {
        match &self.stands {
            Stands::Nothing(_) => None,
            Stands::Sound(_) | Stands::Faulty(..) => Some("clean"),
            Stands::Waiting(..) => Some("waiting"),
            Stands::Damaged(..) => Some("damaged"),
            Stands::Unfinished(..) => Some("unfinished"),
        }
    }

    /// The check's number, fault and place.
    pub fn verdict(&self) -> [u64; 3] {
        match &self.stands {
            Stands::Nothing(number) => [*number, 0, 0],
            Stands::Sound(_) => [code::DONE, 0, 0],
            Stands::Faulty(_, _, fault, place) => [code::NOT_SOUND, *fault, *place],
            Stands::Waiting(..) => [code::WAITING, 0, 0],
            Stands::Damaged(..) => [code::DAMAGED, 0, 0],
            Stands::Unfinished(..) => [code::UNFINISHED, 0, 0],
        }
    }

    pub fn statement(&self) -> Json {
        let [number, fault, place] = self.verdict().map(Json::Number);
        let mut members = vec![
            ("name", Json::text(&self.name)),
            ("what", Json::text(&self.what)),
            ("image", image_of(&self.image)),
            ("geometry", self.layout().map_or(Json::Null, geometry)),
            ("state", self.state().map_or(Json::Null, Json::text)),
            (
                "verdict",
                Json::object(vec![("number", number), ("fault", fault), ("place", place)]),
            ),
        ];
        match &self.stands {
            Stands::Sound(ledger) => members.push(("contents", contents(ledger))),
            Stands::Waiting(_, _, entries, recovered) => {
                members.push((
                    "journal",
                    Json::List(entries.iter().map(journal_entry).collect()),
                ));
                members.push(("recovery", recovery(recovered.as_ref())));
            }
            _ => {}
        }
        Json::object(members)
    }
}

pub fn edition_of(ledger: &Ledger) -> Edition {
    Edition::of(ledger.edition()).expect("a ledger has an edition")
}

fn image_of(image: &[u8]) -> Json {
    Json::object(vec![
        ("sectors", Json::Number((image.len() / SECTOR) as u64)),
        ("sha256", Json::Text(sha256(image))),
    ])
}

fn geometry((edition, geometry): (Edition, Geometry)) -> Json {
    let numbers = [
        ("edition", edition.number()),
        ("files", geometry.files()),
        ("extents", geometry.extents()),
        ("extent_sectors", geometry.extent_sectors()),
        ("table_sectors", geometry.table_sectors()),
        ("reserve_extents", geometry.reserve_extents()),
        ("directory_at", geometry.directory_at().0),
        ("journal_at", geometry.journal_at().0),
        ("table_at", geometry.table_at().0),
        ("data_at", geometry.data_at().0),
        ("reserve_at", geometry.reserve_at().0),
        ("end", geometry.end().0),
    ];
    let numbers = numbers.map(|(name, number)| (name, Json::Number(number)));
    Json::object(numbers.to_vec())
}

fn journal_entry((source, target): &JournalEntry) -> Json {
    Json::object(vec![
        ("source", Json::Number(*source)),
        ("target", Json::Number(*target)),
    ])
}

fn recovery(recovered: Option<&Recovered>) -> Json {
    let Some(recovered) = recovered else {
        return Json::object(vec![("number", Json::Number(code::DAMAGED))]);
    };
    Json::object(vec![
        ("number", Json::Number(code::DONE)),
        ("image", image_of(&recovered.image)),
        ("contents", contents(&recovered.ledger)),
    ])
}

fn contents(ledger: &Ledger) -> Json {
    let root = ledger.root();
    let free: Vec<Extent> = ledger.free_extents().collect();
    let frozen = (free.len() as u64) < ledger.geometry().reserve_extents();
    Json::object(vec![
        (
            "root",
            Json::object(vec![
                ("version", Json::Number(u64::from(root.version))),
                ("id", Json::Number(root.id)),
                ("mode", Json::Number(u64::from(root.mode))),
                ("access_time", Json::Number(root.access_time)),
                ("change_time", Json::Number(root.change_time)),
            ]),
        ),
        (
            "free_extents",
            Json::numbers(free.iter().map(|extent| extent.0)),
        ),
        ("frozen", Json::Bool(frozen)),
        ("files", Json::List(ledger.files().map(file).collect())),
    ])
}

fn file((index, file): (usize, &File)) -> Json {
    let printable = file.name.iter().all(|byte| (b' '..=b'~').contains(byte));
    let name = match printable {
        true => Json::text(&String::from_utf8_lossy(&file.name)),
        false => Json::Null,
    };
    let hex = file.name.iter().map(|byte| format!("{byte:02x}"));
    Json::object(vec![
        ("index", Json::Number(index as u64)),
        ("name", name),
        ("name_hex", Json::Text(hex.collect())),
        ("size", Json::Number(file.bytes.len() as u64)),
        ("version", Json::Number(u64::from(file.version))),
        ("id", Json::Number(file.id)),
        ("mode", Json::Number(u64::from(file.mode))),
        ("access_time", Json::Number(file.access_time)),
        ("change_time", Json::Number(file.change_time)),
        (
            "extents",
            Json::numbers(file.extents.iter().map(|extent| extent.0)),
        ),
        ("sha256", Json::Text(sha256(&file.bytes))),
    ])
}
