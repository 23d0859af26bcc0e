//! The ledger that an image describes: with it begins a run of calls on a volume that was there before,
//! and by it an image is told apart from a ledger, file by file.

use crate::answers::Refusal;
use crate::format::FormatRequest;
use crate::judge::{open, Volume};
use crate::layout::{get32, get64, root, Entry, Extent, NO_FILE, SECTOR};
use crate::ledger::{File, Ledger, Root};

impl Ledger {
    /// What the image says, and the extents that the table gives away without need: to no file, past a
    /// file's end, or a second time. Soundness is not judged. Of a file that lacks an extent the bytes
    /// before that are given. Refusals 1 to 3.
    pub fn described(image: &[u8]) -> Result<(Ledger, Vec<Extent>), Refusal> {
        let (volume, _) = open(image)?;
        let geometry = volume.geometry();
        let mut ledger = empty(volume);
        let mut places: Vec<Vec<Option<Extent>>> = volume
            .entries()
            .map(|(_, entry)| match entry.is_occupied() {
                // No file has more extents than there are, whatever its entry says.
                true => geometry.extents_for(entry.size()).min(geometry.extents()),
                false => 0,
            })
            .map(|count| vec![None; count as usize])
            .collect();
        let mut surplus = Vec::new();
        for (extent, owner, offset) in volume.table() {
            let place = places
                .get_mut(usize::from(owner))
                .and_then(|places| places.get_mut(usize::from(offset)))
                .filter(|place| place.is_none());
            match place {
                Some(place) => *place = Some(extent),
                None if owner == NO_FILE => (),
                None => surplus.push(extent),
            }
        }
        for ((index, entry), places) in volume.entries().zip(places) {
            if entry.is_occupied() {
                let extents: Vec<Extent> = places.into_iter().map_while(|place| place).collect();
                ledger.put_file(index.0 as usize, file(volume, entry, extents));
            }
        }
        Ok((ledger, surplus))
    }
}

/// A ledger without files, of the volume's geometry and root.
fn empty(volume: Volume) -> Ledger {
    let edition = volume.edition();
    let format = FormatRequest {
        edition: edition.number(),
        sectors: 0,
        files: 0,
        id: 0,
        mode: 0,
        time: 0,
    };
    let found = volume.root();
    let mut ledger =
        Ledger::with_geometry(volume.geometry(), &format).expect("every edition stores the time 0");
    ledger.put_root(Root {
        version: get32(found, root::VERSION),
        id: get64(found, root::ID),
        mode: get32(found, root::MODE),
        access_time: edition.get_time(found, root::ACCESS_TIME),
        change_time: edition.get_time(found, edition.root_change_time()),
    });
    ledger
}

fn file(volume: Volume, entry: Entry, extents: Vec<Extent>) -> File {
    let geometry = volume.geometry();
    let mut bytes = Vec::new();
    for extent in &extents {
        let rest = entry.size() - bytes.len() as u64;
        let count = rest.min(geometry.extent_bytes());
        let sectors = volume.sectors(geometry.extent_at(*extent), count.div_ceil(SECTOR as u64));
        bytes.extend_from_slice(&sectors[..count as usize]);
    }
    File {
        name: entry.name().unwrap_or_default().to_vec(),
        version: entry.version(),
        id: entry.id(),
        mode: entry.mode(),
        access_time: entry.access_time(),
        change_time: entry.change_time(),
        bytes,
        extents,
    }
}

#[cfg(test)]
mod tests {
    use crate::layout::Extent;
    use crate::testing::foreign::foreign_volume;
    use crate::{layout::Edition, Ledger};

    /// Another writer's volume is described as it is, and a leak in it is found.
    #[test]
    fn volumes_are_described() {
        for edition in Edition::BOTH {
            let volume = foreign_volume(edition, &[1, 3]);
            let (ledger, surplus) = Ledger::described(&volume.image).unwrap();
            assert_eq!((&ledger, &surplus[..]), (&volume.ledger, &[][..]));
            ledger.compare(&volume.image).unwrap();

            let mut leaky = volume.image.clone();
            let (sector, at) = ledger.geometry().table_place(Extent(3));
            leaky[sector.0 as usize * 512 + at..][..4].copy_from_slice(&[0, 200, 0, 0]);
            let (same, surplus) = Ledger::described(&leaky).unwrap();
            assert_eq!((&same, &surplus[..]), (&ledger, &[Extent(3)][..]));
            assert!(ledger.compare(&leaky).is_err());
        }
    }
}
