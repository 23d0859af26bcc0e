//! Where a call's copies are staged: the K highest extents that are free before it.

use crate::answers::{code, Refusal};
use crate::judge::Volume;
use crate::layout::{Extent, Geometry, Sector};

pub struct Staging {
    geometry: Geometry,
    /// In rising order; they need not touch.
    extents: Vec<Extent>,
}

impl Staging {
    /// Refusal 13 if fewer than K extents are free. What the call itself will free doesn't count:
    /// a cut may still need its old bytes.
    pub fn of(volume: Volume) -> Result<Staging, Refusal> {
        let geometry = volume.geometry();
        let reserve = geometry.reserve_extents() as usize;
        let mut extents: Vec<Extent> = volume.free_extents().rev().take(reserve).collect();
        if extents.len() < reserve {
            return Err(Refusal::new(code::NO_ROOM));
        }
        extents.reverse();
        Ok(Staging { geometry, extents })
    }

    /// How many copies there is room for.
    pub fn sectors(&self) -> usize {
        self.extents.len() * self.geometry.extent_sectors() as usize
    }

    /// Where the copy of the k-th target goes.
    pub fn sector(&self, k: usize) -> Sector {
        let extent_sectors = self.geometry.extent_sectors() as usize;
        let extent = self.extents[k / extent_sectors];
        Sector(self.geometry.extent_at(extent).0 + (k % extent_sectors) as u64)
    }
}
