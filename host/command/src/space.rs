//! The room for files on a volume, which they take in whole extents.

use std::fmt;

use goofs::image::{Image, Summary};

/// What a file costs, and how much there is for it.
#[derive(Clone, Copy)]
pub struct Space {
    pub extent_bytes: u64,
    /// Extents that a file can get: some must stay free.
    pub free: u64,
    /// The geometry of a volume that no change can be made to any more, as fewer are free than must stay
    /// free.
    pub frozen: Option<Summary>,
}

impl Space {
    pub fn of(image: &Image) -> Space {
        let summary = image.summary();
        Space {
            extent_bytes: summary.extent_bytes(),
            free: image
                .free_extents()
                .saturating_sub(summary.reserve_extents()),
            frozen: image.is_frozen().then_some(summary),
        }
    }

    fn extents(self, size: u64) -> u64 {
        size.div_ceil(self.extent_bytes)
    }

    /// The most bytes that a file of this size can come to have.
    pub fn most(self, size: u64) -> u64 {
        (self.free + self.extents(size)) * self.extent_bytes
    }

    /// What is free when a file of this size is gone.
    pub fn without(self, size: u64) -> Space {
        let free = self.free + self.extents(size);
        Space { free, ..self }
    }

    /// What is left when a file has the new size instead of the old one, if there is so much.
    pub fn after(self, old_size: u64, new_size: u64) -> Option<Space> {
        let available = self.free + self.extents(old_size);
        let free = available.checked_sub(self.extents(new_size))?;
        Some(Space { free, ..self })
    }
}

impl fmt::Display for Space {
    fn fmt(&self, f: &mut fmt::Formatter) -> fmt::Result {
        write!(
            f,
            "each file takes whole extents of {} bytes; {} free",
            self.extent_bytes, self.free
        )
    }
}
