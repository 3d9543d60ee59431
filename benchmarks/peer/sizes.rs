//! The sizes of a session.

pub const MAX_CORES: usize = 4;
pub const MAX_CELLS: usize = 256;

/// Cores, cells, and the bytes of each core's log.
#[derive(Clone, Copy, Debug, Default)]
pub struct Sizes {
    pub cores: usize,
    pub cells: usize,
    pub log_bytes: usize,
}

impl Sizes {
    /// The session of these sizes, if they are in range and so many cores, cells and bytes are
    /// enough for them.
    #[inline]
    pub(crate) fn settle(self, cores: usize, cells: usize, store_bytes: usize) -> Option<Settled> {
        let in_range = (1..=MAX_CORES).contains(&self.cores)
            && (1..=MAX_CELLS).contains(&self.cells)
            && (12..=16384).contains(&self.log_bytes);
        let settled = Settled {
            cores: self.cores,
            cells: self.cells,
            log_bytes: self.log_bytes,
            store_bytes: self.cores.wrapping_mul(self.log_bytes),
        };
        (in_range && settled.fits(cores, cells, store_bytes)).then_some(settled)
    }
}

/// Sizes that were found in range; all 0 before any session.
#[derive(Clone, Copy, Default)]
pub(crate) struct Settled {
    pub cores: usize,
    pub cells: usize,
    pub log_bytes: usize,
    pub store_bytes: usize,
}

impl Settled {
    /// Whether there is a session, and so many cores, cells and bytes are enough for it.
    #[inline]
    pub fn fits(&self, cores: usize, cells: usize, store_bytes: usize) -> bool {
        self.cores != 0
            && self.cores <= cores
            && self.cells <= cells
            && self.store_bytes <= store_bytes
    }

    #[inline]
    pub fn log<'a>(&self, store: &'a [u8], core: usize) -> &'a [u8] {
        &store[core * self.log_bytes..][..self.log_bytes]
    }

    #[inline]
    pub fn log_mut<'a>(&self, store: &'a mut [u8], core: usize) -> &'a mut [u8] {
        &mut store[core * self.log_bytes..][..self.log_bytes]
    }
}
