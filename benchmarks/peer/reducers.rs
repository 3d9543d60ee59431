//! The three reducers: what they know of the order, and what an arc or an access tells them.

use crate::cores::Access;
use crate::sizes::{MAX_CELLS, MAX_CORES};

/// Instruction `count` of core `core`.
#[derive(Clone, Copy, Default)]
pub struct Source {
    pub core: u8,
    pub count: u16,
}

/// Is asked about each candidate for an arc, and told of each arc and access. By default it knows
/// nothing yet.
pub trait Reducer: Default {
    /// Forgets all.
    fn reset(&mut self);
    /// Whether the source is known to come before whatever `core` does next.
    fn knows(&self, source: Source, core: usize) -> bool;
    /// The arc from the source, which was the access, to `core`.
    fn take(&mut self, source: Source, access: Access, core: usize);
    /// An access of `core`.
    fn note(&mut self, core: usize, access: Access);
}

/// Up to which instruction each core is known.
type Row = [u16; MAX_CORES];

/// Knows nothing: every candidate is logged.
#[derive(Clone, Copy, Default)]
pub struct KeepAll;

impl Reducer for KeepAll {
    fn reset(&mut self) {}

    #[inline]
    fn knows(&self, source: Source, _: usize) -> bool {
        source.count == 0
    }

    fn take(&mut self, _: Source, _: Access, _: usize) {}

    fn note(&mut self, _: usize, _: Access) {}
}

/// Knows what the arcs from the one core to the other say.
#[derive(Clone, Default)]
pub struct Pairwise {
    known: [Row; MAX_CORES],
}

impl Reducer for Pairwise {
    fn reset(&mut self) {
        self.known = Default::default();
    }

    #[inline]
    fn knows(&self, source: Source, core: usize) -> bool {
        source.count <= self.known[core][usize::from(source.core)]
    }

    #[inline]
    fn take(&mut self, source: Source, _: Access, core: usize) {
        let known = &mut self.known[core][usize::from(source.core)];
        *known = source.count.max(*known);
    }

    fn note(&mut self, _: usize, _: Access) {}
}

/// What was known at a cell's last write, and at each core's latest read of it.
#[derive(Clone, Copy, Default)]
struct Stamps {
    written: Row,
    read: [Row; MAX_CORES],
}

/// Knows all that follows from the arcs, by the stamp of each arc's source.
#[derive(Clone)]
pub struct Exact {
    known: [Row; MAX_CORES],
    stamps: [Stamps; MAX_CELLS],
}

impl Default for Exact {
    #[inline]
    fn default() -> Self {
        Exact {
            known: Default::default(),
            stamps: [Stamps::default(); MAX_CELLS],
        }
    }
}

impl Reducer for Exact {
    fn reset(&mut self) {
        self.known = Default::default();
        self.stamps.fill(Stamps::default());
    }

    #[inline]
    fn knows(&self, source: Source, core: usize) -> bool {
        source.count <= self.known[core][usize::from(source.core)]
    }

    #[inline]
    fn take(&mut self, source: Source, access: Access, core: usize) {
        let from = usize::from(source.core);
        let stamps = &self.stamps[access.cell];
        let mut told = if access.writes {
            stamps.written
        } else {
            stamps.read[from]
        };
        told[from] = source.count;
        for (known, told) in self.known[core].iter_mut().zip(told) {
            *known = told.max(*known);
        }
    }

    #[inline]
    fn note(&mut self, core: usize, access: Access) {
        let row = self.known[core];
        let stamps = &mut self.stamps[access.cell];
        if access.writes {
            stamps.written = row;
        } else {
            stamps.read[core] = row;
        }
    }
}
