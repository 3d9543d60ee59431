//! What describes a session, the sizes it is held to, and the refusals of the calls.

use crate::cores::{Core, Item, Kind, Text};
use crate::logs::Fault;

/// P, C and L.
#[derive(Clone, Copy, Debug, PartialEq, Eq)]
pub struct Setting {
    pub cores: usize,
    pub cells: usize,
    pub log_bytes: usize,
}

impl Setting {
    pub fn in_range(&self) -> bool {
        (1..=4).contains(&self.cores)
            && (1..=256).contains(&self.cells)
            && (12..=16_384).contains(&self.log_bytes)
    }

    pub fn store_bytes(&self) -> usize {
        self.cores * self.log_bytes
    }

    /// In range, with as many cores, cells and bytes of a store as it needs.
    pub fn fits(&self, cores: usize, cells: usize, store: usize) -> bool {
        self.in_range() && cores >= self.cores && cells >= self.cells && store >= self.store_bytes()
    }

    /// The bytes of the log of a core within the store.
    pub fn log_range(&self, core: usize) -> std::ops::Range<usize> {
        core * self.log_bytes..(core + 1) * self.log_bytes
    }
}

#[derive(Clone, Copy, Debug, PartialEq, Eq)]
pub enum Reducer {
    KeepAll,
    Pairwise,
    Exact,
}

#[derive(Clone, Copy, Debug, PartialEq, Eq)]
pub enum Refusal {
    NoSuchCore,
    Halted,
    CountSpent,
    NoSuchCell,
    LogFull,
    Waits { source: usize, count: u16 },
    Replayed,
    BadSetting,
    LogFault(Fault),
}

impl Refusal {
    pub fn number(&self) -> usize {
        match self {
            Refusal::NoSuchCore => 1,
            Refusal::Halted => 2,
            Refusal::CountSpent => 3,
            Refusal::NoSuchCell => 4,
            Refusal::LogFull => 5,
            Refusal::Waits { .. } => 6,
            Refusal::Replayed => 7,
            Refusal::BadSetting => 8,
            Refusal::LogFault(_) => 9,
        }
    }
}

/// A session as the input of `bench` describes it.
#[derive(Clone, Debug, PartialEq, Eq)]
pub struct Session {
    pub kind: Kind,
    pub reducer: Reducer,
    pub cells: usize,
    pub items: Vec<Item>,
    pub starts: Vec<u16>,
    pub turns: Vec<u16>,
}

impl Session {
    pub fn setting(&self, log_bytes: usize) -> Setting {
        Setting {
            cores: self.starts.len(),
            cells: self.cells,
            log_bytes,
        }
    }

    pub fn text(&self) -> Text {
        Text::of_items(&self.items)
    }

    pub fn starting_cores(&self) -> Vec<Core> {
        self.starts
            .iter()
            .map(|&start| self.kind.core_at(start))
            .collect()
    }

    pub fn starting_cells(&self) -> Vec<u16> {
        vec![0; self.cells]
    }
}
