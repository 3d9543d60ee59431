//! The two that are compared, behind the same three calls.

use crate::{plain, product};

/// A kind of core, by its number at the product's exports.
#[repr(u32)]
#[derive(Clone, Copy, PartialEq)]
pub enum Kind {
    Script = 0,
    Register = 1,
}

/// A reducer, by its number at the product's exports.
#[repr(u32)]
#[derive(Clone, Copy, Debug, PartialEq)]
pub enum Reduction {
    KeepAll = 0,
    Pairwise = 1,
    Exact = 2,
}

impl Reduction {
    pub const ALL: [Reduction; 3] = [Reduction::KeepAll, Reduction::Pairwise, Reduction::Exact];

    pub fn name(self) -> &'static str {
        match self {
            Reduction::KeepAll => "keep-all",
            Reduction::Pairwise => "pairwise",
            Reduction::Exact => "exact",
        }
    }
}

/// A session, as the product's exports take it.
#[repr(C)]
#[derive(Clone, Copy)]
pub struct Session {
    pub kind: Kind,
    pub reduction: Reduction,
    pub cores: usize,
    pub cells: usize,
    pub log_bytes: usize,
    pub places: [u16; 4],
}

/// The product or the peer.
#[derive(Clone, Copy, Debug, PartialEq)]
pub enum Side {
    Product,
    Peer,
}

impl Side {
    pub const BOTH: [Side; 2] = [Side::Product, Side::Peer];

    /// A new recorder begins and takes turns of these cores: the checksum of the answers.
    pub fn record(
        self,
        session: &Session,
        text: &[u8],
        cells: &mut [u16],
        store: &mut [u8],
        turns: &[u8],
    ) -> u64 {
        match self {
            Side::Product => product::record(session, text, cells, store, turns),
            Side::Peer => plain::record(session, text, cells, store, turns),
        }
    }

    /// A new replayer opens the logs: 0, or the fault.
    pub fn open(self, session: &Session, cells: &[u16], store: &[u8]) -> u64 {
        match self {
            Side::Product => product::open(session, cells, store),
            Side::Peer => plain::open(session, cells, store),
        }
    }

    /// A new replayer opens the logs, takes steps of these cores, and runs to the end where `runs`:
    /// the checksum of the answers.
    pub fn replay(
        self,
        session: &Session,
        text: &[u8],
        cells: &mut [u16],
        store: &[u8],
        steps: &[u8],
        runs: bool,
    ) -> u64 {
        match self {
            Side::Product => product::replay(session, text, cells, store, steps, runs),
            Side::Peer => plain::replay(session, text, cells, store, steps, runs),
        }
    }
}
