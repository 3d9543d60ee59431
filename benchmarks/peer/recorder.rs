//! The recorder: begin, and turns.

use crate::cores::{Access, Core, Request};
use crate::records::{self, ARC_BYTES, END_BYTES, HEAD_BYTES};
use crate::reducers::{Reducer, Source};
use crate::sizes::{MAX_CELLS, MAX_CORES, Settled, Sizes};

/// Why a call does nothing.
#[derive(Clone, Copy, Debug, PartialEq, Eq)]
pub enum Refusal {
    NoSuchCore = 1,
    Halted = 2,
    CountSpent = 3,
    NoSuchCell = 4,
    LogFull = 5,
    BadSetting = 8,
}

/// An instruction that was carried out.
#[derive(Clone, Copy, Debug)]
pub struct Recorded {
    pub request: Request,
    pub count: u16,
    pub number: u16,
    pub arcs: u16,
}

/// An access that was made: its position among all turns and its count among its core's. Position
/// 0: none.
#[derive(Clone, Copy, Default)]
struct Past {
    position: u32,
    count: u16,
    core: u8,
    writes: bool,
}

impl Past {
    #[inline]
    fn is_by(&self, core: usize) -> bool {
        usize::from(self.core) == core
    }
}

/// The last write of a cell, and each core's latest read since.
#[derive(Clone, Copy, Default)]
struct CellHistory {
    write: Past,
    reads: [Past; MAX_CORES],
}

impl CellHistory {
    /// The last write, if another core than `core` made it.
    #[inline]
    fn write_of_another(&self, core: usize) -> Option<Past> {
        (self.write.position != 0 && !self.write.is_by(core)).then_some(self.write)
    }

    /// What a core did last: its read since the last write, or that write.
    #[inline]
    fn last_of(&self, core: usize) -> Option<Past> {
        let read = self.reads[core];
        if read.position != 0 {
            return Some(read);
        }
        (self.write.position != 0 && self.write.is_by(core)).then_some(self.write)
    }

    /// What each core but `core` did last, the latest first, and how many there are.
    #[inline]
    fn of_others(&self, cores: usize, core: usize) -> ([Past; MAX_CORES - 1], usize) {
        let mut found = [Past::default(); MAX_CORES - 1];
        let mut n = 0;
        for other in 0..cores {
            if other == core {
                continue;
            }
            let Some(past) = self.last_of(other) else {
                continue;
            };
            let mut at = n;
            while at > 0 && found[at - 1].position < past.position {
                found[at] = found[at - 1];
                at -= 1;
            }
            found[at] = past;
            n += 1;
        }
        (found, n)
    }

    /// Remembers an access. A write forgets the reads before it.
    #[inline]
    fn remember(&mut self, access: Past) {
        if access.writes {
            *self = CellHistory {
                write: access,
                reads: Default::default(),
            };
        } else {
            self.reads[usize::from(access.core & 3)] = access;
        }
    }
}

/// How much of a log is written: the offset of its end record, its instructions and its arcs.
#[derive(Clone, Copy, Default)]
struct Tail {
    end: u32,
    instructions: u16,
    arcs: u16,
}

const EMPTY: Tail = Tail {
    end: HEAD_BYTES as u32,
    instructions: 0,
    arcs: 0,
};

impl Tail {
    /// What the request does to the cells, if the log's core may go on with it.
    #[inline]
    fn admit(&self, session: &Settled, request: Request) -> Result<Option<Access>, Refusal> {
        if request == Request::Halt {
            return Err(Refusal::Halted);
        }
        if self.instructions == u16::MAX {
            return Err(Refusal::CountSpent);
        }
        let Some(access) = request.access() else {
            return Ok(None);
        };
        if access.cell >= session.cells {
            return Err(Refusal::NoSuchCell);
        }
        // one arc from each other core has to fit
        let free = session.log_bytes - (self.end as usize + END_BYTES);
        if free < ARC_BYTES * (session.cores - 1) {
            return Err(Refusal::LogFull);
        }
        Ok(Some(access))
    }

    /// Asks about a candidate for an arc to the next instruction of `core`, an access to the cell,
    /// and logs and takes the arc where it is not known.
    #[inline]
    fn log_one<R: Reducer>(
        &mut self,
        bytes: &mut [u8],
        reducer: &mut R,
        candidate: Past,
        cell: usize,
        core: usize,
    ) {
        let Past {
            count,
            core: from,
            writes,
            ..
        } = candidate;
        let source = Source { core: from, count };
        if reducer.knows(source, core) {
            return;
        }
        let at = self.end as usize;
        let arc = records::arc(from, count, self.instructions + 1);
        bytes[at..at + ARC_BYTES].copy_from_slice(&arc);
        self.end += ARC_BYTES as u32;
        self.arcs += 1;
        reducer.take(source, Access { cell, writes }, core);
    }

    /// Counts one more instruction and writes the end record.
    #[inline]
    fn count(&mut self, bytes: &mut [u8]) {
        self.instructions += 1;
        let at = self.end as usize;
        bytes[at..at + END_BYTES].copy_from_slice(&records::end(self.instructions, self.arcs));
    }
}

/// Records the turns of one session after another.
pub struct Recorder<R> {
    session: Settled,
    position: u32,
    tails: [Tail; MAX_CORES],
    reducer: R,
    history: [CellHistory; MAX_CELLS],
}

impl<R: Reducer> Default for Recorder<R> {
    #[inline]
    fn default() -> Self {
        Recorder {
            session: Settled::default(),
            position: 0,
            tails: [Tail::default(); MAX_CORES],
            reducer: R::default(),
            history: [CellHistory::default(); MAX_CELLS],
        }
    }
}

impl<R: Reducer> Recorder<R> {
    /// Starts a recording.
    pub fn begin<K>(
        &mut self,
        sizes: Sizes,
        cores: &[K],
        cells: &[u16],
        store: &mut [u8],
    ) -> Result<(), Refusal> {
        let session = sizes
            .settle(cores.len(), cells.len(), store.len())
            .ok_or(Refusal::BadSetting)?;
        for core in 0..session.cores {
            let log = session.log_mut(store, core);
            let head = records::head(core as u8, session.cores as u8, session.cells as u16);
            log[..HEAD_BYTES].copy_from_slice(&head);
            log[HEAD_BYTES..HEAD_BYTES + END_BYTES].copy_from_slice(&records::end(0, 0));
        }
        self.session = session;
        self.position = 0;
        self.tails = [EMPTY; MAX_CORES];
        self.reducer.reset();
        self.history[..session.cells].fill(CellHistory::default());
        Ok(())
    }

    /// One turn of a core. A refusal changes nothing.
    #[inline]
    pub fn turn<K: Core>(
        &mut self,
        text: &[u8],
        cores: &mut [K],
        cells: &mut [u16],
        store: &mut [u8],
        core: usize,
    ) -> Result<Recorded, Refusal> {
        let session = self.session;
        if !session.fits(cores.len(), cells.len(), store.len()) {
            return Err(Refusal::BadSetting);
        }
        if core >= session.cores {
            return Err(Refusal::NoSuchCore);
        }
        let state = &mut cores[core];
        let request = state.ask(text);
        let tail = &mut self.tails[core];
        let access = tail.admit(&session, request)?;
        let bytes = session.log_mut(store, core);
        let before = tail.arcs;
        self.position += 1;
        if let Some(access) = access {
            let history = &mut self.history[access.cell];
            let past = Past {
                position: self.position,
                count: tail.instructions + 1,
                core: core as u8,
                writes: access.writes,
            };
            log_arcs(
                tail,
                bytes,
                &mut self.reducer,
                history,
                session.cores,
                core,
                access,
            );
            history.remember(past);
            self.reducer.note(core, access);
        }
        tail.count(bytes);
        let number = request.act(cells);
        state.tell(text, number);
        Ok(Recorded {
            request,
            count: tail.instructions,
            number,
            arcs: tail.arcs - before,
        })
    }
}

/// Logs the arcs to an access of a core that are not known.
#[inline]
fn log_arcs<R: Reducer>(
    tail: &mut Tail,
    bytes: &mut [u8],
    reducer: &mut R,
    history: &CellHistory,
    cores: usize,
    core: usize,
    access: Access,
) {
    if access.writes {
        let (found, n) = history.of_others(cores, core);
        for &candidate in &found[..n] {
            tail.log_one(bytes, reducer, candidate, access.cell, core);
        }
    } else if let Some(candidate) = history.write_of_another(core) {
        tail.log_one(bytes, reducer, candidate, access.cell, core);
    }
}
