//! Reading logs.

use crate::records::{ARC_BYTES, HEAD_BYTES};
use crate::reducers::Source;
use crate::sizes::{MAX_CORES, Settled};

/// What is wrong with a log: the layer at which it shows, the log's core, the record's offset, and
/// the cause.
#[derive(Clone, Copy, Debug, PartialEq, Eq)]
pub struct Fault {
    pub layer: u8,
    pub core: u8,
    pub offset: usize,
    pub cause: u8,
}

/// A place among the arcs of a log: the last target, each source core's latest target, and the arcs
/// before it, counted up to 65,536.
#[derive(Clone, Copy)]
pub(crate) struct Place {
    pub offset: usize,
    last: u16,
    latest: [u16; MAX_CORES],
    arcs: u32,
}

impl Place {
    /// Behind the head.
    pub const FRONT: Place = Place {
        offset: HEAD_BYTES,
        last: 0,
        latest: [0; MAX_CORES],
        arcs: 0,
    };

    /// Behind an arc that stands here.
    #[inline]
    pub fn pass(&mut self, source: Source, target: u16) {
        self.offset += ARC_BYTES;
        self.last = target;
        self.latest[usize::from(source.core & 3)] = target;
        self.arcs = self.arcs.min(u16::MAX.into()) + 1;
    }
}

/// A record behind the head.
pub(crate) enum Next {
    Arc { source: Source, target: u16 },
    End { instructions: u16 },
}

/// One log: its bytes, its core, and how many cores there are.
#[derive(Clone, Copy)]
pub(crate) struct Log<'a> {
    bytes: &'a [u8],
    core: u8,
    cores: u8,
}

impl<'a> Log<'a> {
    #[inline]
    pub fn new(store: &'a [u8], session: &Settled, core: usize) -> Self {
        Log {
            bytes: session.log(store, core),
            core: core as u8,
            cores: session.cores as u8,
        }
    }

    #[inline]
    pub fn fault(&self, layer: u8, offset: usize, cause: u8) -> Fault {
        Fault {
            layer,
            core: self.core,
            offset,
            cause,
        }
    }

    /// What is wrong where no record stands that may stand there.
    #[cold]
    fn bad_record(&self, offset: usize) -> Fault {
        match &self.bytes[offset.min(self.bytes.len())..] {
            [b'H', b'C', _, _, _, _, ..] => self.fault(2, offset, 3),
            [] | [_] | [b'H', b'C', ..] | [b'A', b'R', ..] | [b'E', b'D', ..] => {
                self.fault(1, offset, 1)
            }
            _ => self.fault(1, offset, 2),
        }
    }

    fn head(&self, cells: usize) -> Result<(), Fault> {
        match self.bytes {
            [b'H', b'C', core, cores, high, low, ..]
                if (*core, *cores) == (self.core, self.cores)
                    && usize::from(u16::from_be_bytes([*high, *low])) == cells =>
            {
                Ok(())
            }
            [b'H', b'C', _, _, _, _, ..]
            | [b'A', b'R', _, _, _, _, _, ..]
            | [b'E', b'D', _, _, _, _, ..] => Err(self.fault(2, 0, 3)),
            _ => Err(self.bad_record(0)),
        }
    }

    /// Whether an arc may stand at the place.
    #[inline]
    fn arc_stands(&self, place: &Place, source: Source, target: u16) -> bool {
        source.core < self.cores
            && source.core != self.core
            && source.count != 0
            && target != 0
            && place.last <= target
            && place.latest[usize::from(source.core & 3)] != target
    }

    /// The record at the place, if it may stand there.
    #[inline]
    pub fn next(&self, place: &Place) -> Result<Next, Fault> {
        let at = place.offset;
        match &self.bytes[at.min(self.bytes.len())..] {
            [b'A', b'R', core, a, b, c, d, ..] => {
                let source = Source {
                    core: *core,
                    count: u16::from_be_bytes([*a, *b]),
                };
                let target = u16::from_be_bytes([*c, *d]);
                if self.arc_stands(place, source, target) {
                    Ok(Next::Arc { source, target })
                } else {
                    Err(self.fault(2, at, 4))
                }
            }
            [b'E', b'D', a, b, c, d, ..] => {
                let instructions = u16::from_be_bytes([*a, *b]);
                let arcs = u16::from_be_bytes([*c, *d]);
                if u32::from(arcs) == place.arcs && place.last <= instructions {
                    Ok(Next::End { instructions })
                } else {
                    Err(self.fault(2, at, 5))
                }
            }
            _ => Err(self.bad_record(at)),
        }
    }
}

/// The instructions of each core, where all logs may stand.
pub(crate) fn read_logs(store: &[u8], session: &Settled) -> Result<[u16; MAX_CORES], Fault> {
    let mut counts = [0; MAX_CORES];
    // the largest count that any arc names of each source core
    let mut named = [0; MAX_CORES];
    for core in 0..session.cores {
        counts[core] = read_log(&Log::new(store, session, core), session.cells, &mut named)?;
    }
    if named
        .iter()
        .zip(&counts)
        .all(|(named, count)| named <= count)
    {
        return Ok(counts);
    }
    for core in 0..session.cores {
        hold_sources(&Log::new(store, session, core), &counts)?;
    }
    Ok(counts)
}

/// The instructions of a log's core.
#[inline]
fn read_log(log: &Log, cells: usize, named: &mut [u16; MAX_CORES]) -> Result<u16, Fault> {
    log.head(cells)?;
    let mut place = Place::FRONT;
    loop {
        match log.next(&place)? {
            Next::Arc { source, target } => {
                let named = &mut named[usize::from(source.core & 3)];
                *named = source.count.max(*named);
                place.pass(source, target);
            }
            Next::End { instructions } => return Ok(instructions),
        }
    }
}

/// Finds an arc whose source its core has not.
fn hold_sources(log: &Log, counts: &[u16; MAX_CORES]) -> Result<(), Fault> {
    let mut place = Place::FRONT;
    while let Next::Arc { source, target } = log.next(&place)? {
        if source.count > counts[usize::from(source.core & 3)] {
            return Err(log.fault(3, place.offset, 6));
        }
        place.pass(source, target);
    }
    Ok(())
}
