//! The replayer: open, step and run.

use crate::cores::{Core, Request};
use crate::logs::{Fault, Log, Next, Place, read_logs};
use crate::reducers::Source;
use crate::sizes::{MAX_CORES, Settled, Sizes};

/// Why an opening or a run does nothing.
#[derive(Clone, Copy, Debug, PartialEq, Eq)]
pub enum Refusal {
    BadSetting,
    LogFault(Fault),
}

/// Why a step does nothing.
#[derive(Clone, Copy, Debug)]
pub enum StepRefusal {
    NoSuchCore,
    Halted,
    NoSuchCell,
    Waits { core: u8, count: u16 },
    Replayed,
    BadSetting,
    LogFault(Fault),
}

/// An instruction that was carried out.
#[derive(Clone, Copy, Debug)]
pub struct Done {
    pub request: Request,
    pub count: u16,
    pub number: u16,
}

/// How a run ended, with the steps that it carried out.
#[derive(Clone, Copy, Debug)]
pub enum Ended {
    Finished(u32),
    Stopped(u32),
}

/// A replay of a session's logs.
#[derive(Clone, Copy)]
pub struct Replayer {
    session: Settled,
    counts: [u16; MAX_CORES],
    done: [u16; MAX_CORES],
    places: [Place; MAX_CORES],
}

impl Default for Replayer {
    fn default() -> Self {
        Replayer::start(Settled::default(), [0; MAX_CORES])
    }
}

impl Replayer {
    fn start(session: Settled, counts: [u16; MAX_CORES]) -> Self {
        Replayer {
            session,
            counts,
            done: [0; MAX_CORES],
            places: [Place::FRONT; MAX_CORES],
        }
    }

    /// Reads all logs; then a replay starts with nothing done. A refusal keeps the former replay.
    pub fn open<K>(
        &mut self,
        sizes: Sizes,
        cores: &[K],
        cells: &[u16],
        store: &[u8],
    ) -> Result<(), Refusal> {
        let session = sizes
            .settle(cores.len(), cells.len(), store.len())
            .ok_or(Refusal::BadSetting)?;
        let counts = read_logs(store, &session).map_err(Refusal::LogFault)?;
        *self = Replayer::start(session, counts);
        Ok(())
    }

    /// One step of a core. A refused or waiting step changes nothing.
    #[inline]
    pub fn step<K: Core>(
        &mut self,
        text: &[u8],
        cores: &mut [K],
        cells: &mut [u16],
        store: &[u8],
        core: usize,
    ) -> Result<Done, StepRefusal> {
        if !self.session.fits(cores.len(), cells.len(), store.len()) {
            return Err(StepRefusal::BadSetting);
        }
        if core >= self.session.cores {
            return Err(StepRefusal::NoSuchCore);
        }
        if self.done[core] >= self.counts[core] {
            return Err(StepRefusal::Replayed);
        }
        let place = self.pass_arcs(store, core)?;
        let request = cores[core].ask(text);
        if request == Request::Halt {
            return Err(StepRefusal::Halted);
        }
        if request
            .access()
            .is_some_and(|access| access.cell >= self.session.cells)
        {
            return Err(StepRefusal::NoSuchCell);
        }
        self.done[core] += 1;
        self.places[core] = place;
        let number = request.act(cells);
        cores[core].tell(text, number);
        Ok(Done {
            request,
            count: self.done[core],
            number,
        })
    }

    /// The place behind the arcs to the core's next instruction, where each one's source is done.
    #[inline]
    fn pass_arcs(&self, store: &[u8], core: usize) -> Result<Place, StepRefusal> {
        let log = Log::new(store, &self.session, core);
        let next = self.done[core] + 1;
        let mut place = self.places[core];
        let mut waits = None;
        while let Next::Arc { source, target } = log.next(&place).map_err(StepRefusal::LogFault)? {
            let Source { core: from, count } = source;
            let from = usize::from(from & 3);
            if count > self.counts[from] {
                return Err(StepRefusal::LogFault(log.fault(3, place.offset, 6)));
            }
            if target != next {
                break;
            }
            if waits.is_none() && self.done[from] < count {
                waits = Some(source);
            }
            place.pass(source, target);
        }
        match waits {
            Some(Source { core, count }) => Err(StepRefusal::Waits { core, count }),
            None => Ok(place),
        }
    }

    /// Steps of all cores in circles, until nothing is left or a whole circle carried nothing out.
    pub fn run<K: Core>(
        &mut self,
        text: &[u8],
        cores: &mut [K],
        cells: &mut [u16],
        store: &[u8],
    ) -> Result<Ended, Refusal> {
        if !self.session.fits(cores.len(), cells.len(), store.len()) {
            return Err(Refusal::BadSetting);
        }
        let left = |(count, done): (&u16, &u16)| u32::from(count.saturating_sub(*done));
        let total: u32 = self
            .counts
            .iter()
            .zip(&self.done)
            .take(self.session.cores)
            .map(left)
            .sum();
        let mut steps = 0;
        while steps < total {
            let before = steps;
            for core in 0..self.session.cores {
                steps += u32::from(self.step(text, cores, cells, store, core).is_ok());
            }
            if steps == before {
                return Ok(Ended::Stopped(steps));
            }
        }
        Ok(Ended::Finished(steps))
    }
}
