//! The recorder: begin and turn, with the arcs of the three reducers by their definitions.

use crate::cores::{Core, Request, Text};
use crate::logs::{Arc, Record};
use crate::memory::{Carried, PlainMemory};
use crate::order::{Instruction, Run};
use crate::session::{Reducer, Refusal, Session, Setting};

const HEAD_BYTES: usize = 6;
const ARC_BYTES: usize = 7;
const END_BYTES: usize = 6;

pub struct Recorder {
    setting: Setting,
    reducer: Reducer,
    run: Run,
    /// The arcs in the log of each core.
    logged: Vec<Vec<Arc>>,
    pub memory: PlainMemory,
    pub store: Vec<u8>,
}

/// The answer of an accepted turn.
#[derive(Clone, Copy, Debug, PartialEq, Eq)]
pub struct Turned {
    pub carried: Carried,
    pub arcs: usize,
}

impl Recorder {
    pub fn begin(
        setting: Setting,
        reducer: Reducer,
        cores: Vec<Core>,
        cells: Vec<u16>,
        store: Vec<u8>,
    ) -> Result<Recorder, Refusal> {
        if !setting.fits(cores.len(), cells.len(), store.len()) {
            return Err(Refusal::BadSetting);
        }
        let mut recorder = Recorder {
            setting,
            reducer,
            run: Run::default(),
            logged: vec![Vec::new(); setting.cores],
            memory: PlainMemory::new(cells, cores),
            store,
        };
        for core in 0..setting.cores {
            recorder.write(core, 0, Record::head_of(core, &setting));
            recorder.write_end(core);
        }
        Ok(recorder)
    }

    pub fn turn(&mut self, text: &Text, core: usize) -> Result<Turned, Refusal> {
        if core >= self.setting.cores {
            return Err(Refusal::NoSuchCore);
        }
        let request = self.memory.cores[core].request(text);
        self.hold_to_rules(core, request)?;

        let instruction = Instruction {
            core,
            count: self.memory.counts[core] + 1,
        };
        let place = self.run.add(instruction, request.access());
        let arcs = self.arcs_to(place);
        self.append(core, &arcs);
        let carried = self.memory.carry_out(text, core);
        self.write_end(core);
        Ok(Turned {
            carried,
            arcs: arcs.len(),
        })
    }

    /// Refusals 2 to 5, in this order.
    fn hold_to_rules(&self, core: usize, request: Request) -> Result<(), Refusal> {
        if request == Request::Halt {
            return Err(Refusal::Halted);
        }
        if self.memory.counts[core] == u16::MAX {
            return Err(Refusal::CountSpent);
        }
        let Some(access) = request.access() else {
            return Ok(());
        };
        if usize::from(access.cell) >= self.setting.cells {
            return Err(Refusal::NoSuchCell);
        }
        let behind_end = self.setting.log_bytes - self.end_offset(core) - END_BYTES;
        if behind_end < ARC_BYTES * (self.setting.cores - 1) {
            return Err(Refusal::LogFull);
        }
        Ok(())
    }

    /// The arcs to the instruction at a place, in the order in which they are logged.
    fn arcs_to(&self, place: usize) -> Vec<Arc> {
        let target = self.run.instruction(place);
        let sources = match self.reducer {
            Reducer::KeepAll | Reducer::Pairwise => self.run.candidates(place),
            Reducer::Exact => self.run.reduction_to(place),
        };
        sources
            .into_iter()
            .map(|source| self.run.instruction(source))
            .filter(|source| self.reducer != Reducer::Pairwise || self.above_all(source, &target))
            .map(|source| Arc {
                source,
                target_count: target.count,
            })
            .collect()
    }

    /// Whether a source's count is above every count logged from its core to the target's core.
    fn above_all(&self, source: &Instruction, target: &Instruction) -> bool {
        self.logged[target.core]
            .iter()
            .filter(|arc| arc.source.core == source.core)
            .all(|arc| arc.source.count < source.count)
    }

    fn append(&mut self, core: usize, arcs: &[Arc]) {
        for &arc in arcs {
            self.write(core, self.end_offset(core), Record::Arc(arc));
            self.logged[core].push(arc);
        }
    }

    fn end_offset(&self, core: usize) -> usize {
        HEAD_BYTES + ARC_BYTES * self.logged[core].len()
    }

    fn write_end(&mut self, core: usize) {
        let end = Record::End {
            instructions: self.memory.counts[core],
            arcs: self.logged[core].len() as u16,
        };
        self.write(core, self.end_offset(core), end);
    }

    fn write(&mut self, core: usize, offset: usize, record: Record) {
        let bytes = record.bytes();
        let first = self.setting.log_range(core).start + offset;
        self.store[first..first + bytes.len()].copy_from_slice(&bytes);
    }

    pub fn arcs(&self) -> &[Vec<Arc>] {
        &self.logged
    }
}

/// A recorded session: the recorder behind the last turn, and how the turns were answered.
pub struct Recording {
    pub recorder: Recorder,
    pub accepted: u32,
    /// How many turns were refused with each number.
    pub refused: [u32; 10],
}

pub fn record(session: &Session, log_bytes: usize, store: Vec<u8>) -> Result<Recording, Refusal> {
    let text = session.text();
    let mut recorder = Recorder::begin(
        session.setting(log_bytes),
        session.reducer,
        session.starting_cores(),
        session.starting_cells(),
        store,
    )?;
    let mut accepted = 0;
    let mut refused = [0; 10];
    for &core in &session.turns {
        match recorder.turn(&text, usize::from(core)) {
            Ok(_) => accepted += 1,
            Err(refusal) => refused[refusal.number()] += 1,
        }
    }
    Ok(Recording {
        recorder,
        accepted,
        refused,
    })
}
