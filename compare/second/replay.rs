//! The replayer: open, step and run over the bytes of the logs.

use crate::cores::{Core, Request, Text};
use crate::logs::{read_logs, Arc, Cause, Fault, Place, Placed, Reader, Record};
use crate::memory::{Carried, PlainMemory};
use crate::session::{Refusal, Setting};

pub struct Replayer {
    setting: Setting,
    recorded: Vec<u16>,
    places: Vec<Place>,
    pub memory: PlainMemory,
}

/// The answer of a run: whether nothing is left, and how many steps it carried out.
#[derive(Clone, Copy, Debug, PartialEq, Eq)]
pub enum RunAnswer {
    Finished(u32),
    Stopped(u32),
}

/// The arcs to the next instruction of a core, and the place behind them.
struct Group {
    arcs: Vec<Arc>,
    behind: Place,
}

impl Replayer {
    pub fn open(
        setting: Setting,
        cores: Vec<Core>,
        cells: Vec<u16>,
        store: &[u8],
    ) -> Result<Replayer, Refusal> {
        if !setting.fits(cores.len(), cells.len(), store.len()) {
            return Err(Refusal::BadSetting);
        }
        let reading = read_logs(setting, store);
        if let Some(fault) = reading.fault {
            return Err(Refusal::LogFault(fault));
        }
        let behind_head = Place::AmongArcs {
            offset: 6,
            arcs: Vec::new(),
        };
        Ok(Replayer {
            setting,
            recorded: (0..setting.cores)
                .map(|core| reading.instructions(core))
                .collect(),
            places: vec![behind_head; setting.cores],
            memory: PlainMemory::new(cells, cores),
        })
    }

    pub fn step(&mut self, text: &Text, store: &[u8], core: usize) -> Result<Carried, Refusal> {
        self.hold_to_setting(store)?;
        if core >= self.setting.cores {
            return Err(Refusal::NoSuchCore);
        }
        if self.memory.counts[core] >= self.recorded[core] {
            return Err(Refusal::Replayed);
        }
        let group = self.group(store, core).map_err(Refusal::LogFault)?;
        self.hold_to_sources(&group)?;
        let request = self.memory.cores[core].request(text);
        if request == Request::Halt {
            return Err(Refusal::Halted);
        }
        if request
            .access()
            .is_some_and(|access| usize::from(access.cell) >= self.setting.cells)
        {
            return Err(Refusal::NoSuchCell);
        }
        self.places[core] = group.behind;
        Ok(self.memory.carry_out(text, core))
    }

    fn hold_to_setting(&self, store: &[u8]) -> Result<(), Refusal> {
        if store.len() < self.setting.store_bytes() {
            return Err(Refusal::BadSetting);
        }
        Ok(())
    }

    /// Reads the log of a core up to the first record that is no arc to its next instruction.
    fn group(&self, store: &[u8], core: usize) -> Result<Group, Fault> {
        let next = self.memory.counts[core] + 1;
        let place = self.places[core].clone();
        let mut group = Group {
            arcs: Vec::new(),
            behind: place.clone(),
        };
        let mut reader = Reader::new(self.setting, core, store, place);
        while let Some(placed) = reader.next_record()? {
            self.hold_source_count(core, &placed)?;
            match placed.record {
                Record::Arc(arc) if arc.target_count == next => {
                    group.arcs.push(arc);
                    group.behind = reader.place.clone();
                }
                _ => break,
            }
        }
        Ok(group)
    }

    /// Cause 6, with the numbers of instructions found at opening.
    fn hold_source_count(&self, core: usize, placed: &Placed) -> Result<(), Fault> {
        match placed.record {
            Record::Arc(arc) if arc.source.count > self.recorded[arc.source.core] => Err(Fault {
                core,
                offset: placed.offset,
                cause: Cause::SourceCount,
            }),
            _ => Ok(()),
        }
    }

    fn hold_to_sources(&self, group: &Group) -> Result<(), Refusal> {
        let undone = group
            .arcs
            .iter()
            .map(|arc| arc.source)
            .find(|source| self.memory.counts[source.core] < source.count);
        match undone {
            Some(source) => Err(Refusal::Waits {
                source: source.core,
                count: source.count,
            }),
            None => Ok(()),
        }
    }

    fn nothing_left(&self) -> bool {
        self.memory
            .counts
            .iter()
            .zip(&self.recorded)
            .all(|(done, recorded)| done >= recorded)
    }

    pub fn run(&mut self, text: &Text, store: &[u8]) -> Result<RunAnswer, Refusal> {
        self.hold_to_setting(store)?;
        let mut steps = 0;
        while !self.nothing_left() {
            let mut carried_out = 0;
            for core in 0..self.setting.cores {
                if self.step(text, store, core).is_ok() {
                    carried_out += 1;
                }
            }
            if carried_out == 0 {
                return Ok(RunAnswer::Stopped(steps));
            }
            steps += carried_out;
        }
        Ok(RunAnswer::Finished(steps))
    }
}
