//! The records of a log, their bytes, and reading the logs of a session with all faults.

use crate::order::Instruction;
use crate::session::Setting;

/// An arc in the log of its target's core.
#[derive(Clone, Copy, Debug, PartialEq, Eq)]
pub struct Arc {
    pub source: Instruction,
    pub target_count: u16,
}

#[derive(Clone, Copy, Debug, PartialEq, Eq)]
pub enum Record {
    Head { core: u8, cores: u8, cells: u16 },
    Arc(Arc),
    End { instructions: u16, arcs: u16 },
}

impl Record {
    /// The head that the log of a core has to have.
    pub fn head_of(core: usize, setting: &Setting) -> Record {
        Record::Head {
            core: core as u8,
            cores: setting.cores as u8,
            cells: setting.cells as u16,
        }
    }

    pub fn bytes(&self) -> Vec<u8> {
        match *self {
            Record::Head { core, cores, cells } => {
                let [high, low] = cells.to_be_bytes();
                vec![0x48, 0x43, core, cores, high, low]
            }
            Record::Arc(arc) => {
                let [source_high, source_low] = arc.source.count.to_be_bytes();
                let [target_high, target_low] = arc.target_count.to_be_bytes();
                let core = arc.source.core as u8;
                vec![
                    0x41,
                    0x52,
                    core,
                    source_high,
                    source_low,
                    target_high,
                    target_low,
                ]
            }
            Record::End { instructions, arcs } => {
                let [high, low] = instructions.to_be_bytes();
                let [arcs_high, arcs_low] = arcs.to_be_bytes();
                vec![0x45, 0x44, high, low, arcs_high, arcs_low]
            }
        }
    }

    /// The record at the front of some bytes.
    fn at_front(bytes: &[u8]) -> Result<Record, Cause> {
        let &[mark_first, mark_second, ref fields @ ..] = bytes else {
            return Err(Cause::Cut);
        };
        match ([mark_first, mark_second], fields) {
            ([0x48, 0x43], &[core, cores, high, low, ..]) => Ok(Record::Head {
                core,
                cores,
                cells: u16::from_be_bytes([high, low]),
            }),
            ([0x41, 0x52], &[core, high, low, target_high, target_low, ..]) => {
                let count = u16::from_be_bytes([high, low]);
                Ok(Record::Arc(Arc {
                    source: Instruction {
                        core: usize::from(core),
                        count,
                    },
                    target_count: u16::from_be_bytes([target_high, target_low]),
                }))
            }
            ([0x45, 0x44], &[high, low, arcs_high, arcs_low, ..]) => Ok(Record::End {
                instructions: u16::from_be_bytes([high, low]),
                arcs: u16::from_be_bytes([arcs_high, arcs_low]),
            }),
            ([0x48, 0x43] | [0x41, 0x52] | [0x45, 0x44], _) => Err(Cause::Cut),
            _ => Err(Cause::NoMark),
        }
    }
}

#[derive(Clone, Copy, Debug, PartialEq, Eq)]
pub enum Cause {
    Cut,
    NoMark,
    HeadRule,
    ArcRule,
    EndRule,
    SourceCount,
}

impl Cause {
    pub fn number(self) -> usize {
        match self {
            Cause::Cut => 1,
            Cause::NoMark => 2,
            Cause::HeadRule => 3,
            Cause::ArcRule => 4,
            Cause::EndRule => 5,
            Cause::SourceCount => 6,
        }
    }

    /// 1 for bytes, 2 for records, 3 for the session.
    pub fn layer(self) -> usize {
        match self {
            Cause::Cut | Cause::NoMark => 1,
            Cause::HeadRule | Cause::ArcRule | Cause::EndRule => 2,
            Cause::SourceCount => 3,
        }
    }
}

/// The first rule that is broken: in the log of which core, at which record, and how.
#[derive(Clone, Copy, Debug, PartialEq, Eq)]
pub struct Fault {
    pub core: usize,
    pub offset: usize,
    pub cause: Cause,
}

/// How far a log has been read.
#[derive(Clone, Debug, PartialEq, Eq)]
pub enum Place {
    BeforeHead,
    /// Among the arcs, with the offset of the next record and all arcs before it.
    AmongArcs {
        offset: usize,
        arcs: Vec<Arc>,
    },
    AfterEnd,
}

/// A record and its offset in its log.
#[derive(Clone, Copy, Debug, PartialEq, Eq)]
pub struct Placed {
    pub offset: usize,
    pub record: Record,
}

/// Reads one log from a place on and holds each record to causes 1 to 5.
pub struct Reader<'a> {
    setting: Setting,
    core: usize,
    log: &'a [u8],
    pub place: Place,
}

impl<'a> Reader<'a> {
    pub fn new(setting: Setting, core: usize, store: &'a [u8], place: Place) -> Reader<'a> {
        Reader {
            setting,
            core,
            log: &store[setting.log_range(core)],
            place,
        }
    }

    /// The next record, or nothing after the end. With a fault the reader stays where it is.
    pub fn next_record(&mut self) -> Result<Option<Placed>, Fault> {
        let offset = match self.place {
            Place::BeforeHead => 0,
            Place::AmongArcs { offset, .. } => offset,
            Place::AfterEnd => return Ok(None),
        };
        let fault = |cause| Fault {
            core: self.core,
            offset,
            cause,
        };
        let record = Record::at_front(&self.log[offset..]).map_err(fault)?;
        let place = self.place_behind(offset, &record).map_err(fault)?;
        self.place = place;
        Ok(Some(Placed { offset, record }))
    }

    /// Where the reader stands behind a record, if the record keeps the rules.
    fn place_behind(&self, offset: usize, record: &Record) -> Result<Place, Cause> {
        let behind = offset + record.bytes().len();
        match (&self.place, record) {
            (Place::BeforeHead, head) => {
                if *head == Record::head_of(self.core, &self.setting) {
                    Ok(Place::AmongArcs {
                        offset: behind,
                        arcs: Vec::new(),
                    })
                } else {
                    Err(Cause::HeadRule)
                }
            }
            (Place::AmongArcs { arcs, .. }, Record::Arc(arc)) => {
                self.hold_arc(arc, arcs)?;
                let arcs = arcs.iter().chain([arc]).copied().collect();
                Ok(Place::AmongArcs {
                    offset: behind,
                    arcs,
                })
            }
            (
                Place::AmongArcs { arcs, .. },
                &Record::End {
                    instructions,
                    arcs: number,
                },
            ) => {
                let last_target = arcs.last().map_or(0, |arc| arc.target_count);
                if usize::from(number) == arcs.len() && instructions >= last_target {
                    Ok(Place::AfterEnd)
                } else {
                    Err(Cause::EndRule)
                }
            }
            (_, Record::Head { .. }) => Err(Cause::HeadRule),
            (Place::AfterEnd, _) => unreachable!("nothing is read after the end"),
        }
    }

    fn hold_arc(&self, arc: &Arc, earlier: &[Arc]) -> Result<(), Cause> {
        let source = arc.source;
        let lawful = source.core != self.core
            && source.core < self.setting.cores
            && source.count != 0
            && arc.target_count != 0
            && earlier
                .last()
                .is_none_or(|last| last.target_count <= arc.target_count)
            && !earlier.iter().any(|other| {
                other.target_count == arc.target_count && other.source.core == source.core
            });
        if lawful {
            Ok(())
        } else {
            Err(Cause::ArcRule)
        }
    }
}

/// What was read of the logs of a session, up to the first fault if there is one.
pub struct Reading {
    /// The records of each log that was begun.
    pub logs: Vec<Vec<Placed>>,
    pub fault: Option<Fault>,
}

impl Reading {
    /// The number of instructions that the end record of a log gives.
    pub fn instructions(&self, core: usize) -> u16 {
        let end = self.logs.get(core).and_then(|records| records.last());
        match end.map(|placed| placed.record) {
            Some(Record::End { instructions, .. }) => instructions,
            _ => 0,
        }
    }
}

/// Reads all logs of a store; the setting is in range and the store is long enough.
pub fn read_logs(setting: Setting, store: &[u8]) -> Reading {
    let mut reading = Reading {
        logs: Vec::new(),
        fault: None,
    };
    for core in 0..setting.cores {
        let (records, fault) = read_log(setting, core, store);
        reading.logs.push(records);
        if fault.is_some() {
            reading.fault = fault;
            return reading;
        }
    }
    reading.fault = first_source_above(&reading);
    reading
}

fn read_log(setting: Setting, core: usize, store: &[u8]) -> (Vec<Placed>, Option<Fault>) {
    let mut reader = Reader::new(setting, core, store, Place::BeforeHead);
    let mut records = Vec::new();
    loop {
        match reader.next_record() {
            Ok(Some(placed)) => records.push(placed),
            Ok(None) => return (records, None),
            Err(fault) => return (records, Some(fault)),
        }
    }
}

/// The first arc whose source count is above the instructions of its source core.
fn first_source_above(reading: &Reading) -> Option<Fault> {
    for (core, records) in reading.logs.iter().enumerate() {
        for placed in records {
            if let Record::Arc(Arc { source, .. }) = placed.record {
                if source.count > reading.instructions(source.core) {
                    return Some(Fault {
                        core,
                        offset: placed.offset,
                        cause: Cause::SourceCount,
                    });
                }
            }
        }
    }
    None
}
