//! The product beside itself and beside the same cores with no recorder: whether a call costs the
//! same after a long history, and what recording and replaying cost.

use crate::clock::Moment;
use crate::plain;
use crate::programs;
use crate::sides::{Reduction, Session, Side};
use crate::timing::{Effort, in_pairs};
use crate::workloads::{self, Recording, Workload};
use std::hint::black_box;

/// Ratios of one kind, each with the title of its case.
pub struct Comparison {
    pub name: &'static str,
    pub ratios: Vec<(String, f64)>,
}

/// A workload that was recorded, and room to record and replay it again.
struct Case<'a> {
    workload: &'a Workload,
    session: Session,
    recording: Recording,
    cells: Vec<u16>,
    store: Vec<u8>,
}

impl<'a> Case<'a> {
    fn new(workload: &'a Workload, reduction: Reduction, most: usize) -> Self {
        Case {
            workload,
            session: workload.session(reduction),
            recording: workload.recorded(reduction, most),
            cells: workload.new_cells(),
            store: workload.new_store(),
        }
    }

    fn title(&self) -> String {
        format!(
            "{}, {}",
            self.workload.title(),
            self.session.reduction.name()
        )
    }

    /// Nanoseconds of some work, from cells at 0.
    fn time(&mut self, work: impl FnOnce(&mut Self) -> u64) -> f64 {
        self.cells.fill(0);
        let start = Moment::now();
        black_box(work(self));
        start.elapsed()
    }

    /// The first so many turns by the product, behind begin.
    fn turns(&mut self, count: usize) -> f64 {
        self.time(|case| {
            let Case {
                workload,
                session,
                recording,
                cells,
                store,
            } = case;
            let turns = &recording.turns[..count];
            Side::Product.record(session, &workload.text, cells, store, turns)
        })
    }

    /// The first so many steps by the product, behind the opening, or a run.
    fn steps(&mut self, count: usize, runs: bool) -> f64 {
        self.time(|case| {
            let Case {
                workload,
                session,
                recording,
                cells,
                ..
            } = case;
            let steps = &recording.turns[..count];
            Side::Product.replay(
                session,
                &workload.text,
                cells,
                &recording.store,
                steps,
                runs,
            )
        })
    }

    /// The instructions with no recorder.
    fn execution(&mut self) -> f64 {
        self.time(|case| {
            let Case {
                workload,
                session,
                recording,
                cells,
                ..
            } = case;
            plain::execute(session, &workload.text, cells, &recording.turns)
        })
    }
}

/// How many calls each of the two parts has that are compared.
const PART: usize = 100_000;

/// Of turns and of steps: the second 100,000 beside the first, for workloads whose logs take so
/// many instructions.
fn flatness(effort: Effort) -> [Comparison; 2] {
    let mut of_turns = vec![];
    let mut of_steps = vec![];
    for workload in [
        workloads::local(4, 256),
        programs::private(4),
        programs::spin(4),
    ] {
        for reduction in Reduction::ALL {
            let mut case = Case::new(&workload, reduction, 2 * PART);
            if case.recording.turns.len() < 2 * PART {
                continue;
            }
            let turns = in_pairs(effort.pairs, |part| match part {
                0 => case.turns(2 * PART) - case.turns(PART),
                _ => case.turns(PART) - case.turns(0),
            });
            let steps = in_pairs(effort.pairs, |part| match part {
                0 => case.steps(2 * PART, false) - case.steps(PART, false),
                _ => case.steps(PART, false) - case.steps(0, false),
            });
            of_turns.push((case.title(), turns.ratio));
            of_steps.push((case.title(), steps.ratio));
        }
    }
    [
        Comparison {
            name: "turn behind 100,000 others / one of the first 100,000, product",
            ratios: of_turns,
        },
        Comparison {
            name: "step behind 100,000 others / one of the first 100,000, product",
            ratios: of_steps,
        },
    ]
}

/// Recording beside plain execution, and a run beside recording.
fn costs(effort: Effort) -> [Comparison; 2] {
    let mut of_recording = vec![];
    let mut of_running = vec![];
    for workload in workloads::one_of_each() {
        for reduction in Reduction::ALL {
            let mut case = Case::new(&workload, reduction, PART);
            let recording = in_pairs(effort.pairs, |thing| match thing {
                0 => case.turns(case.recording.turns.len()) - case.turns(0),
                _ => case.execution(),
            });
            let running = in_pairs(effort.pairs, |thing| match thing {
                0 => case.steps(0, true) - case.steps(0, false),
                _ => case.turns(case.recording.turns.len()) - case.turns(0),
            });
            of_recording.push((case.title(), recording.ratio));
            of_running.push((case.title(), running.ratio));
        }
    }
    [
        Comparison {
            name: "turn, product / the instruction with no recorder",
            ratios: of_recording,
        },
        Comparison {
            name: "run, for each step / turn, product",
            ratios: of_running,
        },
    ]
}

pub fn all(effort: Effort) -> Vec<Comparison> {
    flatness(effort).into_iter().chain(costs(effort)).collect()
}
