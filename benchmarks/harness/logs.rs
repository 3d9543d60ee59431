//! How much the reducers log.

use crate::programs;
use crate::sides::{Reduction, Side};
use crate::workloads::{self, LOG_BYTES, Schedule, Workload};

/// What a log says at its end.
pub struct End {
    /// Its bytes, up to the end of the end record.
    pub bytes: usize,
    pub arcs: usize,
}

/// The end of a whole log.
pub fn end_of(log: &[u8]) -> End {
    const HEAD: usize = 6;
    const ARC: usize = 7;
    const END: usize = 6;
    let arcs = log[HEAD..]
        .chunks(ARC)
        .take_while(|record| record.starts_with(b"AR"))
        .count();
    End {
        bytes: HEAD + ARC * arcs + END,
        arcs,
    }
}

/// The ends of all logs of a store, together.
pub fn ends_of(store: &[u8]) -> End {
    let ends = store.chunks(LOG_BYTES).map(end_of);
    ends.fold(End { bytes: 0, arcs: 0 }, |sum, end| End {
        bytes: sum.bytes + end.bytes,
        arcs: sum.arcs + end.arcs,
    })
}

/// What the product logs of a workload with each reducer, all over the same turns.
pub struct Logged {
    pub title: String,
    pub instructions: usize,
    pub ends: [End; 3],
}

fn logged(workload: &Workload) -> Logged {
    // keep-all is the first to find a log full
    let turns = workload.recorded(Reduction::KeepAll, usize::MAX).turns;
    let ends = Reduction::ALL.map(|reduction| {
        let mut store = workload.new_store();
        let session = workload.session(reduction);
        let cells = &mut workload.new_cells();
        Side::Product.record(&session, &workload.text, cells, &mut store, &turns);
        ends_of(&store)
    });
    let order = match workload.schedule {
        Schedule::AnyCore => "any core each turn",
        Schedule::Bursts => "bursts of up to 128",
        Schedule::RoundRobin => "one after another",
        Schedule::CoreByCore => "core by core",
    };
    let title = format!("{}, {} cores, {order}", workload.name, workload.cores);
    Logged {
        title,
        instructions: turns.len(),
        ends,
    }
}

/// One workload of each kind, in its own order of turns and then in bursts.
pub fn all_logged() -> Vec<Logged> {
    let mut own = workloads::one_of_each();
    own.push(programs::private(4));
    let bursts = own.iter().map(|w| Workload {
        schedule: Schedule::Bursts,
        ..w.clone()
    });
    own.iter()
        .cloned()
        .chain(bursts)
        .map(|w| logged(&w))
        .collect()
}
