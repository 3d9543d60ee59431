//! Whether product and peer give the same answers, logs and cells.

use crate::logs::end_of;
use crate::random::Random;
use crate::scenarios::{Extent, Part};
use crate::sides::{Reduction, Session, Side};
use crate::workloads::{LOG_BYTES, Workload};

/// How many results were compared, and how many differ.
#[derive(Default)]
pub struct Comparison {
    pub compared: usize,
    pub different: usize,
}

impl Comparison {
    /// Compares what both sides make of something.
    fn same<T: PartialEq>(&mut self, what: impl FnOnce() -> String, of: impl FnMut(Side) -> T) {
        let [product, peer] = Side::BOTH.map(of);
        self.hold(what, product == peer);
    }

    fn hold(&mut self, what: impl FnOnce() -> String, same: bool) {
        self.compared += 1;
        if !same {
            self.different += 1;
            eprintln!("different: {}", what());
        }
    }
}

/// What a side leaves of a recording.
#[derive(PartialEq)]
struct Recorded {
    sum: u64,
    cells: Vec<u16>,
    store: Vec<u8>,
}

/// What a side leaves of a replay.
#[derive(PartialEq)]
struct Replayed {
    sum: u64,
    cells: Vec<u16>,
}

impl Workload {
    fn record_on(&self, side: Side, session: &Session, turns: &[u8]) -> Recorded {
        let mut cells = self.new_cells();
        let mut store = self.new_store();
        let sum = side.record(session, &self.text, &mut cells, &mut store, turns);
        Recorded { sum, cells, store }
    }

    fn replay_on(&self, side: Side, session: &Session, store: &[u8], steps: &[u8]) -> Replayed {
        let mut cells = self.new_cells();
        let sum = side.replay(session, &self.text, &mut cells, store, steps, true);
        Replayed { sum, cells }
    }
}

/// The turns with others among them that may be refused.
fn with_others(turns: &[u8], random: &mut Random) -> Vec<u8> {
    let mut all = vec![];
    for &core in turns {
        if random.below(16) == 0 {
            all.push(random.below(7) as u8);
        }
        all.push(core);
    }
    all
}

/// Some bytes of one log changed.
fn damaged(store: &[u8], random: &mut Random) -> Vec<u8> {
    let mut store = store.to_vec();
    let core = random.below(store.len() / LOG_BYTES);
    let log = &mut store[core * LOG_BYTES..][..LOG_BYTES];
    let bytes = end_of(log).bytes;
    for _ in 0..=random.below(2) {
        let byte = &mut log[random.below(bytes)];
        if random.below(2) == 0 {
            *byte ^= 1 << random.below(8);
        } else {
            *byte = random.number() as u8;
        }
    }
    store
}

/// A workload recorded, replayed in any order of steps, and replayed from so many damaged stores.
fn compare_workload(
    comparison: &mut Comparison,
    workload: &Workload,
    reduction: Reduction,
    turns: &[u8],
    damages: usize,
    random: &mut Random,
) {
    let title = || format!("{}, {}", workload.title(), reduction.name());
    let session = &workload.session(reduction);
    comparison.same(title, |side| workload.record_on(side, session, turns));
    let recorded = workload.record_on(Side::Peer, session, turns);
    let steps: Vec<u8> = (0..5000)
        .map(|_| random.below(workload.cores + 1) as u8)
        .collect();
    let replay = |side| workload.replay_on(side, session, &recorded.store, &steps);
    comparison.same(|| format!("{}, replayed", title()), replay);
    let cells = workload
        .replay_on(Side::Product, session, &recorded.store, &steps)
        .cells;
    comparison.hold(
        || format!("{}, cells replayed", title()),
        cells == recorded.cells,
    );
    for n in 0..damages {
        let store = damaged(&recorded.store, random);
        let what = || format!("{}, damaged store {n}", title());
        comparison.same(what, |side| side.open(session, &recorded.cells, &store));
        comparison.same(what, |side| {
            workload.replay_on(side, session, &store, &steps)
        });
    }
}

/// Sizes at their bounds and past them, over buffers that are long enough or too short.
fn compare_settings(comparison: &mut Comparison, workload: &Workload, store: &[u8]) {
    let bounds = [
        [0, 1, 4, 5, usize::MAX],
        [0, 1, 256, 257, usize::MAX],
        [11, 12, 16384, 16385, usize::MAX],
    ];
    for cores in bounds[0] {
        for cells in bounds[1] {
            for log_bytes in bounds[2] {
                let session = workload.session(Reduction::Exact);
                let session = &Session {
                    cores,
                    cells,
                    log_bytes,
                    ..session
                };
                let what = || format!("{cores} cores, {cells} cells, logs of {log_bytes} bytes");
                for (cell_count, bytes) in [(256, 65536), (255, 65536), (256, 65535), (0, 0)] {
                    comparison.same(what, |side| {
                        let mut cells = vec![0; cell_count];
                        let mut store = store[..bytes].to_vec();
                        let opened = side.open(session, &cells, &store);
                        let text = &workload.text;
                        let sum = side.record(session, text, &mut cells, &mut store, &[0, 3, 0, 1]);
                        (opened, sum, cells, store)
                    });
                }
            }
        }
    }
}

/// Compares all of an extent: each workload with each reducer, all turns accepted and with refused
/// ones among them; each scenario that is measured; and settings.
pub fn compare(extent: &Extent, damages: usize) -> Comparison {
    let mut comparison = Comparison::default();
    let mut random = Random::new(99);
    for workload in &extent.workloads {
        for reduction in Reduction::ALL {
            let turns = workload.recorded(reduction, extent.turns).turns;
            let others = with_others(&turns, &mut random);
            for turns in [turns, others] {
                compare_workload(
                    &mut comparison,
                    workload,
                    reduction,
                    &turns,
                    damages,
                    &mut random,
                );
            }
        }
    }
    extent.visit(&mut |mut scenario| {
        let title = scenario.title.clone();
        comparison.same(|| title, |side| scenario.perform(side, Part::Whole));
    });
    let workload = crate::workloads::random(4, 256);
    let store = workload.recorded(Reduction::Exact, 1000).store;
    compare_settings(&mut comparison, &workload, &store);
    comparison
}
