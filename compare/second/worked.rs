//! Tests: the worked runs, boundary cases and examples of the specification.

use crate::bench::answer;
use crate::cores::{Item, Kind, Request, Text};
use crate::inspect::listing;
use crate::logs::{read_logs, Arc, Cause, Fault, Record};
use crate::order::Instruction;
use crate::recorder::{record, Recorder};
use crate::replay::{Replayer, RunAnswer};
use crate::session::{Reducer, Refusal, Session, Setting};

const HALT: Item = [255, 0, 0, 0];

/// A session of script cores, each with its own items, that begins with cells at 0.
fn scripts(cells: usize, reducer: Reducer, scripts: &[&[Item]], turns: &[u16]) -> Session {
    let mut items = Vec::new();
    let mut starts = Vec::new();
    for script in scripts {
        starts.push(items.len() as u16);
        items.extend_from_slice(script);
        items.push(HALT);
    }
    Session {
        kind: Kind::Script,
        reducer,
        cells,
        items,
        starts,
        turns: turns.to_vec(),
    }
}

fn run_1(reducer: Reducer) -> Session {
    scripts(
        2,
        reducer,
        &[
            &[[2, 0, 0, 7]],
            &[[1, 0, 0, 0], [2, 1, 0, 9]],
            &[[1, 1, 0, 0], [2, 0, 0, 4]],
        ],
        &[0, 1, 1, 2, 2],
    )
}

fn recorded(session: &Session, log_bytes: usize) -> Recorder {
    let store = vec![0xee; session.starts.len() * log_bytes];
    record(session, log_bytes, store).unwrap().recorder
}

/// The arcs of a recording: source core, source count, target core, target count.
fn arcs(recorder: &Recorder) -> Vec<(usize, u16, usize, u16)> {
    let logs = recorder.arcs().iter().enumerate();
    logs.flat_map(|(core, arcs)| {
        arcs.iter()
            .map(move |arc| (arc.source.core, arc.source.count, core, arc.target_count))
    })
    .collect()
}

fn log(recorder: &Recorder, log_bytes: usize, core: usize, length: usize) -> &[u8] {
    &recorder.store[core * log_bytes..core * log_bytes + length]
}

#[test]
fn run_1_exact() {
    let session = run_1(Reducer::Exact);
    let recorder = recorded(&session, 40);
    assert_eq!(arcs(&recorder), [(0, 1, 1, 1), (1, 2, 2, 1)]);
    assert_eq!(recorder.memory.cells, [4, 9]);
    let core_0 = [0x48, 0x43, 0, 3, 0, 2, 0x45, 0x44, 0, 1, 0, 0];
    let core_1 = [
        0x48, 0x43, 1, 3, 0, 2, 0x41, 0x52, 0, 0, 1, 0, 1, 0x45, 0x44, 0, 2, 0, 1,
    ];
    let core_2 = [
        0x48, 0x43, 2, 3, 0, 2, 0x41, 0x52, 1, 0, 2, 0, 1, 0x45, 0x44, 0, 2, 0, 1,
    ];
    assert_eq!(log(&recorder, 40, 0, 13), [&core_0[..], &[0xee]].concat());
    assert_eq!(log(&recorder, 40, 1, 20), [&core_1[..], &[0xee]].concat());
    assert_eq!(log(&recorder, 40, 2, 20), [&core_2[..], &[0xee]].concat());
}

#[test]
fn run_1_needs_33_bytes() {
    let session = run_1(Reducer::Exact);
    let accepted = |log_bytes| {
        record(&session, log_bytes, vec![0; 3 * log_bytes]).map(|it| (it.accepted, it.refused[5]))
    };
    assert_eq!(accepted(33), Ok((5, 0)));
    assert_eq!(accepted(32), Ok((4, 1)));
}

#[test]
fn run_2_pairwise() {
    let recorder = recorded(&run_1(Reducer::Pairwise), 60);
    assert_eq!(arcs(&recorder), [(0, 1, 1, 1), (1, 2, 2, 1), (0, 1, 2, 2)]);
    let core_2 = [
        0x48, 0x43, 2, 3, 0, 2, 0x41, 0x52, 1, 0, 2, 0, 1, 0x41, 0x52, 0, 0, 1, 0, 2, 0x45, 0x44,
        0, 2, 0, 2,
    ];
    assert_eq!(log(&recorder, 60, 2, 26), core_2);
}

#[test]
fn run_3_keep_all() {
    let recorder = recorded(&run_1(Reducer::KeepAll), 60);
    assert_eq!(
        arcs(&recorder),
        [(0, 1, 1, 1), (1, 2, 2, 1), (1, 1, 2, 2), (0, 1, 2, 2)]
    );
    let core_2 = [
        0x48, 0x43, 2, 3, 0, 2, 0x41, 0x52, 1, 0, 2, 0, 1, 0x41, 0x52, 1, 0, 1, 0, 2, 0x41, 0x52,
        0, 0, 1, 0, 2, 0x45, 0x44, 0, 2, 0, 3,
    ];
    assert_eq!(log(&recorder, 60, 2, 33), core_2);
}

fn opened(session: &Session, log_bytes: usize, store: &[u8]) -> Replayer {
    let setting = session.setting(log_bytes);
    Replayer::open(
        setting,
        session.starting_cores(),
        session.starting_cells(),
        store,
    )
    .unwrap()
}

#[test]
fn run_5_a_wait() {
    let session = run_1(Reducer::Exact);
    let text = session.text();
    let recorder = recorded(&session, 40);
    let mut replayer = opened(&session, 40, &recorder.store);
    let wait = Refusal::Waits {
        source: 1,
        count: 2,
    };
    assert_eq!(replayer.step(&text, &recorder.store, 2), Err(wait));
    assert_eq!(
        replayer.run(&text, &recorder.store),
        Ok(RunAnswer::Finished(5))
    );
    assert_eq!(replayer.memory, recorder.memory);
    assert_eq!(
        replayer.run(&text, &recorder.store),
        Ok(RunAnswer::Finished(0))
    );
    assert_eq!(
        replayer.step(&text, &recorder.store, 2),
        Err(Refusal::Replayed)
    );
    assert_eq!(
        replayer.step(&text, &recorder.store, 3),
        Err(Refusal::NoSuchCore)
    );
}

#[test]
fn run_6_stamp_of_a_read() {
    let session = scripts(
        2,
        Reducer::Exact,
        &[
            &[[1, 0, 0, 0], [2, 1, 0, 5]],
            &[[1, 1, 0, 0], [1, 0, 0, 0]],
            &[[2, 0, 0, 6]],
        ],
        &[0, 0, 1, 1, 2],
    );
    assert_eq!(arcs(&recorded(&session, 60)), [(0, 2, 1, 1), (1, 2, 2, 1)]);
}

#[test]
fn run_7_wrote_and_then_read() {
    let session = scripts(
        1,
        Reducer::Exact,
        &[&[[2, 0, 0, 5], [1, 0, 0, 0]], &[[1, 0, 0, 0], [2, 0, 0, 6]]],
        &[0, 0, 1, 1],
    );
    assert_eq!(arcs(&recorded(&session, 60)), [(0, 1, 1, 1), (0, 2, 1, 2)]);
}

#[test]
fn run_8_the_least_log() {
    let session = scripts(1, Reducer::Exact, &[&[[2, 0, 0, 5]], &[], &[]], &[0]);
    let refused = |log_bytes| {
        record(&session, log_bytes, vec![0; 3 * log_bytes]).map(|it| (it.accepted, it.refused[5]))
    };
    assert_eq!(refused(26), Ok((1, 0)));
    assert_eq!(refused(25), Ok((0, 1)));
    assert_eq!(refused(11), Err(Refusal::BadSetting));
}

#[test]
fn current_knowledge_is_not_handed_on() {
    let session = scripts(
        2,
        Reducer::Exact,
        &[
            &[[2, 0, 0, 7], [1, 1, 0, 0]],
            &[[2, 1, 0, 9]],
            &[[1, 0, 0, 0], [1, 1, 0, 0]],
        ],
        &[0, 1, 0, 2, 2],
    );
    assert_eq!(
        arcs(&recorded(&session, 60)),
        [(1, 1, 0, 2), (0, 1, 2, 1), (1, 1, 2, 2)]
    );
}

#[test]
fn the_65_535th_instruction_is_the_last() {
    let jump_to_itself = Text::of_items(&[[7, 0, 0, 0]]);
    let setting = Setting {
        cores: 1,
        cells: 1,
        log_bytes: 12,
    };
    let cores = vec![Kind::Register.core_at(0)];
    let mut recorder =
        Recorder::begin(setting, Reducer::Exact, cores, vec![0], vec![0; 12]).unwrap();
    recorder.memory.counts[0] = 65_534;
    assert_eq!(
        recorder.turn(&jump_to_itself, 0).unwrap().carried.count,
        65_535
    );
    assert_eq!(recorder.turn(&jump_to_itself, 0), Err(Refusal::CountSpent));
    assert_eq!(recorder.turn(&jump_to_itself, 1), Err(Refusal::NoSuchCore));
    assert_eq!(recorder.turn(&Text::of_items(&[]), 0), Err(Refusal::Halted));
}

#[test]
fn register_cores_wrap_and_jump() {
    let text = Text::of_items(&[
        [4, 9, 255, 255], // r1 := 65,535
        [4, 2, 1, 2],     // r2 := 258
        [5, 3, 1, 2],     // r3 := 257
        [6, 4, 3, 2],     // r4 := 65,535
        [2, 2, 1, 255],   // write of 258 to cell (65,535 + 255) modulo 256
        [7, 0, 255, 255], // past the items
    ]);
    let mut core = Kind::Register.core_at(0);
    for _ in 0..4 {
        assert_eq!(core.request(&text), Request::Local);
        core = core.after(&text, 0);
    }
    assert_eq!(
        core.request(&text),
        Request::Write {
            cell: 254,
            number: 258
        }
    );
    core = core.after(&text, 0).after(&text, 0);
    assert_eq!(core.request(&text), Request::Halt);
    assert_eq!(core.after(&text, 7), core);
}

#[test]
fn places_past_the_items_halt() {
    let text = Text::of_bytes(&[0; 4 * 65_537 + 3]);
    assert_eq!(Kind::Script.core_at(65_534).request(&text), Request::Local);
    assert_eq!(Kind::Script.core_at(65_535).request(&text), Request::Halt);
    assert_eq!(
        Kind::Script.core_at(1).request(&Text::of_bytes(&[0; 7])),
        Request::Halt
    );
}

const SETTING: Setting = Setting {
    cores: 2,
    cells: 2,
    log_bytes: 40,
};

fn head(core: u8) -> Record {
    Record::Head {
        core,
        cores: 2,
        cells: 2,
    }
}

fn arc(source: usize, count: u16, target_count: u16) -> Record {
    Record::Arc(Arc {
        source: Instruction {
            core: source,
            count,
        },
        target_count,
    })
}

fn end(instructions: u16, arcs: u16) -> Record {
    Record::End { instructions, arcs }
}

/// A store of two logs that hold these records and nothing else.
fn store_of(logs: [&[Record]; 2]) -> Vec<u8> {
    let mut store = Vec::new();
    for records in logs {
        let mut bytes: Vec<u8> = records.iter().flat_map(Record::bytes).collect();
        bytes.resize(SETTING.log_bytes, 0);
        store.extend(bytes);
    }
    store
}

/// The fault of a store whose log of core 1 holds these records and core 0 has done 9.
fn fault_in_log_1(records: &[Record]) -> Option<(usize, Cause)> {
    let store = store_of([&[head(0), end(9, 0)], records]);
    read_logs(SETTING, &store).fault.map(|fault| {
        assert_eq!(fault.core, 1);
        (fault.offset, fault.cause)
    })
}

#[test]
fn boundary_cases_of_records() {
    let cases: [(&[Record], Option<(usize, Cause)>); 16] = [
        (&[arc(0, 1, 1)], Some((0, Cause::HeadRule))),
        (&[end(0, 0)], Some((0, Cause::HeadRule))),
        (&[head(1), head(1)], Some((6, Cause::HeadRule))),
        (&[head(0)], Some((0, Cause::HeadRule))),
        (&[head(1), arc(2, 1, 1)], Some((6, Cause::ArcRule))),
        (&[head(1), arc(1, 1, 1)], Some((6, Cause::ArcRule))),
        (&[head(1), arc(0, 0, 1)], Some((6, Cause::ArcRule))),
        (&[head(1), arc(0, 1, 0)], Some((6, Cause::ArcRule))),
        (
            &[head(1), arc(0, 1, 3), arc(0, 2, 2)],
            Some((13, Cause::ArcRule)),
        ),
        (
            &[head(1), arc(0, 1, 3), arc(0, 2, 3)],
            Some((13, Cause::ArcRule)),
        ),
        (&[head(1), arc(0, 5, 3), arc(0, 2, 4), end(4, 2)], None),
        (&[head(1), arc(0, 9, 3), end(3, 1)], None),
        (
            &[head(1), arc(0, 9, 3), end(2, 1)],
            Some((13, Cause::EndRule)),
        ),
        (
            &[head(1), arc(0, 9, 3), end(3, 0)],
            Some((13, Cause::EndRule)),
        ),
        (
            &[head(1), arc(0, 9, 3), end(3, 2)],
            Some((13, Cause::EndRule)),
        ),
        (
            &[head(1), arc(0, 10, 3), end(3, 1)],
            Some((6, Cause::SourceCount)),
        ),
    ];
    for (records, fault) in cases {
        assert_eq!(fault_in_log_1(records), fault, "{records:?}");
    }
    assert_eq!(fault_in_log_1(&[head(1), end(65_535, 0)]), None);
}

#[test]
fn boundary_cases_of_bytes() {
    let of_log = |bytes: &[u8]| {
        let setting = Setting {
            cores: 1,
            cells: 2,
            log_bytes: bytes.len(),
        };
        read_logs(setting, bytes)
            .fault
            .map(|fault| (fault.offset, fault.cause))
    };
    let head = [0x48, 0x43, 0, 1, 0, 2];
    let lawful = [&head[..], &[0x45, 0x44, 0, 0, 0, 0]].concat();
    assert_eq!(of_log(&lawful), None);
    assert_eq!(
        of_log(&[&head[..], &[0; 6]].concat()),
        Some((6, Cause::NoMark))
    );
    assert_eq!(
        of_log(&[&head[..], &[0x41, 0x52, 9, 9, 9, 9]].concat()),
        Some((6, Cause::Cut))
    );
    assert_eq!(
        of_log(&[&head[..], &head[..]].concat()),
        Some((6, Cause::HeadRule))
    );

    let arcs = [&[0x48, 0x43, 1, 2, 0, 2][..], &[0x41, 0x52, 0, 0, 1, 0, 1]].concat();
    for (length, cause) in [(13, Cause::Cut), (14, Cause::Cut), (15, Cause::NoMark)] {
        let setting = Setting {
            cores: 2,
            cells: 2,
            log_bytes: length,
        };
        let mut store = vec![0x48, 0x43, 0, 2, 0, 2, 0x45, 0x44, 0, 1, 0, 0];
        store.resize(length, 0);
        store.extend(&arcs);
        store.resize(2 * length, 0);
        let fault = Fault {
            core: 1,
            offset: 13,
            cause,
        };
        assert_eq!(read_logs(setting, &store).fault, Some(fault));
    }
}

#[test]
fn steps_over_changed_logs() {
    // Two cores with local instructions alone.
    let text = Text::of_items(&[[0; 4]; 9]);
    let lawful = store_of([&[head(0), end(3, 0)], &[head(1), arc(0, 2, 2), end(3, 1)]]);
    let opened = || {
        let cores = vec![Kind::Script.core_at(0); 2];
        Replayer::open(SETTING, cores, vec![0; 2], &lawful).unwrap()
    };
    let mut replayer = opened();
    assert_eq!(
        replayer.step(&text, &lawful[..79], 1),
        Err(Refusal::BadSetting)
    );
    assert_eq!(
        replayer
            .step(&text, &lawful, 1)
            .map(|carried| carried.count),
        Ok(1)
    );

    // The record that ends the group is held to the rules before the step waits.
    let records = [head(1), arc(0, 2, 2), end(3, 2)];
    let changed = store_of([&[head(0), end(3, 0)], &records]);
    let fault = Fault {
        core: 1,
        offset: 13,
        cause: Cause::EndRule,
    };
    assert_eq!(
        replayer.step(&text, &changed, 1),
        Err(Refusal::LogFault(fault))
    );

    // Cause 6 goes by the instructions found at opening, and comes before what stands behind.
    let records = [head(1), arc(0, 4, 2), head(1)];
    let changed = store_of([&[head(0), end(9, 0)], &records]);
    let fault = Fault {
        core: 1,
        offset: 6,
        cause: Cause::SourceCount,
    };
    assert_eq!(
        replayer.step(&text, &changed, 1),
        Err(Refusal::LogFault(fault))
    );

    // An arc to an instruction that is done ends the group and is never passed.
    let records = [head(1), arc(0, 3, 1), arc(0, 3, 2), end(3, 2)];
    let changed = store_of([&[head(0), end(3, 0)], &records]);
    assert_eq!(
        replayer
            .step(&text, &changed, 1)
            .map(|carried| carried.count),
        Ok(2)
    );
    assert_eq!(
        replayer
            .step(&text, &changed, 1)
            .map(|carried| carried.count),
        Ok(3)
    );
}

#[test]
fn arcs_in_a_cycle_stop_a_run() {
    let text = Text::of_items(&[[0; 4]; 9]);
    let store = store_of([
        &[head(0), arc(1, 2, 2), end(2, 1)],
        &[head(1), arc(0, 2, 2), end(2, 1)],
    ]);
    let cores = vec![Kind::Script.core_at(0); 2];
    let mut replayer = Replayer::open(SETTING, cores, vec![0; 2], &store).unwrap();
    assert_eq!(replayer.run(&text, &store), Ok(RunAnswer::Stopped(2)));
}

#[test]
fn the_example_of_bench() {
    let input = "0 2 3 2 8\n\
                 2 0 0 7 255 0 0 0 1 0 0 0 2 1 0 9 255 0 0 0 1 1 0 0 2 0 0 4 255 0 0 0\n\
                 0 2 5\n5\n0 1 1 2 2\n";
    let expected = "arc 0 1 1 1\narc 1 2 2 1\ncells 4 9\nreplayed 5\n";
    assert_eq!(answer(input.as_bytes()).text, expected);
    assert_eq!(answer(b"").text, "bad\n");
}

#[test]
fn the_examples_of_inspect() {
    let recorder = recorded(&run_1(Reducer::Exact), 40);
    let setting = Setting {
        cores: 3,
        cells: 2,
        log_bytes: 40,
    };
    let expected = "log of core 0\n  0 head core 0 of 3, 2 cells\n  6 end 1 instruction, 0 arcs\n\
                    log of core 1\n  0 head core 1 of 3, 2 cells\n  6 arc from 0:1 to 1:1\n  \
                    13 end 2 instructions, 1 arc\n\
                    log of core 2\n  0 head core 2 of 3, 2 cells\n  6 arc from 1:2 to 2:1\n  \
                    13 end 2 instructions, 1 arc\naccepted\n";
    assert_eq!(listing(setting, &recorder.store), expected);

    let mut changed = recorder.store;
    changed[40 + 8] = 1;
    let expected = "log of core 0\n  0 head core 0 of 3, 2 cells\n  6 end 1 instruction, 0 arcs\n\
                    log of core 1\n  0 head core 1 of 3, 2 cells\n\
                    refused: layer 2 fault in the log of core 1 at offset 6, cause 4: \
                    the arc has a source core that is this core or not of the session, a count of 0, \
                    a target below the one before, or the same target and source core twice\n";
    assert_eq!(listing(setting, &changed), expected);
    assert!(listing(setting, &changed[..119]).starts_with("refused: bad setting"));
}
