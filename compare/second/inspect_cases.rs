//! Calls of `inspect` that a seed decides: recorded and assembled stores, damage, and arguments.

use crate::generate::{session, Plan};
use crate::logs::{read_logs, Arc, Placed, Record};
use crate::order::Instruction;
use crate::random::Random;
use crate::recorder::record;
use crate::session::Setting;

/// What stands at the file's place.
pub enum File {
    Store(Vec<u8>),
    Missing,
    Folder,
}

pub struct InspectorCase {
    pub class: &'static str,
    pub file: File,
    /// The name of the file within its folder.
    pub name: String,
    /// Whether the call names the file before the words.
    pub named: bool,
    /// The words behind the file.
    pub words: Vec<Vec<u8>>,
}

#[derive(Clone, Copy)]
enum Damage {
    OneByte,
    Mark,
    DoubledRecord,
    DroppedRecord,
    SwappedRecords,
    SwappedLogs,
    CutStore,
    LongerStore,
    Count,
    HeadField,
    OtherSetting,
}

const DAMAGES: [(Damage, &str); 11] = [
    (Damage::OneByte, "one byte changed"),
    (Damage::Mark, "a mark changed"),
    (Damage::DoubledRecord, "a record doubled"),
    (Damage::DroppedRecord, "a record dropped"),
    (Damage::SwappedRecords, "two records swapped"),
    (Damage::SwappedLogs, "two logs swapped"),
    (Damage::CutStore, "a cut store"),
    (Damage::LongerStore, "a longer store"),
    (Damage::Count, "a count changed"),
    (Damage::HeadField, "a field of a head changed"),
    (Damage::OtherSetting, "other P, C or L"),
];

#[derive(Clone, Copy)]
enum Source {
    Recorded,
    Damaged,
    Assembled,
    AtBounds,
    AnyBytes,
    Arguments,
}

pub fn inspector_case(random: &mut Random) -> InspectorCase {
    let source = random.weighed(&[
        (6, Source::Recorded),
        (22, Source::Damaged),
        (16, Source::Assembled),
        (3, Source::AtBounds),
        (3, Source::AnyBytes),
        (6, Source::Arguments),
    ]);
    match source {
        Source::Recorded => {
            let (setting, store) = recorded(random);
            of_store("recorded", setting, store)
        }
        Source::Damaged => {
            let (mut setting, mut store) = if random.one_in(4) {
                assembled(random)
            } else {
                recorded(random)
            };
            let (damage, class) = random.pick(&DAMAGES);
            damaged(random, damage, &mut setting, &mut store);
            of_store(class, setting, store)
        }
        Source::Assembled => {
            let (setting, store) = assembled(random);
            of_store("assembled", setting, store)
        }
        Source::AtBounds => at_bounds(random),
        Source::AnyBytes => any_bytes(random),
        Source::Arguments => arguments(random),
    }
}

fn of_store(class: &'static str, setting: Setting, store: Vec<u8>) -> InspectorCase {
    let words = [setting.cores, setting.cells, setting.log_bytes]
        .iter()
        .map(|number| number.to_string().into_bytes())
        .collect();
    InspectorCase {
        class,
        file: File::Store(store),
        name: "store.log".to_string(),
        named: true,
        words,
    }
}

/// A recorded session, in a store that held zeros, any bytes or marks before.
fn recorded(random: &mut Random) -> (Setting, Vec<u8>) {
    let plan = random.weighed(&[
        (5, Plan::Script),
        (5, Plan::Register),
        (1, Plan::AnyRegister),
        (1, Plan::FullLogs),
    ]);
    let session = session(random, plan);
    let log_bytes = random.within(&[
        (1, (12, 12)),
        (6, (13, 60)),
        (10, (61, 300)),
        (3, (301, 2_000)),
        (1, (2_001, 16_384)),
    ]);
    let setting = session.setting(log_bytes);
    let store = old_bytes(random, setting.store_bytes());
    let recording = record(&session, setting.log_bytes, store).expect("the setting is in range");
    (setting, recording.recorder.store)
}

fn old_bytes(random: &mut Random, length: usize) -> Vec<u8> {
    match random.below(3) {
        0 => vec![0; length],
        1 => random.bytes(length),
        _ => (0..length)
            .map(|_| random.pick(b"HCARED\x00\x01\x02"))
            .collect(),
    }
}

/// Logs of lawful and unlawful records, put together without a recording.
fn assembled(random: &mut Random) -> (Setting, Vec<u8>) {
    let cores = random.weighed(&[(1, 1), (3, 2), (5, 3), (5, 4)]);
    let cells = random.pick(&[1, 2, 3, 255, 256]);
    let most_arcs = random.pick(&[0, 2, 5, 12]);
    let logs: Vec<Vec<Record>> = (0..cores)
        .map(|core| assembled_log(random, core, cores, cells, most_arcs))
        .collect();
    let bytes: Vec<Vec<u8>> = logs.iter().map(|records| bytes_of(records)).collect();
    let longest = bytes.iter().map(Vec::len).max().unwrap_or(0);
    let spare = random.pick(&[0, 1, 2, 6, 7, 30]);
    let log_bytes = if random.one_in(12) {
        longest.max(14) - 1
    } else {
        longest.max(12) + spare
    };
    let setting = Setting {
        cores,
        cells,
        log_bytes: log_bytes.max(12),
    };
    let mut store = old_bytes(random, setting.store_bytes());
    for (core, bytes) in bytes.iter().enumerate() {
        put(&mut store[setting.log_range(core)], 0, bytes);
    }
    (setting, store)
}

fn bytes_of(records: &[Record]) -> Vec<u8> {
    records.iter().flat_map(Record::bytes).collect()
}

fn assembled_log(
    random: &mut Random,
    core: usize,
    cores: usize,
    cells: usize,
    most_arcs: usize,
) -> Vec<Record> {
    let mut records = vec![Record::Head {
        core: core as u8,
        cores: cores as u8,
        cells: cells as u16,
    }];
    let mut target = random.between(0, 3).max(1);
    let arcs = if cores == 1 && !random.one_in(6) {
        0
    } else {
        random.between(0, most_arcs)
    };
    let mut sources_of_target = Vec::new();
    for _ in 0..arcs {
        let mut source = assembled_source(random, core, cores);
        let used = sources_of_target.contains(&source) && !random.one_in(20);
        if used || random.one_in(3) {
            target += random.pick(&[1, 1, 1, 2, 255, 256]);
            sources_of_target.clear();
        }
        sources_of_target.push(source);
        if random.one_in(60) {
            source = random.pick(&[core, cores, 4, 128, 255]);
        }
        let count = random.weighed(&[(60, 0), (1, 1), (1, 65_535)]);
        let count = if count == 0 {
            random.between(1, 9)
        } else {
            count - 1
        };
        let placed_target = if random.one_in(60) {
            target - 1
        } else {
            target
        };
        records.push(Record::Arc(Arc {
            source: Instruction {
                core: source,
                count: count as u16,
            },
            target_count: placed_target as u16,
        }));
    }
    let last_target = if arcs == 0 { 0 } else { target };
    let instructions = match random.below(24) {
        0 => last_target.saturating_sub(1),
        1..=3 => last_target,
        4 => 65_535,
        5 => random.between(0, 9),
        _ => last_target + random.between(6, 9),
    };
    let number = match random.below(24) {
        0 => arcs + 1,
        1 => arcs.saturating_sub(1),
        2 => arcs + 256,
        _ => arcs,
    };
    records.push(Record::End {
        instructions: instructions as u16,
        arcs: number as u16,
    });
    records
}

/// A core other than `core`, where there is one.
fn assembled_source(random: &mut Random, core: usize, cores: usize) -> usize {
    if cores == 1 {
        random.between(0, 1)
    } else {
        (core + random.between(1, cores - 1)) % cores
    }
}

/// Writes bytes at an offset of a log, as many as the log has room for.
fn put(log: &mut [u8], offset: usize, bytes: &[u8]) {
    let room = log.len().saturating_sub(offset).min(bytes.len());
    log[offset..offset + room].copy_from_slice(&bytes[..room]);
}

fn damaged(random: &mut Random, damage: Damage, setting: &mut Setting, store: &mut Vec<u8>) {
    let core = random.below(setting.cores);
    match damage {
        Damage::OneByte => {
            let place = place_of_byte(random, setting, store, core);
            let byte = store[place];
            store[place] = match random.below(4) {
                0 => byte.wrapping_add(1),
                1 => byte.wrapping_sub(1),
                2 => byte ^ (1 << random.below(8)),
                _ => random.byte(),
            };
        }
        Damage::Mark => {
            let records = records_of(setting, store, core);
            if !records.is_empty() {
                let offset = random.pick(&records).offset;
                let mark = random.pick(&[*b"HC", *b"AR", *b"ED", *b"CH", *b"hc", [0, 0]]);
                put(&mut store[setting.log_range(core)], offset, &mark);
            }
        }
        Damage::DoubledRecord | Damage::DroppedRecord | Damage::SwappedRecords => {
            let mut records: Vec<Record> = records_of(setting, store, core)
                .iter()
                .map(|placed| placed.record)
                .collect();
            rearrange(random, damage, &mut records);
            put(&mut store[setting.log_range(core)], 0, &bytes_of(&records));
        }
        Damage::SwappedLogs => {
            let other = random.below(setting.cores);
            let one_log = store[setting.log_range(core)].to_vec();
            let other_log = store[setting.log_range(other)].to_vec();
            store[setting.log_range(core)].copy_from_slice(&other_log);
            store[setting.log_range(other)].copy_from_slice(&one_log);
        }
        Damage::CutStore => {
            let cut = if random.one_in(2) {
                1
            } else {
                random.between(1, store.len())
            };
            store.truncate(store.len() - cut);
            if random.one_in(2) {
                setting.log_bytes = (store.len() / setting.cores).max(12);
            }
        }
        Damage::LongerStore => {
            let more_length = random.between(1, 40);
            let more = random.bytes(more_length);
            let place = if random.one_in(2) {
                store.len()
            } else {
                random.below(store.len())
            };
            store.splice(place..place, more);
        }
        Damage::Count => change_count(random, setting, store, core),
        Damage::HeadField => {
            let field = setting.log_range(core).start + random.between(2, 5);
            store[field] = random.pick(&[0, 1, 2, 3, 4, 5, 255]);
        }
        Damage::OtherSetting => {
            other_setting(random, setting);
            // At times the store is as long as the other setting asks for.
            if random.one_in(2) {
                store.resize(setting.store_bytes().min(4 * 65_535), 0);
            }
        }
    }
}

/// The records of a log up to its end or its first fault.
fn records_of(setting: &Setting, store: &[u8], core: usize) -> Vec<Placed> {
    read_logs(*setting, store)
        .logs
        .get(core)
        .cloned()
        .unwrap_or_default()
}

/// A byte of the store, mostly one of the records of a log.
fn place_of_byte(random: &mut Random, setting: &Setting, store: &[u8], core: usize) -> usize {
    let records = records_of(setting, store, core);
    match records.last() {
        Some(last) if !random.one_in(8) => {
            let length = last.offset + last.record.bytes().len();
            setting.log_range(core).start + random.below(length)
        }
        _ => random.below(store.len()),
    }
}

fn rearrange(random: &mut Random, damage: Damage, records: &mut Vec<Record>) {
    if records.is_empty() {
        return;
    }
    let place = random.below(records.len());
    match damage {
        Damage::DoubledRecord => records.insert(place, records[place]),
        Damage::DroppedRecord => {
            records.remove(place);
        }
        _ if place > 0 => records.swap(place - 1, place),
        _ => {}
    }
}

/// One of the counts of an arc or an end becomes another number.
fn change_count(random: &mut Random, setting: &Setting, store: &mut [u8], core: usize) {
    let counted: Vec<Placed> = records_of(setting, store, core)
        .into_iter()
        .filter(|placed| !matches!(placed.record, Record::Head { .. }))
        .collect();
    if counted.is_empty() {
        return;
    }
    let placed = random.pick(&counted);
    let field = match placed.record {
        Record::Arc(_) => random.pick(&[3, 5]),
        _ => random.pick(&[2, 4]),
    };
    let first = setting.log_range(core).start + placed.offset + field;
    let count = u16::from_be_bytes([store[first], store[first + 1]]);
    let other = match random.below(6) {
        0 | 1 => count.wrapping_add(1),
        2 | 3 => count.wrapping_sub(1),
        4 => random.pick(&[0, 1, 255, 256, 65_535]),
        _ => random.below(20) as u16,
    };
    store[first..first + 2].copy_from_slice(&other.to_be_bytes());
}

fn other_setting(random: &mut Random, setting: &mut Setting) {
    match random.below(3) {
        0 => setting.cores = random.pick(&[0, 1, 2, 3, 4, 5, 255, 256, 65_535]),
        1 => setting.cells = random.pick(&[0, 1, 2, 3, 255, 256, 257, 65_535]),
        _ => {
            let log_bytes = setting.log_bytes;
            setting.log_bytes = random.pick(&[
                0,
                1,
                11,
                12,
                13,
                log_bytes - 1,
                log_bytes + 1,
                log_bytes / 2,
                16_384,
                16_385,
                65_535,
            ]);
        }
    }
}

/// P, C and L at their bounds or just past them, and logs without arcs.
fn at_bounds(random: &mut Random) -> InspectorCase {
    let setting = Setting {
        cores: random.weighed(&[(1, 0), (2, 1), (3, 4), (1, 5)]),
        cells: random.weighed(&[(1, 0), (3, 1), (3, 256), (1, 257)]),
        log_bytes: random.pick(&[11, 12, 13, 16_384, 16_385]),
    };
    let mut store = vec![0; setting.store_bytes()];
    for core in 0..setting.cores {
        let end = Record::End {
            instructions: 0,
            arcs: 0,
        };
        let records = [Record::head_of(core, &setting), end];
        put(&mut store[setting.log_range(core)], 0, &bytes_of(&records));
    }
    match random.below(4) {
        0 => drop(store.pop()),
        1 => store.push(0),
        _ => {}
    }
    of_store("P, C and L at their bounds", setting, store)
}

fn any_bytes(random: &mut Random) -> InspectorCase {
    let setting = Setting {
        cores: random.between(1, 4),
        cells: random.between(1, 3),
        log_bytes: random.between(12, 40),
    };
    let mut store = match random.below(4) {
        0 => Vec::new(),
        _ => old_bytes(random, setting.store_bytes()),
    };
    for core in 0..setting.cores {
        if !store.is_empty() && random.one_in(2) {
            let head = Record::head_of(core, &setting).bytes();
            put(&mut store[setting.log_range(core)], 0, &head);
        }
    }
    of_store("any bytes", setting, store)
}

/// Missing and surplus arguments, words that are no numbers, files that cannot be read, and
/// names and numbers that are spelled in unusual ways.
fn arguments(random: &mut Random) -> InspectorCase {
    let (setting, store) = assembled(random);
    let mut case = of_store("arguments", setting, store);
    match random.below(8) {
        0 => case.words.truncate(random.below(3)),
        1 => {
            let word = random.pick(&["0", "3", "", "x"]);
            case.words.push(word.into());
        }
        2 => {
            case.named = false;
            case.words.truncate(random.between(0, 3));
        }
        3 => case.file = file_without_bytes(random),
        4 => {
            let names = ["-3", "a store.log", "\u{e9}.log", "--help", "a\nb"];
            case.name = random.pick(&names).into();
        }
        5 => {
            let place = random.below(3);
            let zeros = vec![b'0'; random.pick(&[1, 4, 30])];
            case.words[place] = [zeros, case.words[place].clone()].concat();
        }
        _ => {
            let place = random.below(3);
            case.words[place] = no_number(random, &case.words[place]);
        }
    }
    case
}

fn file_without_bytes(random: &mut Random) -> File {
    if random.one_in(2) {
        File::Missing
    } else {
        File::Folder
    }
}

/// A word that is no run of decimal digits, or one whose value is too large.
fn no_number(random: &mut Random, word: &[u8]) -> Vec<u8> {
    let around = |before: &[u8], behind: &[u8]| [before, word, behind].concat();
    match random.below(16) {
        0 => Vec::new(),
        1 => around(b"-", b""),
        2 => around(b"+", b""),
        3 => around(b" ", b""),
        4 => around(b"", b" "),
        5 => around(b"", b"\n"),
        6 => around(b"0x", b""),
        7 => around(b"", b"a"),
        8 => around(b"", b".0"),
        9 => around(b"", b"\xff"),
        10 => "\u{663}".into(),
        11 => b"65536".to_vec(),
        12 => b"4294967299".to_vec(),
        13 => b"18446744073709551619".to_vec(),
        14 => around(b"1", b"000000000000000000000000000000000000000"),
        _ => b"three".to_vec(),
    }
}
