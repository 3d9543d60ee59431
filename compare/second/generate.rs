//! Sessions that a seed decides: texts, starting items and turns of both kinds of core.

use crate::cores::{Item, Kind};
use crate::random::Random;
use crate::session::{Reducer, Session};

#[derive(Clone, Copy, Debug, PartialEq, Eq)]
pub enum Plan {
    /// Script cores.
    Script,
    /// Register cores whose programs have loops and addresses that mostly keep to the cells.
    Register,
    /// Register cores over items that are nearly any bytes.
    AnyRegister,
    /// Register cores that log so many arcs that logs of 4,096 bytes get full.
    FullLogs,
}

pub fn session(random: &mut Random, plan: Plan) -> Session {
    let reducer = random.pick(&[Reducer::KeepAll, Reducer::Pairwise, Reducer::Exact]);
    match plan {
        Plan::Script => script_session(random, reducer),
        Plan::Register => register_session(random, reducer),
        Plan::AnyRegister => any_register_session(random, reducer),
        Plan::FullLogs => full_logs_session(random, reducer),
    }
}

fn cores(random: &mut Random) -> usize {
    random.weighed(&[(1, 1), (3, 2), (4, 3), (5, 4)])
}

/// Mostly few cells, so that accesses conflict.
fn cells(random: &mut Random) -> usize {
    random.within(&[
        (5, (1, 1)),
        (6, (2, 2)),
        (5, (3, 4)),
        (2, (5, 9)),
        (1, (10, 256)),
    ])
}

fn script_session(random: &mut Random, reducer: Reducer) -> Session {
    let (cores, cells) = (cores(random), cells(random));
    let length = random.within(&[
        (1, (0, 0)),
        (3, (1, 8)),
        (6, (9, 40)),
        (3, (41, 255)),
        (1, (256, 256)),
    ]);
    let items: Vec<Item> = (0..length).map(|_| script_item(random, cells)).collect();
    let starts = (0..cores).map(|_| start(random, length)).collect();
    let turns = turns(random, cores);
    Session {
        kind: Kind::Script,
        reducer,
        cells,
        items,
        starts,
        turns,
    }
}

fn script_item(random: &mut Random, cells: usize) -> Item {
    let kind = if random.one_in(70) {
        random.between(4, 255) as u8
    } else {
        random.weighed(&[(2, 0), (9, 1), (8, 2), (5, 3)])
    };
    let cell = cell(random, cells, 70);
    [kind, cell, random.byte(), random.byte()]
}

/// A cell of the session, but once in `times` any cell, mostly the first that the session has not.
fn cell(random: &mut Random, cells: usize, times: usize) -> u8 {
    if !random.one_in(times) {
        return random.below(cells) as u8;
    }
    match random.below(3) {
        0 => random.byte(),
        _ => cells.min(255) as u8,
    }
}

/// A starting item: mostly one of the first items, at times past the items.
fn start(random: &mut Random, items: usize) -> u16 {
    let place = match random.below(20) {
        0 => items + random.below(3),
        1 => random.between(65_530, 65_535),
        2 => random.below(65_536),
        3..=8 => random.below(items.max(1)),
        _ => random.below(items / 4 + 1),
    };
    place as u16
}

#[derive(Clone, Copy)]
enum Naming {
    Any,
    InRounds,
    InBursts,
}

/// Turns, at times with cores that the session has not.
fn turns(random: &mut Random, cores: usize) -> Vec<u16> {
    let length = random.within(&[
        (1, (0, 0)),
        (7, (1, 24)),
        (8, (25, 120)),
        (3, (121, 600)),
        (1, (1_000, 1_024)),
    ]);
    let naming = random.pick(&[Naming::Any, Naming::Any, Naming::InRounds, Naming::InBursts]);
    let strays = random.one_in(3);
    let mut core = 0;
    (0..length)
        .map(|turn| {
            core = match naming {
                Naming::Any => random.below(cores),
                Naming::InRounds => turn % cores,
                Naming::InBursts if random.one_in(5) => random.below(cores),
                Naming::InBursts => core,
            };
            if strays && random.one_in(20) {
                stray(random, cores)
            } else {
                core as u16
            }
        })
        .collect()
}

/// A core number that the session has not, for most numbers of cores.
fn stray(random: &mut Random, cores: usize) -> u16 {
    let cores = cores as u16;
    random.pick(&[
        cores,
        cores + 1,
        4,
        5,
        255,
        256,
        257,
        258,
        32_768,
        65_534,
        65_535,
    ])
}

/// A byte that names a register.
fn naming_register(random: &mut Random, register: u8) -> u8 {
    if random.one_in(3) {
        random.byte() / 8 * 8 + register
    } else {
        register
    }
}

/// A register other than the one that stays 0 and the one that holds the base of addresses.
fn free_register(random: &mut Random) -> u8 {
    let register = random.between(2, 7) as u8;
    naming_register(random, register)
}

fn any_register(random: &mut Random) -> u8 {
    random.byte() % if random.one_in(3) { 255 } else { 8 }
}

/// One section of the text for each core: a base of addresses, then items, then a jump back.
fn register_session(random: &mut Random, reducer: Reducer) -> Session {
    let (cores, cells) = (cores(random), cells(random));
    let mut items = Vec::new();
    let mut sections = Vec::new();
    for _ in 0..cores {
        sections.push(items.len());
        section(random, cells, &mut items);
    }
    let starts = sections
        .iter()
        .map(|&section| match random.below(16) {
            0 => start(random, items.len()),
            1 => random.pick(&sections) as u16,
            _ => section as u16,
        })
        .collect();
    let turns = turns(random, cores);
    Session {
        kind: Kind::Register,
        reducer,
        cells,
        items,
        starts,
        turns,
    }
}

fn section(random: &mut Random, cells: usize, items: &mut Vec<Item>) {
    let first = items.len();
    let base = [random.byte(), random.byte()];
    let has_base = random.one_in(2);
    if has_base {
        items.push([4, naming_register(random, 1), base[0], base[1]]);
    }
    let base = has_base.then_some(u16::from_be_bytes(base));
    for _ in 0..random.between(1, 24) {
        let item = register_item(random, cells, base, first, items.len());
        items.push(item);
    }
    items.push(jump(naming_register(random, 0), first));
}

fn jump(register: u8, place: usize) -> Item {
    let [high, low] = (place as u16).to_be_bytes();
    [7, register, high, low]
}

fn register_item(
    random: &mut Random,
    cells: usize,
    base: Option<u16>,
    first: usize,
    place: usize,
) -> Item {
    match random.below(120) {
        0 => [
            random.pick(&[0, 8, 9, 128, 255]),
            random.byte(),
            random.byte(),
            random.byte(),
        ],
        1 => [
            random.between(1, 7) as u8,
            random.byte(),
            random.byte(),
            random.byte(),
        ],
        2 => jump(
            free_register(random),
            random.pick(&[300, 16_384, 65_534, 65_535]),
        ),
        3..=8 => jump(free_register(random), random.between(first, place + 3)),
        9..=22 => [4, free_register(random), random.byte(), random.byte()],
        23..=30 => [4, free_register(random), 0, random.below(3) as u8],
        31..=50 => {
            let operation = random.pick(&[5, 6]);
            [
                operation,
                free_register(random),
                any_register(random),
                any_register(random),
            ]
        }
        _ => register_access(random, cells, base),
    }
}

/// An access to a cell of the session, by the register that stays 0 or by the base.
fn register_access(random: &mut Random, cells: usize, base: Option<u16>) -> Item {
    let operation = random.weighed(&[(8, 1), (7, 2), (5, 3)]);
    let cell = cell(random, cells, 100);
    match base.filter(|_| random.one_in(2)) {
        Some(base) => {
            let z = cell.wrapping_sub(base as u8);
            [
                operation,
                free_register(random),
                naming_register(random, 1),
                z,
            ]
        }
        None => [
            operation,
            free_register(random),
            naming_register(random, 0),
            cell,
        ],
    }
}

fn any_register_session(random: &mut Random, reducer: Reducer) -> Session {
    let cores = cores(random);
    let cells = if random.one_in(3) {
        random.between(128, 256)
    } else {
        256
    };
    let length = random.between(1, 256);
    let items: Vec<Item> = (0..length)
        .map(|_| {
            let operation = random.between(1, 7) as u8;
            let z = if random.one_in(2) {
                random.byte()
            } else {
                random.below(4) as u8
            };
            match operation {
                7 => jump(random.byte(), random.below(length + 2)),
                _ => [operation, random.byte(), random.byte(), z],
            }
        })
        .collect();
    let starts = (0..cores).map(|_| start(random, length)).collect();
    let turns = turns(random, cores);
    Session {
        kind: Kind::Register,
        reducer,
        cells,
        items,
        starts,
        turns,
    }
}

/// One core stores again and again into a cell that the others read between.
fn full_logs_session(random: &mut Random, reducer: Reducer) -> Session {
    let cores = random.between(3, 4);
    let writer = random.below(cores);
    let mut items = Vec::new();
    let mut starts = Vec::new();
    for core in 0..cores {
        let first = items.len();
        starts.push(first as u16);
        let operations: &[u8] = if core == writer { &[2, 3] } else { &[1] };
        for _ in 0..random.between(12, 60) {
            items.push([random.pick(operations), free_register(random), 0, 0]);
        }
        items.push(jump(0, first));
    }
    let length = random.between(950, 1_024);
    let mut turns = Vec::new();
    while turns.len() < length {
        let shift = random.below(cores);
        let readers = (0..cores)
            .map(|core| (core + shift) % cores)
            .filter(|&core| core != writer);
        turns.extend(readers.chain([writer]).map(|core| core as u16));
        if random.one_in(30) {
            turns.push(random.below(cores) as u16);
        }
    }
    turns.truncate(length);
    let cells = random.between(1, 2);
    Session {
        kind: Kind::Register,
        reducer,
        cells,
        items,
        starts,
        turns,
    }
}
