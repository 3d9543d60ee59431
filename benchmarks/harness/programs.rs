//! Programs of register cores.

use crate::sides::Kind;
use crate::workloads::{Schedule, Workload};

/// An item: an operation, a register, and two bytes.
type Item = [u8; 4];

/// A jump to an item of the same part if the register is 0.
const JUMP: u8 = 7;

fn jump(register: u8, to: usize) -> Item {
    let [high, low] = (to as u16).to_be_bytes();
    [JUMP, register, high, low]
}

/// The items of a part that stands behind so many others.
fn placed(part: &[Item], base: usize) -> impl Iterator<Item = Item> {
    part.iter().map(move |&item| match item {
        [JUMP, register, high, low] => jump(
            register,
            base + usize::from(u16::from_be_bytes([high, low])),
        ),
        _ => item,
    })
}

/// Core k runs the k-th part, or the last one.
fn program(name: &'static str, cores: usize, parts: &[Vec<Item>]) -> Workload {
    let mut text = vec![];
    let mut starts = vec![];
    for part in parts {
        let base = text.len() / 4;
        starts.push(base as u16);
        text.extend(placed(part, base).flatten());
    }
    let last = *starts.last().expect("a part");
    Workload {
        name,
        kind: Kind::Register,
        cores,
        cells: 256,
        text,
        places: std::array::from_fn(|core| starts.get(core).copied().unwrap_or(last)),
        schedule: Schedule::AnyCore,
    }
}

/// A lock by exchange round a counter, and ten turns of a local loop between.
pub fn spin(cores: usize) -> Workload {
    let part = vec![
        [4, 1, 0, 1],
        [4, 2, 0, 1], // 1: take the lock
        [3, 2, 0, 0],
        jump(2, 5),
        jump(0, 1),
        [1, 3, 0, 1], // 5: count
        [5, 3, 3, 1],
        [2, 3, 0, 1],
        [2, 0, 0, 0],
        [4, 4, 0, 10],
        [6, 4, 4, 1], // 10: wait
        jump(4, 1),
        jump(0, 10),
    ];
    program("spin", cores, &[part])
}

/// Each core goes over 16 cells of its own, then counts under a lock.
pub fn private(cores: usize) -> Workload {
    let part = |core: u8| {
        let base = 32 + 16 * core;
        vec![
            [4, 1, 0, 1],
            [4, 2, 0, 0],    // 1: from its first cell on
            [1, 3, 2, base], // 2: one cell
            [5, 3, 3, 1],
            [2, 3, 2, base],
            [5, 2, 2, 1],
            [4, 4, 0, 16],
            [6, 4, 2, 4],
            jump(4, 10),
            jump(0, 2),
            [4, 5, 0, 1], // 10: take the lock
            [3, 5, 0, 0],
            jump(5, 14),
            jump(0, 10),
            [1, 6, 0, 1], // 14: count
            [5, 6, 6, 1],
            [2, 6, 0, 1],
            [2, 0, 0, 0],
            jump(0, 1),
        ]
    };
    program(
        "private cells",
        cores,
        &[part(0), part(1), part(2), part(3)],
    )
}

/// Peterson's algorithm round a counter, for two cores.
pub fn peterson() -> Workload {
    let part = |core: u8| {
        let other = 1 - core;
        vec![
            [4, 1, 0, 1],
            [4, 0, 0, 0],
            [2, 1, 0, core], // 2: wants to enter
            [4, 2, 0, other],
            [2, 2, 0, 2],
            [1, 3, 0, other], // 5: until the other does not, or lets it
            jump(3, 10),
            [1, 4, 0, 2],
            [6, 5, 4, 2],
            jump(5, 5),
            [1, 6, 0, 3], // 10: count
            [5, 6, 6, 1],
            [2, 6, 0, 3],
            [2, 0, 0, core],
            jump(0, 2),
        ]
    };
    program("peterson", 2, &[part(0), part(1)])
}

/// A ring buffer of eight cells, with one core that fills it and one that empties it.
pub fn ring() -> Workload {
    let producer = vec![
        [4, 1, 0, 1],
        [4, 7, 0, 8],
        [5, 5, 3, 1], // 2: the next place
        [6, 4, 5, 7],
        jump(4, 6),
        jump(0, 7),
        [4, 5, 0, 0],
        [1, 2, 0, 1], // 7: until there is room
        [6, 4, 5, 2],
        jump(4, 7),
        [5, 6, 6, 1], // 10: put a number
        [2, 6, 3, 16],
        [2, 5, 0, 0],
        [5, 3, 5, 0],
        jump(0, 2),
    ];
    let consumer = vec![
        [4, 1, 0, 1],
        [4, 7, 0, 8],
        [1, 2, 0, 0], // 2: until there is one
        [6, 4, 2, 3],
        jump(4, 2),
        [1, 6, 3, 16], // 5: take a number
        [5, 5, 3, 1],
        [6, 4, 5, 7],
        jump(4, 10),
        jump(0, 11),
        [4, 5, 0, 0],
        [2, 5, 0, 1], // 11
        [5, 3, 5, 0],
        jump(0, 2),
    ];
    program("ring buffer", 2, &[producer, consumer])
}
