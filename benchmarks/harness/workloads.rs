//! What the cores do, and in which order they take their turns.

use crate::programs;
use crate::random::Random;
use crate::sides::{Kind, Reduction, Session};
use peer::cores::{Core, Register, Script};
use peer::recorder::{Recorder, Refusal};
use peer::reducers::{Exact, KeepAll, Pairwise, Reducer};

/// The most bytes that a log may have.
pub const LOG_BYTES: usize = 16384;

/// The most items that a text can have.
const ITEMS: usize = 65535;

/// Which core takes the next turn.
#[derive(Clone, Copy, PartialEq)]
pub enum Schedule {
    /// Any core, for one turn.
    AnyCore,
    /// Any core, for 1 to 128 turns.
    Bursts,
    /// One after another.
    RoundRobin,
    /// Each to its end before the next.
    CoreByCore,
}

/// Cores with a text, from these items on.
#[derive(Clone)]
pub struct Workload {
    pub name: &'static str,
    pub kind: Kind,
    pub cores: usize,
    pub cells: usize,
    pub text: Vec<u8>,
    pub places: [u16; 4],
    pub schedule: Schedule,
}

/// How many of 100 items are local, read, write and exchange.
#[derive(Clone, Copy)]
struct Mix {
    local: usize,
    read: usize,
    write: usize,
    exchange: usize,
}

const LOCAL: Mix = Mix {
    local: 100,
    read: 0,
    write: 0,
    exchange: 0,
};
const READS: Mix = Mix {
    local: 0,
    read: 95,
    write: 5,
    exchange: 0,
};
const PING_PONG: Mix = Mix {
    local: 0,
    read: 0,
    write: 50,
    exchange: 50,
};
const RANDOM: Mix = Mix {
    local: 0,
    read: 50,
    write: 50,
    exchange: 0,
};
const TYPICAL: Mix = Mix {
    local: 70,
    read: 20,
    write: 8,
    exchange: 2,
};

impl Mix {
    /// A random item over so many cells.
    fn item(self, random: &mut Random, cells: usize) -> [u8; 4] {
        debug_assert_eq!(self.local + self.read + self.write + self.exchange, 100);
        let at = random.below(100);
        let kind = match at {
            _ if at < self.local => 0,
            _ if at < self.local + self.read => 1,
            _ if at < self.local + self.read + self.write => 2,
            _ => 3,
        };
        let cell = random.below(cells) as u8;
        let [high, low] = (random.number() as u16).to_be_bytes();
        [kind, if kind == 0 { 0 } else { cell }, high, low]
    }
}

/// Script cores over a text of as many items as there can be; each starts a quarter of the text
/// further on, but where all items are the same.
fn script(name: &'static str, cores: usize, cells: usize, touched: usize, mix: Mix) -> Workload {
    let mut random = Random::new(0x9E37_79B9_7F4A_7C15 ^ (cores * 1000 + touched) as u64);
    let text = (0..ITEMS)
        .flat_map(|_| mix.item(&mut random, touched))
        .collect();
    let quarter = if mix.local == 100 { 0 } else { 16384 };
    Workload {
        name,
        kind: Kind::Script,
        cores,
        cells,
        text,
        places: [0, 1, 2, 3].map(|core| core * quarter),
        schedule: Schedule::AnyCore,
    }
}

pub fn local(cores: usize, cells: usize) -> Workload {
    let schedule = Schedule::RoundRobin;
    Workload {
        schedule,
        ..script("local", cores, cells, cells, LOCAL)
    }
}

pub fn reads(cores: usize, cells: usize) -> Workload {
    script("reads", cores, cells, cells, READS)
}

/// Writes and exchanges on four cells at most, core after core.
pub fn ping_pong(cores: usize, cells: usize) -> Workload {
    let schedule = Schedule::RoundRobin;
    Workload {
        schedule,
        ..script("ping-pong", cores, cells, cells.min(4), PING_PONG)
    }
}

pub fn random(cores: usize, cells: usize) -> Workload {
    script("random", cores, cells, cells, RANDOM)
}

pub fn typical(cores: usize, cells: usize) -> Workload {
    script("typical", cores, cells, cells, TYPICAL)
}

/// All other cores read once, behind the write that core 0 makes after 65,531 local instructions.
pub fn long_wait(cores: usize) -> Workload {
    const HALT: [u8; 4] = [255, 0, 0, 0];
    let locals = vec![[0; 4]; 65531];
    let text = [&locals[..], &[[2, 0, 0, 7], HALT, [1, 0, 0, 0], HALT]].concat();
    Workload {
        name: "long wait",
        kind: Kind::Script,
        cores,
        cells: 1,
        text: text.concat(),
        places: [0, 65533, 65533, 65533],
        schedule: Schedule::CoreByCore,
    }
}

/// One of each.
pub fn one_of_each() -> Vec<Workload> {
    vec![
        local(4, 256),
        reads(4, 256),
        ping_pong(4, 16),
        random(4, 256),
        typical(4, 256),
        programs::spin(4),
        programs::ring(),
    ]
}

/// Some of all, for a short run.
pub fn some() -> Vec<Workload> {
    let more = [
        reads(2, 16),
        ping_pong(2, 1),
        random(3, 16),
        random(4, 1),
        programs::private(4),
        programs::peterson(),
    ];
    one_of_each().into_iter().chain(more).collect()
}

/// All, for a long run: each mix and program with two to four cores, and the mixes with 1, 16 and
/// 256 cells.
pub fn all() -> Vec<Workload> {
    let mut all = vec![];
    for cores in 2..=4 {
        for cells in [1, 16, 256] {
            all.extend([
                reads(cores, cells),
                random(cores, cells),
                typical(cores, cells),
            ]);
        }
        all.extend([local(cores, 256), ping_pong(cores, 1), ping_pong(cores, 16)]);
        all.extend([programs::spin(cores), programs::private(cores)]);
    }
    all.extend([programs::peterson(), programs::ring()]);
    all
}

impl Workload {
    pub fn title(&self) -> String {
        format!("{} P={} C={}", self.name, self.cores, self.cells)
    }

    pub fn session(&self, reduction: Reduction) -> Session {
        Session {
            kind: self.kind,
            reduction,
            cores: self.cores,
            cells: self.cells,
            log_bytes: LOG_BYTES,
            places: self.places,
        }
    }

    /// The same cores over another text.
    pub fn with_text(&self, text: &[u8]) -> Workload {
        Workload {
            text: text.to_vec(),
            ..self.clone()
        }
    }

    /// The cells as a session starts with them.
    pub fn new_cells(&self) -> Vec<u16> {
        vec![0; self.cells]
    }

    /// A store with bytes that no recording has written.
    pub fn new_store(&self) -> Vec<u8> {
        vec![0xAA; self.cores * LOG_BYTES]
    }

    /// Records turns up to the first that finds its log full, or until no core has one left, or as
    /// many as wanted.
    pub fn recorded(&self, reduction: Reduction, most: usize) -> Recording {
        match reduction {
            Reduction::KeepAll => self.recorded_with::<KeepAll>(reduction, most),
            Reduction::Pairwise => self.recorded_with::<Pairwise>(reduction, most),
            Reduction::Exact => self.recorded_with::<Exact>(reduction, most),
        }
    }

    fn recorded_with<R: Reducer>(&self, reduction: Reduction, most: usize) -> Recording {
        match self.kind {
            Kind::Script => self.recorded_by::<Script, R>(reduction, most),
            Kind::Register => self.recorded_by::<Register, R>(reduction, most),
        }
    }

    fn recorded_by<K: Core, R: Reducer>(&self, reduction: Reduction, most: usize) -> Recording {
        let cores = &mut self.places.map(K::new);
        let mut cells = self.new_cells();
        let mut store = self.new_store();
        let mut recorder = Recorder::<R>::default();
        let sizes = self.session(reduction).sizes();
        recorder
            .begin(sizes, cores, &cells, &mut store)
            .expect("sizes in range");
        let mut order = Order::new(self.schedule, self.cores);
        let mut turns = vec![];
        while turns.len() < most {
            let Some(core) = order.next() else { break };
            match recorder.turn(&self.text, cores, &mut cells, &mut store, core.into()) {
                Ok(_) => turns.push(core),
                Err(Refusal::LogFull) => break,
                Err(_) => order.end(core),
            }
        }
        Recording { turns, store }
    }
}

/// The cores of the turns, and the logs that they left.
pub struct Recording {
    pub turns: Vec<u8>,
    pub store: Vec<u8>,
}

/// Cores in the order of their turns.
struct Order {
    schedule: Schedule,
    random: Random,
    going: Vec<u8>,
    /// The core that is in a burst, with the turns that are left of it.
    burst: (u8, usize),
    turn: usize,
}

impl Order {
    fn new(schedule: Schedule, cores: usize) -> Self {
        let going = (0..cores as u8).collect();
        Order {
            schedule,
            random: Random::new(12345),
            going,
            burst: (0, 0),
            turn: 0,
        }
    }

    fn next(&mut self) -> Option<u8> {
        if self.going.is_empty() {
            return None;
        }
        self.turn += 1;
        Some(match self.schedule {
            Schedule::AnyCore => self.any(),
            Schedule::RoundRobin => self.going[self.turn % self.going.len()],
            Schedule::CoreByCore => self.going[0],
            Schedule::Bursts => self.in_burst(),
        })
    }

    fn any(&mut self) -> u8 {
        self.going[self.random.below(self.going.len())]
    }

    fn in_burst(&mut self) -> u8 {
        let (core, left) = self.burst;
        if left == 0 || !self.going.contains(&core) {
            self.burst = (self.any(), 1 + self.random.below(128));
        }
        self.burst.1 -= 1;
        self.burst.0
    }

    /// The core takes no turn any more.
    fn end(&mut self, core: u8) {
        self.going.retain(|&other| other != core);
    }
}
