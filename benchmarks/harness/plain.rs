//! The peer behind the product's three calls, with the same checksum of the answers.

use crate::sides::{Kind, Reduction, Session};
use peer::cores::{Core, Register, Script};
use peer::logs::Fault;
use peer::recorder::{Recorded, Recorder, Refusal};
use peer::reducers::{Exact, KeepAll, Pairwise, Reducer};
use peer::replayer::{Done, Ended, Refusal as OpenRefusal, Replayer, StepRefusal};
use peer::sizes::Sizes;

impl Session {
    pub fn sizes(&self) -> Sizes {
        Sizes {
            cores: self.cores,
            cells: self.cells,
            log_bytes: self.log_bytes,
        }
    }
}

/// Numbers as digits of 16 bits, the last ones of a long list.
fn packed<const N: usize>(digits: [u64; N]) -> u64 {
    digits
        .into_iter()
        .fold(0, |sum, digit| sum.wrapping_mul(65536).wrapping_add(digit))
}

fn mix(sum: u64, number: u64) -> u64 {
    sum.wrapping_mul(31).wrapping_add(number)
}

fn begin_number(answer: Result<(), Refusal>) -> u64 {
    answer.err().map_or(0, |refusal| refusal as u64)
}

fn turn_number(answer: Result<Recorded, Refusal>) -> u64 {
    match answer {
        Ok(Recorded {
            count,
            number,
            arcs,
            ..
        }) => packed([count.into(), number.into(), arcs.into()]),
        Err(refusal) => refusal as u64,
    }
}

fn fault_number(fault: Fault) -> u64 {
    let Fault {
        layer,
        core,
        offset,
        cause,
    } = fault;
    packed([9, layer.into(), core.into(), offset as u64, cause.into()])
}

fn refusal_number(refusal: OpenRefusal) -> u64 {
    match refusal {
        OpenRefusal::BadSetting => 8,
        OpenRefusal::LogFault(fault) => fault_number(fault),
    }
}

fn opening_number(answer: Result<(), OpenRefusal>) -> u64 {
    answer.err().map_or(0, refusal_number)
}

fn step_number(answer: Result<Done, StepRefusal>) -> u64 {
    match answer {
        Ok(Done { count, number, .. }) => packed([count.into(), number.into()]),
        Err(StepRefusal::NoSuchCore) => 1,
        Err(StepRefusal::Halted) => 2,
        Err(StepRefusal::NoSuchCell) => 4,
        Err(StepRefusal::Waits { core, count }) => packed([6, core.into(), count.into()]),
        Err(StepRefusal::Replayed) => 7,
        Err(StepRefusal::BadSetting) => 8,
        Err(StepRefusal::LogFault(fault)) => fault_number(fault),
    }
}

fn run_number(answer: Result<Ended, OpenRefusal>) -> u64 {
    match answer {
        Ok(Ended::Finished(steps)) => steps.into(),
        Ok(Ended::Stopped(steps)) => (1 << 32) + u64::from(steps),
        Err(refusal) => refusal_number(refusal),
    }
}

fn record_with<R: Reducer, K: Core>(
    sizes: Sizes,
    text: &[u8],
    cores: &mut [K],
    cells: &mut [u16],
    store: &mut [u8],
    turns: &[u8],
) -> u64 {
    let mut recorder = Recorder::<R>::default();
    let mut sum = begin_number(recorder.begin(sizes, cores, cells, store));
    for &core in turns {
        let answer = recorder.turn(text, cores, cells, store, core.into());
        sum = mix(sum, turn_number(answer));
    }
    sum
}

fn record_kind<K: Core>(
    session: &Session,
    text: &[u8],
    cells: &mut [u16],
    store: &mut [u8],
    turns: &[u8],
) -> u64 {
    let cores = &mut session.places.map(K::new);
    let sizes = session.sizes();
    match session.reduction {
        Reduction::KeepAll => record_with::<KeepAll, K>(sizes, text, cores, cells, store, turns),
        Reduction::Pairwise => record_with::<Pairwise, K>(sizes, text, cores, cells, store, turns),
        Reduction::Exact => record_with::<Exact, K>(sizes, text, cores, cells, store, turns),
    }
}

#[inline(never)]
pub fn record(
    session: &Session,
    text: &[u8],
    cells: &mut [u16],
    store: &mut [u8],
    turns: &[u8],
) -> u64 {
    match session.kind {
        Kind::Script => record_kind::<Script>(session, text, cells, store, turns),
        Kind::Register => record_kind::<Register>(session, text, cells, store, turns),
    }
}

#[inline(never)]
pub fn open(session: &Session, cells: &[u16], store: &[u8]) -> u64 {
    let cores = session.places.map(Script::new);
    opening_number(Replayer::default().open(session.sizes(), &cores, cells, store))
}

fn replay_kind<K: Core>(
    session: &Session,
    text: &[u8],
    cells: &mut [u16],
    store: &[u8],
    steps: &[u8],
    runs: bool,
) -> u64 {
    let cores = &mut session.places.map(K::new);
    let mut replayer = Replayer::default();
    let mut sum = opening_number(replayer.open(session.sizes(), cores, cells, store));
    for &core in steps {
        let answer = replayer.step(text, cores, cells, store, core.into());
        sum = mix(sum, step_number(answer));
    }
    if runs {
        sum = mix(sum, run_number(replayer.run(text, cores, cells, store)));
    }
    sum
}

#[inline(never)]
pub fn replay(
    session: &Session,
    text: &[u8],
    cells: &mut [u16],
    store: &[u8],
    steps: &[u8],
    runs: bool,
) -> u64 {
    match session.kind {
        Kind::Script => replay_kind::<Script>(session, text, cells, store, steps, runs),
        Kind::Register => replay_kind::<Register>(session, text, cells, store, steps, runs),
    }
}

fn execute_kind<K: Core>(session: &Session, text: &[u8], cells: &mut [u16], turns: &[u8]) -> u64 {
    let cores = &mut session.places.map(K::new);
    let mut sum = 0;
    for &turn in turns {
        let core = &mut cores[usize::from(turn)];
        let number = core.ask(text).act(cells);
        core.tell(text, number);
        sum = mix(sum, number.into());
    }
    sum
}

/// The instructions of these turns with no recorder: the checksum of the numbers that they bring.
#[inline(never)]
pub fn execute(session: &Session, text: &[u8], cells: &mut [u16], turns: &[u8]) -> u64 {
    match session.kind {
        Kind::Script => execute_kind::<Script>(session, text, cells, turns),
        Kind::Register => execute_kind::<Register>(session, text, cells, turns),
    }
}
