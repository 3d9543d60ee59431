//! What is measured: calls of each kind, many in a row, behind what has to be done before them.

use crate::logs::ends_of;
use crate::sides::{Reduction, Session, Side};
use crate::workloads::{self, Workload};

/// A call whose speed is measured, or a part of one.
#[derive(Clone, Copy, PartialEq, Eq)]
pub enum Call {
    Turn,
    Step,
    RunStep,
    WaitingStep,
    OpenedByte,
    RefusedTurn,
    RefusedStep,
    FirstTurn,
}

impl Call {
    pub const ALL: [Call; 8] = [
        Call::Turn,
        Call::Step,
        Call::RunStep,
        Call::WaitingStep,
        Call::OpenedByte,
        Call::RefusedTurn,
        Call::RefusedStep,
        Call::FirstTurn,
    ];

    pub fn name(self) -> &'static str {
        match self {
            Call::Turn => "turn",
            Call::Step => "step",
            Call::RunStep => "run, for each step",
            Call::WaitingStep => "waiting step",
            Call::OpenedByte => "opening, for each byte of log",
            Call::RefusedTurn => "refused turn",
            Call::RefusedStep => "refused step",
            Call::FirstTurn => "new recorder, begin and one turn",
        }
    }
}

/// Calls of one side.
pub enum Work {
    Record { turns: Vec<u8> },
    Open,
    Replay { steps: Vec<u8>, runs: bool },
}

/// Which work of a scenario is done.
#[derive(Clone, Copy, PartialEq)]
pub enum Part {
    /// What has to be done before the calls that are measured.
    Before,
    /// The same and those calls.
    Whole,
}

impl Part {
    pub const BOTH: [Part; 2] = [Part::Before, Part::Whole];
}

/// So many calls of a kind, with what they work on.
pub struct Scenario {
    pub call: Call,
    pub title: String,
    /// How many calls, or bytes, the whole has more than what is before it.
    pub units: usize,
    session: Session,
    text: Vec<u8>,
    cells: Vec<u16>,
    store: Vec<u8>,
    before: Option<Work>,
    whole: Work,
}

impl Scenario {
    /// Does a part of the work; gives the checksum.
    pub fn perform(&mut self, side: Side, part: Part) -> u64 {
        let Scenario {
            session,
            text,
            cells,
            store,
            before,
            whole,
            ..
        } = self;
        let work = match (part, before) {
            (Part::Whole, _) => whole,
            (Part::Before, Some(before)) => before,
            (Part::Before, None) => return 0,
        };
        cells.fill(0);
        match work {
            Work::Record { turns } => side.record(session, text, cells, store, turns),
            Work::Open => side.open(session, cells, store),
            Work::Replay { steps, runs } => side.replay(session, text, cells, store, steps, *runs),
        }
    }
}

/// How much is measured.
pub struct Extent {
    pub workloads: Vec<Workload>,
    /// The most turns of a recording.
    pub turns: usize,
    /// How many turns or steps are refused in a row. A tenth as many wait.
    pub refused: usize,
}

impl Extent {
    pub fn short() -> Self {
        Extent {
            workloads: workloads::some(),
            turns: 20_000,
            refused: 100_000,
        }
    }

    pub fn long() -> Self {
        Extent {
            workloads: workloads::all(),
            turns: usize::MAX,
            refused: 200_000,
        }
    }

    /// Hands each scenario to `each`, one at a time.
    pub fn visit(&self, each: &mut impl FnMut(Scenario)) {
        for workload in &self.workloads {
            for reduction in Reduction::ALL {
                self.visit_workload(workload, reduction, each);
            }
        }
        self.visit_waiting(each);
        self.visit_refused_turns(each);
        self.visit_refused_steps(each);
        for workload in [
            workloads::random(2, 1),
            workloads::random(4, 1),
            workloads::random(4, 256),
        ] {
            for reduction in Reduction::ALL {
                let turns = workload.recorded(reduction, 1).turns;
                let scenario = Case::new(Call::FirstTurn, &workload, reduction);
                each(scenario.whole(Work::Record { turns }, 1));
            }
        }
    }

    /// The turns of a workload; and of what was recorded the opening, the steps in the recording's
    /// order, and a run.
    fn visit_workload(
        &self,
        workload: &Workload,
        reduction: Reduction,
        each: &mut impl FnMut(Scenario),
    ) {
        let recording = workload.recorded(reduction, self.turns);
        let count = recording.turns.len();
        let bytes = ends_of(&recording.store).bytes;
        let case = |call| Case::new(call, workload, reduction).over(&recording.store);
        let turns = recording.turns.clone();
        each(
            case(Call::Turn)
                .after(record(&[]))
                .whole(Work::Record { turns }, count),
        );
        if reduction == Reduction::Pairwise {
            return;
        }
        each(case(Call::OpenedByte).whole(Work::Open, bytes));
        let steps = recording.turns.clone();
        each(
            case(Call::Step)
                .after(Work::Open)
                .whole(Work::Replay { steps, runs: false }, count),
        );
        let run = Work::Replay {
            steps: vec![],
            runs: true,
        };
        each(case(Call::RunStep).after(Work::Open).whole(run, count));
    }

    fn visit_waiting(&self, each: &mut impl FnMut(Scenario)) {
        let n = self.refused / 10;
        for cores in 2..=4 {
            let workload = workloads::long_wait(cores);
            let recording = workload.recorded(Reduction::Exact, usize::MAX);
            let case = Case::new(Call::WaitingStep, &workload, Reduction::Exact);
            each(
                case.over(&recording.store)
                    .after(steps(&[]))
                    .whole(steps(&vec![1; n]), n),
            );
        }
        let workload = workloads::ping_pong(4, 4);
        let recording = workload.recorded(Reduction::KeepAll, usize::MAX);
        for core in 0..4u8 {
            let case = Case::new(Call::WaitingStep, &workload, Reduction::KeepAll);
            let case = case
                .over(&recording.store)
                .named(&format!("only core {core} is stepped"));
            // soon it waits for the others
            let first = vec![core; 1000];
            each(
                case.after(steps(&first))
                    .whole(steps(&[first, vec![core; n]].concat()), n),
            );
        }
    }

    fn visit_refused_turns(&self, each: &mut impl FnMut(Scenario)) {
        let n = self.refused;
        let full = workloads::ping_pong(4, 4);
        let spent = workloads::local(4, 256);
        for reduction in [Reduction::KeepAll, Reduction::Exact] {
            let filled = full.recorded(reduction, usize::MAX).turns;
            // the core behind the last one found its log full
            let full_core = (filled[filled.len() - 1] + 1) % 4;
            let cases: [(&str, &Workload, Vec<u8>, u8); 5] = [
                ("no such core", &full, vec![], 9),
                ("halted", &full.with_text(&[]), vec![], 0),
                ("count spent", &spent, vec![0; 65535], 0),
                ("no such cell", &full.with_text(&no_such_cell()), vec![], 0),
                ("log full", &full, filled, full_core),
            ];
            for (name, workload, first, core) in cases {
                let case = Case::new(Call::RefusedTurn, workload, reduction).named(name);
                let all = [&first[..], &vec![core; n]].concat();
                each(case.after(record(&first)).whole(record(&all), n));
            }
        }
    }

    fn visit_refused_steps(&self, each: &mut impl FnMut(Scenario)) {
        let n = self.refused;
        let workload = workloads::ping_pong(4, 4);
        let recording = workload.recorded(Reduction::KeepAll, usize::MAX);
        let cases: [(&str, &Workload, Vec<u8>, u8); 4] = [
            ("no such core", &workload, vec![], 9),
            ("replayed", &workload, recording.turns.clone(), 0),
            (
                "halted",
                &workload.with_text(&[]),
                vec![],
                recording.turns[0],
            ),
            (
                "no such cell",
                &workload.with_text(&no_such_cell()),
                vec![],
                recording.turns[0],
            ),
        ];
        for (name, changed, first, core) in cases {
            let case = Case::new(Call::RefusedStep, changed, Reduction::KeepAll).named(name);
            let all = [&first[..], &vec![core; n]].concat();
            each(
                case.over(&recording.store)
                    .after(steps(&first))
                    .whole(steps(&all), n),
            );
        }
    }
}

/// Reads of cell 200.
fn no_such_cell() -> Vec<u8> {
    [1, 200, 0, 0].repeat(65535)
}

fn record(turns: &[u8]) -> Work {
    Work::Record {
        turns: turns.to_vec(),
    }
}

fn steps(steps: &[u8]) -> Work {
    Work::Replay {
        steps: steps.to_vec(),
        runs: false,
    }
}

/// A scenario that is being put together.
struct Case<'a> {
    call: Call,
    title: String,
    workload: &'a Workload,
    reduction: Reduction,
    store: Vec<u8>,
    before: Option<Work>,
}

impl<'a> Case<'a> {
    fn new(call: Call, workload: &'a Workload, reduction: Reduction) -> Self {
        let title = format!("{}, {}", workload.title(), reduction.name());
        let store = workload.new_store();
        Case {
            call,
            title,
            workload,
            reduction,
            store,
            before: None,
        }
    }

    fn named(mut self, name: &str) -> Self {
        self.title = format!("{name}: {}", self.title);
        self
    }

    /// Over the logs that were recorded.
    fn over(mut self, store: &[u8]) -> Self {
        self.store = store.to_vec();
        self
    }

    fn after(mut self, before: Work) -> Self {
        self.before = Some(before);
        self
    }

    fn whole(self, whole: Work, units: usize) -> Scenario {
        Scenario {
            call: self.call,
            title: self.title,
            units,
            session: self.workload.session(self.reduction),
            text: self.workload.text.clone(),
            cells: self.workload.new_cells(),
            store: self.store,
            before: self.before,
            whole,
        }
    }
}
