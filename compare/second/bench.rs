//! The program `bench`: its input, and the text that it prints.

use crate::cores::Kind;
use crate::recorder::{record, Recording};
use crate::replay::{Replayer, RunAnswer};
use crate::session::{Reducer, Session};
use std::fmt::Write;
use std::ops::RangeInclusive;

const LOG_BYTES: usize = 4_096;

/// The white space that may stand between numbers.
pub const WHITE_SPACE: [u8; 6] = *b" \t\n\x0b\x0c\r";

/// What `bench` prints for an input, and what happened in the session if it describes one.
pub struct Answer {
    pub text: String,
    pub session: Option<Account>,
}

/// What happened in a session.
pub struct Account {
    /// How many turns were refused with each number.
    pub refused: [u32; 10],
    /// Whether the replay carried out every accepted turn and ended with the recording's cells
    /// and cores.
    pub replayed_whole: bool,
}

pub fn answer(input: &[u8]) -> Answer {
    match read_input(input) {
        Some(session) => answer_session(&session),
        None => Answer {
            text: "bad\n".to_string(),
            session: None,
        },
    }
}

fn answer_session(session: &Session) -> Answer {
    let store = vec![0; session.starts.len() * LOG_BYTES];
    let recording = record(session, LOG_BYTES, store).expect("the input keeps the ranges");
    let recorder = &recording.recorder;
    let mut replayer = Replayer::open(
        session.setting(LOG_BYTES),
        session.starting_cores(),
        session.starting_cells(),
        &recorder.store,
    )
    .expect("the logs of a recording open");
    let run = replayer
        .run(&session.text(), &recorder.store)
        .expect("the store is long enough");
    let replayed_whole =
        run == RunAnswer::Finished(recording.accepted) && replayer.memory == recorder.memory;
    let account = Account {
        refused: recording.refused,
        replayed_whole,
    };
    Answer {
        text: listing(&recording, run),
        session: Some(account),
    }
}

fn listing(recording: &Recording, run: RunAnswer) -> String {
    let mut text = String::new();
    for (core, arcs) in recording.recorder.arcs().iter().enumerate() {
        for arc in arcs {
            let source = arc.source;
            let _ = writeln!(
                text,
                "arc {} {} {core} {}",
                source.core, source.count, arc.target_count
            );
        }
    }
    text.push_str("cells");
    for number in &recording.recorder.memory.cells {
        let _ = write!(text, " {number}");
    }
    let (RunAnswer::Finished(steps) | RunAnswer::Stopped(steps)) = run;
    let _ = writeln!(text, "\nreplayed {steps}");
    text
}

/// The session that an input describes, if it describes one.
pub fn read_input(input: &[u8]) -> Option<Session> {
    let numbers = input
        .split(|byte| WHITE_SPACE.contains(byte))
        .filter(|word| !word.is_empty())
        .map(number)
        .collect::<Option<Vec<u16>>>()?;
    let mut numbers = Numbers { left: &numbers };
    let session = numbers.session()?;
    numbers.left.is_empty().then_some(session)
}

/// The number that a word spells, if it is digits alone and its value at most 65,535.
pub fn number(word: &[u8]) -> Option<u16> {
    if word.is_empty() {
        return None;
    }
    word.iter().try_fold(0u16, |value, &byte| {
        let digit = byte.is_ascii_digit().then(|| u16::from(byte - b'0'))?;
        value.checked_mul(10)?.checked_add(digit)
    })
}

/// The numbers of the input that are left to be read.
struct Numbers<'a> {
    left: &'a [u16],
}

impl Numbers<'_> {
    fn session(&mut self) -> Option<Session> {
        let kind = match self.within(0..=1)? {
            0 => Kind::Script,
            _ => Kind::Register,
        };
        let reducer = match self.within(0..=2)? {
            0 => Reducer::KeepAll,
            1 => Reducer::Pairwise,
            _ => Reducer::Exact,
        };
        let cores = self.within(1..=4)?;
        let cells = usize::from(self.within(1..=256)?);
        let items = self.within(0..=256)?;
        let items = (0..items).map(|_| self.item()).collect::<Option<_>>()?;
        let starts = self.list(cores)?;
        let turns = self.within(0..=1_024)?;
        let turns = self.list(turns)?;
        Some(Session {
            kind,
            reducer,
            cells,
            items,
            starts,
            turns,
        })
    }

    fn next(&mut self) -> Option<u16> {
        let (&first, left) = self.left.split_first()?;
        self.left = left;
        Some(first)
    }

    fn within(&mut self, range: RangeInclusive<u16>) -> Option<u16> {
        self.next().filter(|number| range.contains(number))
    }

    fn item(&mut self) -> Option<[u8; 4]> {
        let mut item = [0; 4];
        for byte in &mut item {
            *byte = u8::try_from(self.next()?).ok()?;
        }
        Some(item)
    }

    fn list(&mut self, length: u16) -> Option<Vec<u16>> {
        (0..length).map(|_| self.next()).collect()
    }
}
