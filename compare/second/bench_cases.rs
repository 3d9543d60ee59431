//! Inputs of `bench` that a seed decides: spelled sessions, and malformed input of every sort.

use crate::bench::WHITE_SPACE;
use crate::cores::Kind;
use crate::generate::{session, Plan};
use crate::random::Random;
use crate::session::{Reducer, Session};

pub struct BenchCase {
    pub class: &'static str,
    pub input: Vec<u8>,
}

pub fn bench_case(random: &mut Random) -> BenchCase {
    let (class, plan) = random.weighed(&[
        (10, ("script cores", Some(Plan::Script))),
        (10, ("register cores", Some(Plan::Register))),
        (3, ("register cores, any items", Some(Plan::AnyRegister))),
        (2, ("full logs", Some(Plan::FullLogs))),
        (10, ("malformed input", None)),
    ]);
    let input = match plan {
        Some(plan) => {
            let session = session(random, plan);
            spelled(random, &words(&session))
        }
        None => malformed(random),
    };
    BenchCase { class, input }
}

type Word = Vec<u8>;

/// The places of some words in the input of a session.
struct Places {
    item_count: usize,
    first_item: usize,
    first_start: usize,
    turn_count: usize,
    first_turn: usize,
}

impl Places {
    fn of(session: &Session) -> Places {
        let first_start = 5 + 4 * session.items.len();
        let turn_count = first_start + session.starts.len();
        Places {
            item_count: 4,
            first_item: 5,
            first_start,
            turn_count,
            first_turn: turn_count + 1,
        }
    }
}

fn words(session: &Session) -> Vec<Word> {
    let kind = match session.kind {
        Kind::Script => 0,
        Kind::Register => 1,
    };
    let reducer = match session.reducer {
        Reducer::KeepAll => 0,
        Reducer::Pairwise => 1,
        Reducer::Exact => 2,
    };
    let mut numbers = vec![
        kind,
        reducer,
        session.starts.len(),
        session.cells,
        session.items.len(),
    ];
    numbers.extend(
        session
            .items
            .iter()
            .flatten()
            .map(|&byte| usize::from(byte)),
    );
    numbers.extend(session.starts.iter().map(|&start| usize::from(start)));
    numbers.push(session.turns.len());
    numbers.extend(session.turns.iter().map(|&core| usize::from(core)));
    numbers.into_iter().map(word).collect()
}

fn word(number: usize) -> Word {
    number.to_string().into_bytes()
}

#[derive(Clone, Copy)]
enum Spelling {
    /// One space between numbers, and one newline at the end.
    Plain,
    /// Spaces and newlines.
    Lines,
    /// Any white space of any length, and leading zeros.
    Any,
}

fn spelled(random: &mut Random, words: &[Word]) -> Vec<u8> {
    match random.pick(&[Spelling::Plain, Spelling::Lines, Spelling::Any]) {
        Spelling::Plain => [words.join(&b' '), vec![b'\n']].concat(),
        Spelling::Lines => spelled_with(random, words, b" \n", 1),
        Spelling::Any => {
            let words: Vec<Word> = words
                .iter()
                .map(|word| with_leading_zeros(random, word))
                .collect();
            spelled_with(random, &words, &WHITE_SPACE, 3)
        }
    }
}

fn spelled_with(random: &mut Random, words: &[Word], spaces: &[u8], longest: usize) -> Vec<u8> {
    let mut input = white_space(random, spaces, 0, longest);
    for word in words {
        input.extend(word);
        input.extend(white_space(random, spaces, 1, longest));
    }
    if random.one_in(3) {
        while input.last().is_some_and(|byte| spaces.contains(byte)) {
            input.pop();
        }
    }
    input
}

fn white_space(random: &mut Random, spaces: &[u8], shortest: usize, longest: usize) -> Vec<u8> {
    (0..random.between(shortest, longest))
        .map(|_| random.pick(spaces))
        .collect()
}

fn with_leading_zeros(random: &mut Random, word: &[u8]) -> Word {
    let zeros = match random.below(40) {
        0 => random.between(10, 300),
        1..=8 => random.between(1, 6),
        _ => 0,
    };
    [&vec![b'0'; zeros], word].concat()
}

#[derive(Clone, Copy)]
enum Damage {
    MissingWord,
    SurplusWord,
    SurplusAtEnd,
    SwappedWords,
    PastBound,
    CountOff,
    WrongWord,
    WrongByte,
    Cut,
    NoNumbers,
    AnyDigits,
    AnyBytes,
}

fn malformed(random: &mut Random) -> Vec<u8> {
    let plan = random.pick(&[Plan::Script, Plan::Register]);
    let mut session = session(random, plan);
    session.items.truncate(random.between(0, 12));
    session.turns.truncate(random.between(0, 12));
    let mut words = words(&session);
    match random.weighed(&[
        (2, Damage::MissingWord),
        (2, Damage::SurplusWord),
        (1, Damage::SurplusAtEnd),
        (1, Damage::SwappedWords),
        (6, Damage::PastBound),
        (2, Damage::CountOff),
        (5, Damage::WrongWord),
        (6, Damage::WrongByte),
        (2, Damage::Cut),
        (1, Damage::NoNumbers),
        (1, Damage::AnyDigits),
        (1, Damage::AnyBytes),
    ]) {
        Damage::MissingWord => {
            words.remove(random.below(words.len()));
        }
        Damage::SurplusWord => {
            let place = random.below(words.len() + 1);
            words.insert(place, word(random.pick(&[0, 1, 2, 3, 4, 255, 65_535])));
        }
        Damage::SurplusAtEnd => {
            for _ in 0..random.between(1, 3) {
                words.push(word(random.pick(&[0, 1, 65_535])));
            }
        }
        Damage::SwappedWords => {
            let (one, other) = (random.below(words.len()), random.below(words.len()));
            words.swap(one, other);
        }
        Damage::PastBound => past_bound(random, session, &mut words),
        Damage::CountOff => count_off(random, &session, &mut words),
        Damage::WrongWord => {
            let place = random.below(words.len());
            words[place] = wrong_word(random, &words[place]);
        }
        Damage::WrongByte => return wrong_byte(random, &words),
        Damage::Cut => {
            let mut input = spelled(random, &words);
            input.truncate(random.below(input.len() + 1));
            return input;
        }
        Damage::NoNumbers => {
            let length = random.below(4);
            return white_space(random, &WHITE_SPACE, length, length);
        }
        Damage::AnyDigits => {
            let length = random.between(1, 60);
            return (0..length).map(|_| random.pick(b"0001234 \n\t")).collect();
        }
        Damage::AnyBytes => {
            let length = random.between(1, 40);
            return random.bytes(length);
        }
    }
    spelled(random, &words)
}

/// One number at its bound or just past it, the rest of the input as the number asks for.
fn past_bound(random: &mut Random, mut session: Session, words: &mut Vec<Word>) {
    match random.below(4) {
        0 => session.items.resize(random.pick(&[256, 257]), [1, 0, 0, 0]),
        1 => session.turns.resize(random.pick(&[1_024, 1_025]), 0),
        2 => session.starts.resize(random.pick(&[0, 4, 5]), 0),
        _ => {}
    }
    *words = self::words(&session);
    let places = Places::of(&session);
    let (place, number) = match random.below(10) {
        0 => (0, random.pick(&[1, 2, 3, 65_535])),
        1 => (1, random.pick(&[2, 3, 4, 65_535])),
        2 => (3, random.pick(&[0, 256, 257, 65_535])),
        3 if !session.items.is_empty() => {
            let byte = random.below(4 * session.items.len());
            (
                places.first_item + byte,
                random.pick(&[255, 256, 257, 65_535, 65_536]),
            )
        }
        4 if !session.starts.is_empty() => {
            let core = random.below(session.starts.len());
            (
                places.first_start + core,
                random.pick(&[65_535, 65_536, 65_537, 131_072]),
            )
        }
        5 if !session.turns.is_empty() => {
            let turn = random.below(session.turns.len());
            (
                places.first_turn + turn,
                random.pick(&[65_535, 65_536, 65_537, 131_072]),
            )
        }
        _ => return,
    };
    words[place] = word(number);
}

/// The number of cores, items or turns is one off, the rest is as it was.
fn count_off(random: &mut Random, session: &Session, words: &mut [Word]) {
    let places = Places::of(session);
    let (place, count) = random.pick(&[
        (2, session.starts.len()),
        (places.item_count, session.items.len()),
        (places.turn_count, session.turns.len()),
    ]);
    words[place] = word(if random.one_in(2) {
        count + 1
    } else {
        count.saturating_sub(1)
    });
}

/// A word that is no number of the input, or a number that is too large.
fn wrong_word(random: &mut Random, word: &[u8]) -> Word {
    let text = String::from_utf8_lossy(word);
    let spelled = match random.below(16) {
        0 => format!("-{text}"),
        1 => format!("+{text}"),
        2 => format!("{text}-"),
        3 => format!("{text}a"),
        4 => format!("0x{text}"),
        5 => format!("{text}.0"),
        6 => format!("{text},"),
        7 => format!("{text}_0"),
        8 => format!("{text}e0"),
        9 => "-0".to_string(),
        10 => "65536".to_string(),
        // Their values modulo 2^16, 2^32, 2^64 and 2^128 are the value of the word.
        11 => wrapped(&text, 1 << 16),
        12 => wrapped(&text, 1 << 32),
        13 => wrapped(&text, 1 << 64),
        14 => "340282366920938463463374607431768211456".to_string(),
        _ => format!("{text}{}", "0".repeat(random.between(5, 400))),
    };
    spelled.into_bytes()
}

fn wrapped(text: &str, modulus: u128) -> String {
    text.parse::<u128>().map_or_else(
        |_| "70000".to_string(),
        |value| (value + modulus).to_string(),
    )
}

/// Bytes that are neither digits nor white space, or are white space elsewhere only.
const OTHER_BYTES: [&[u8]; 24] = [
    b"\0",
    b"\xff",
    b"\x1c",
    b"\x1d",
    b"\x1e",
    b"\x1f",
    b"\x08",
    b"\x0e",
    b"\x7f",
    b"\x80",
    b"\x85",
    b"\xa0",
    b"\xc2\x85",
    b"\xc2\xa0",
    b"\xe2\x80\x83",
    b"\xe2\x80\xa8",
    b"\xef\xbb\xbf",
    b"/",
    b":",
    b"\xd9\xa3",
    b"\xef\xbc\x93",
    b"\xc0\xb1",
    b"\xed\xa0\x80",
    b"\xf0\x9d\x9f\x8f",
];

/// One wrong sequence of bytes in the spelled input: between numbers, within one, at an end, or
/// in place of a byte.
fn wrong_byte(random: &mut Random, words: &[Word]) -> Vec<u8> {
    let mut input = spelled(random, words);
    let any = [random.byte()];
    let wrong = if random.one_in(4) {
        &any[..]
    } else {
        random.pick(&OTHER_BYTES)
    };
    let place = match random.below(6) {
        0 => 0,
        1 => input.len(),
        _ => random.below(input.len() + 1),
    };
    let replaced = usize::from(place < input.len() && random.one_in(3));
    input.splice(place..place + replaced, wrong.iter().copied());
    input
}
