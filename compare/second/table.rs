//! A table of cases and expected lines, for a program that compares them.

use crate::bench::{answer, number};
use crate::bench_cases::BenchCase;
use crate::check::{case, hexadecimal, Case};
use crate::inspect::listing;
use crate::inspect_cases::{File, InspectorCase};
use crate::session::Setting;
use std::fmt::Write;

/// Longer inputs and stores are left out of the table.
const INPUT_BYTES_AT_MOST: usize = 1_500;
const STORE_BYTES_AT_MOST: usize = 600;

/// The lines that ask, and the text expected in answer.
struct Entry {
    asked: String,
    text: String,
}

/// The first `cases` cases of a seed that the table has room and letters for, and behind them those of `spoiled`.
pub fn table(seed: u64, cases: u64) -> String {
    let entries: Vec<Entry> = (0..)
        .filter_map(|number| match case(seed, number) {
            Case::Bench(case) => bench_entry(&case),
            Case::Inspector(case) => inspector_entry(&case),
        })
        .take(cases as usize)
        .collect();
    let spoiled = spoiled(&entries);
    entries.iter().chain(&spoiled).map(lines).collect()
}

fn bench_entry(case: &BenchCase) -> Option<Entry> {
    let plain = |&byte: &u8| byte == b'\n' || (b' '..=b'~').contains(&byte);
    if case.input.len() > INPUT_BYTES_AT_MOST || !case.input.iter().all(plain) {
        return None;
    }
    let mut asked = String::new();
    for line in String::from_utf8_lossy(&case.input).split('\n') {
        let _ = writeln!(asked, "in {line}");
    }
    let text = answer(&case.input).text;
    Some(Entry { asked, text })
}

fn inspector_entry(case: &InspectorCase) -> Option<Entry> {
    let File::Store(store) = &case.file else {
        return None;
    };
    let numbers: Option<Vec<u16>> = case.words.iter().map(|word| number(word)).collect();
    let &[cores, cells, log_bytes] = numbers?.as_slice() else {
        return None;
    };
    if !case.named || store.len() > STORE_BYTES_AT_MOST {
        return None;
    }
    let setting = Setting {
        cores: usize::from(cores),
        cells: usize::from(cells),
        log_bytes: usize::from(log_bytes),
    };
    let bytes = if store.is_empty() {
        "-".to_string()
    } else {
        hexadecimal(store)
    };
    Some(Entry {
        asked: format!("log {cores} {cells} {log_bytes} {bytes}\n"),
        text: listing(setting, store),
    })
}

/// Five cases whose expected text is wrong on purpose, so that a comparison that does not compare is seen: of a session with two arcs
/// or more, and of the first store that is refused.
fn spoiled(entries: &[Entry]) -> Vec<Entry> {
    let Some(session) = entries.iter().find(|entry| {
        let mut lines = entry.text.lines();
        let first = lines.next().filter(|line| line.starts_with("arc"));
        let second = lines.next().filter(|line| line.starts_with("arc"));
        second.is_some() && first != second
    }) else {
        return Vec::new();
    };
    let Some(store) = entries
        .iter()
        .find(|entry| entry.asked.starts_with("log") && entry.text.contains("layer"))
    else {
        return Vec::new();
    };
    let text = session.text.as_str();
    [
        (session, last_byte_changed(text)),
        (session, first_lines_swapped(text)),
        (session, first_line_missing(text)),
        (session, text.trim_end().to_string() + "0\n"),
        (store, verdict_changed(&store.text)),
    ]
    .map(|(entry, text)| Entry {
        asked: entry.asked.clone(),
        text,
    })
    .into()
}

/// The last byte before the newline: it is a digit.
fn last_byte_changed(text: &str) -> String {
    let mut text = text.trim_end().to_string();
    let other = if text.pop() == Some('1') { '2' } else { '1' };
    text + &format!("{other}\n")
}

/// Another text of the same length.
fn first_lines_swapped(text: &str) -> String {
    let mut lines: Vec<&str> = text.lines().collect();
    lines.swap(0, 1);
    lines.join("\n") + "\n"
}

fn first_line_missing(text: &str) -> String {
    text.split_inclusive('\n').skip(1).collect()
}

/// The last line says that the store is accepted.
fn verdict_changed(text: &str) -> String {
    let mut lines: Vec<&str> = text.lines().collect();
    lines.pop();
    lines.push("accepted");
    lines.join("\n") + "\n"
}

/// The lines of a case: what is asked, what is expected, and an empty line.
fn lines(entry: &Entry) -> String {
    let mut lines = entry.asked.clone();
    for line in entry.text.lines() {
        let _ = writeln!(lines, "out {line}");
    }
    lines.push('\n');
    lines
}
