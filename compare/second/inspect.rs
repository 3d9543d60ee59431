//! The program `inspect`: its arguments, and the listing of a log store.

use crate::bench::number;
use crate::logs::{read_logs, Cause, Fault, Placed, Record};
use crate::session::Setting;
use std::ffi::OsString;
use std::fmt::Write;
use std::os::unix::ffi::OsStrExt;

const BAD_SETTING: &str = "refused: bad setting: cores 1 to 4, cells 1 to 256, log bytes 12 to \
                           16384, and a store of at least cores x log bytes\n";

const CALL: &str = "call: inspect FILE P C L";

/// The listing for the arguments of the program, or the line that says what is wrong.
pub fn called_with(arguments: &[OsString]) -> Result<String, String> {
    let [file, cores, cells, log_bytes] = arguments else {
        return Err(format!("four arguments are needed; {CALL}"));
    };
    let argument = |word: &OsString| {
        number(word.as_bytes())
            .map(usize::from)
            .ok_or_else(|| format!("{word:?} is no number from 0 to 65535; {CALL}"))
    };
    let setting = Setting {
        cores: argument(cores)?,
        cells: argument(cells)?,
        log_bytes: argument(log_bytes)?,
    };
    let store = std::fs::read(file).map_err(|error| format!("{file:?}: {error}; {CALL}"))?;
    Ok(listing(setting, &store))
}

/// What the program prints of a store.
pub fn listing(setting: Setting, store: &[u8]) -> String {
    if !setting.in_range() || store.len() < setting.store_bytes() {
        return BAD_SETTING.to_string();
    }
    let reading = read_logs(setting, store);
    let mut text = String::new();
    for (core, records) in reading.logs.iter().enumerate() {
        let _ = writeln!(text, "log of core {core}");
        for placed in records {
            let _ = writeln!(text, "  {}", record_line(core, placed));
        }
    }
    match reading.fault {
        None => text.push_str("accepted\n"),
        Some(fault) => {
            let _ = writeln!(text, "{}", fault_line(&fault));
        }
    }
    text
}

fn record_line(core: usize, placed: &Placed) -> String {
    let offset = placed.offset;
    match placed.record {
        Record::Head { core, cores, cells } => {
            format!(
                "{offset} head core {core} of {cores}, {}",
                counted(cells, "cell")
            )
        }
        Record::Arc(arc) => {
            let source = arc.source;
            let target_count = arc.target_count;
            format!(
                "{offset} arc from {}:{} to {core}:{target_count}",
                source.core, source.count
            )
        }
        Record::End { instructions, arcs } => {
            let instructions = counted(instructions, "instruction");
            format!("{offset} end {instructions}, {}", counted(arcs, "arc"))
        }
    }
}

/// A number with its noun, in the singular for 1 alone.
fn counted(number: u16, noun: &str) -> String {
    let ending = if number == 1 { "" } else { "s" };
    format!("{number} {noun}{ending}")
}

fn fault_line(fault: &Fault) -> String {
    format!(
        "refused: layer {} fault in the log of core {} at offset {}, cause {}: {}",
        fault.cause.layer(),
        fault.core,
        fault.offset,
        fault.cause.number(),
        in_words(fault.cause)
    )
}

fn in_words(cause: Cause) -> &'static str {
    match cause {
        Cause::Cut => "the record or its mark is cut by the end of the log",
        Cause::NoMark => "the mark is not that of a head, an arc or an end",
        Cause::HeadRule => "the first record is not this log's head, or a head comes later",
        Cause::ArcRule => {
            "the arc has a source core that is this core or not of the session, a count of 0, \
             a target below the one before, or the same target and source core twice"
        }
        Cause::EndRule => {
            "the end gives another number of arcs, or fewer instructions than the last target"
        }
        Cause::SourceCount => "the source count is above the instructions of the source core",
    }
}
