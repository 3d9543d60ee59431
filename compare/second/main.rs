//! A second implementation of Roosteryet, written from its specification alone.

mod bench;
mod bench_cases;
mod check;
mod cores;
mod generate;
mod inspect;
mod inspect_cases;
mod logs;
mod memory;
mod order;
mod random;
mod recorder;
mod replay;
mod session;
mod table;
#[cfg(test)]
mod worked;

use std::ffi::OsString;
use std::io::{Read, Write};
use std::process::ExitCode;

const CALLS: &str = "calls: second bench | second inspect FILE P C L | \
                     second compare SEED CASES BENCH INSPECT | second table SEED CASES";

fn main() -> ExitCode {
    let arguments: Vec<OsString> = std::env::args_os().skip(1).collect();
    match called_with(&arguments) {
        Ok(code) => code,
        Err(message) => {
            eprintln!("second: {message}");
            ExitCode::FAILURE
        }
    }
}

fn called_with(arguments: &[OsString]) -> Result<ExitCode, String> {
    let Some((call, rest)) = arguments.split_first() else {
        return Err(CALLS.to_string());
    };
    match (call.to_str(), rest) {
        (Some("bench"), []) => {
            let mut input = Vec::new();
            std::io::stdin()
                .read_to_end(&mut input)
                .map_err(|error| error.to_string())?;
            print(&bench::answer(&input).text)
        }
        (Some("inspect"), rest) => print(&inspect::called_with(rest)?),
        (Some("compare"), [seed, cases, bench, inspect]) => {
            let (seed, cases) = (number(seed)?, number(cases)?);
            let programs = check::Programs::at(bench, inspect)?;
            let differences = check::compare(seed, cases, &programs)?;
            Ok(if differences == 0 {
                ExitCode::SUCCESS
            } else {
                ExitCode::FAILURE
            })
        }
        (Some("table"), [seed, cases]) => print(&table::table(number(seed)?, number(cases)?)),
        _ => Err(CALLS.to_string()),
    }
}

fn number(word: &OsString) -> Result<u64, String> {
    word.to_str()
        .and_then(|word| word.parse().ok())
        .ok_or_else(|| format!("{word:?} is no number; {CALLS}"))
}

fn print(text: &str) -> Result<ExitCode, String> {
    std::io::stdout()
        .write_all(text.as_bytes())
        .map_err(|error| error.to_string())?;
    Ok(ExitCode::SUCCESS)
}
