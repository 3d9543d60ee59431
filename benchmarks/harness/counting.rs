//! Instructions by callgrind. Under it, `list` does each work once and prints what it did, and
//! callgrind writes a dump for each. `read` puts the two together.

use crate::callgrind;
use crate::scenarios::{Call, Extent, Part};
use crate::sides::Side;
use crate::table::{Case, Row, rows_by_call};
use std::hint::black_box;
use std::path::Path;
use std::{fs, io};

/// Does the work of each scenario on both sides, and prints a line for each.
pub fn list() {
    let extent = Extent {
        turns: 16_000,
        refused: 20_000,
        ..Extent::short()
    };
    extent.visit(&mut |mut scenario| {
        // it is all memory filled with zeros, by instructions that callgrind counts once for each byte
        if scenario.call == Call::FirstTurn {
            return;
        }
        for part in Part::BOTH {
            for side in Side::BOTH {
                black_box(callgrind::counted(|| scenario.perform(side, part)));
            }
        }
        println!(
            "{}\t{}\t{}",
            scenario.call.name(),
            scenario.units,
            scenario.title
        );
    });
}

/// The instructions of callgrind's dumps, `PREFIX.1` and so on, in their order.
struct Dumps<'a> {
    prefix: &'a str,
    at: usize,
}

impl Dumps<'_> {
    fn next(&mut self) -> io::Result<f64> {
        self.at += 1;
        let name = format!("{}.{}", self.prefix, self.at);
        let dump = fs::read_to_string(Path::new(&name))?;
        let total = dump.lines().find_map(|line| line.strip_prefix("totals: "));
        let number = total.and_then(|total| total.trim().parse().ok());
        number.ok_or_else(|| io::Error::other(format!("{name} has no total")))
    }

    /// Of the product and then of the peer.
    fn next_pair(&mut self) -> io::Result<[f64; 2]> {
        Ok([self.next()?, self.next()?])
    }
}

/// Reads what `list` printed, and the dumps: the instructions of a call, product beside peer.
pub fn read(list: &str, prefix: &str) -> io::Result<Vec<Row>> {
    let mut dumps = Dumps { prefix, at: 0 };
    let mut counted = vec![];
    for line in fs::read_to_string(list)?.lines() {
        let fields: Vec<&str> = line.split('\t').collect();
        let [call, units, title] = fields[..] else {
            return Err(io::Error::other(format!("no line of the list: {line}")));
        };
        let before = dumps.next_pair()?;
        let whole = dumps.next_pair()?;
        let units: f64 = units.parse().map_err(io::Error::other)?;
        let [product, peer] = [0, 1].map(|side| (whole[side] - before[side]) / units);
        eprintln!(
            "{call} | {title} | {product:.1} | {peer:.1} | {:.2}",
            product / peer
        );
        counted.push((call.to_string(), product, product / peer));
    }
    Ok(rows_by_call(|call: Call| {
        let mine = counted.iter().filter(|(name, ..)| name == call.name());
        mine.map(|&(_, product, ratio)| Case { ratio, product })
            .collect()
    }))
}
