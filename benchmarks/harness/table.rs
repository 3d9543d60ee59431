//! The table of what was measured.

use crate::logs::Logged;
use crate::scenarios::Call;
use crate::timing::median;

/// A ratio of one case, with the product's own number.
pub struct Case {
    pub ratio: f64,
    pub product: f64,
}

/// Cases of one kind.
pub struct Row {
    pub name: String,
    pub cases: Vec<Case>,
}

/// The rows of all kinds of call that have cases.
pub fn rows_by_call(mut cases: impl FnMut(Call) -> Vec<Case>) -> Vec<Row> {
    let row = |call: Call| Row {
        name: call.name().into(),
        cases: cases(call),
    };
    Call::ALL
        .into_iter()
        .map(row)
        .filter(|row| !row.cases.is_empty())
        .collect()
}

/// The least, median and most of a row.
fn print_row(row: &Row, unit: &str) {
    let ratios: Vec<f64> = row.cases.iter().map(|case| case.ratio).collect();
    let least = ratios.iter().copied().fold(f64::INFINITY, f64::min);
    let most = ratios.iter().copied().fold(0.0, f64::max);
    let product = median(row.cases.iter().map(|case| case.product).collect());
    let digits = if product < 10.0 { 1 } else { 0 };
    println!(
        "| {} | {} | **{:.2}** | {least:.2} | {most:.2} | {product:.digits$} {unit} |",
        row.name,
        ratios.len(),
        median(ratios),
    );
}

fn print_logged(logged: &Logged) {
    let per_thousand = |number: usize| 1000.0 * number as f64 / logged.instructions as f64;
    let [keep_all, pairwise, exact] = &logged.ends;
    let said = [keep_all, pairwise, exact].map(|end| {
        format!(
            "{:.1}, {:.0}",
            per_thousand(end.arcs),
            per_thousand(end.bytes)
        )
    });
    let part = match keep_all.arcs {
        0 => "no arcs".into(),
        arcs => format!("{:.0} %", 100.0 * exact.arcs as f64 / arcs as f64),
    };
    println!(
        "| {} | {} | {} | {part} |",
        logged.title,
        logged.instructions,
        said.join(" | ")
    );
}

pub fn print_ratios(rows: &[Row], unit: &str) {
    println!("| product / peer | cases | median | least | most | product |");
    println!("|---|---|---|---|---|---|");
    for row in rows {
        print_row(row, unit);
    }
}

/// More rows of the same table, of the product alone.
pub fn print_alone(name: &str, ratios: &[f64]) {
    let least = ratios.iter().copied().fold(f64::INFINITY, f64::min);
    let most = ratios.iter().copied().fold(0.0, f64::max);
    let middle = median(ratios.to_vec());
    println!(
        "| {name} | {} | **{middle:.2}** | {least:.2} | {most:.2} | |",
        ratios.len()
    );
}

/// More rows of the same table.
pub fn print_logs(all: &[Logged]) {
    println!(
        "| **logged for 1,000 instructions: arcs, bytes** | **instructions** | **keep-all** \
         | **pairwise** | **exact** | **exact / keep-all, arcs** |"
    );
    for logged in all {
        print_logged(logged);
    }
}
