//! Measures the product, linked as a static library, beside the plain Rust peer, both in this
//! process.
//!
//! `compare EXTENT` compares all results, `table EXTENT` measures, where EXTENT is `short` or
//! `long`. `list` and `counted LIST PREFIX` count instructions under callgrind.

mod alone;
mod callgrind;
mod checking;
mod clock;
mod counting;
mod logs;
mod plain;
mod product;
mod programs;
mod random;
mod scenarios;
mod sides;
mod table;
mod timing;
mod workloads;

use alone::Comparison;
use scenarios::{Call, Extent};
use std::process::ExitCode;
use table::Case;
use timing::{Effort, Measured};

/// How much is compared and measured.
struct Plan {
    extent: Extent,
    effort: Effort,
    damages: usize,
}

impl Plan {
    fn named(name: &str) -> Option<Plan> {
        match name {
            "short" => Some(Plan {
                extent: Extent::short(),
                effort: Effort {
                    pairs: 9,
                    sample: 0.5e6,
                },
                damages: 10,
            }),
            "long" => Some(Plan {
                extent: Extent::long(),
                effort: Effort {
                    pairs: 15,
                    sample: 2e6,
                },
                damages: 20,
            }),
            _ => None,
        }
    }
}

fn compare(plan: &Plan) -> ExitCode {
    let comparison = checking::compare(&plan.extent, plan.damages);
    println!(
        "{} results compared, {} differ",
        comparison.compared, comparison.different
    );
    if comparison.different == 0 {
        ExitCode::SUCCESS
    } else {
        ExitCode::FAILURE
    }
}

/// Measures each scenario, and says on standard error what came out.
fn measured(plan: &Plan) -> Vec<(Call, Measured)> {
    let mut all = vec![];
    plan.extent.visit(&mut |mut scenario| {
        let measured = scenario.measure(plan.effort);
        let Measured {
            product,
            peer,
            ratio,
        } = measured;
        let call = scenario.call.name();
        eprintln!(
            "{call} | {} | {product:.2} ns | {peer:.2} ns | {ratio:.2}",
            scenario.title
        );
        all.push((scenario.call, measured));
    });
    all
}

fn print_alone(effort: Effort) {
    for Comparison { name, ratios } in alone::all(effort) {
        for (title, ratio) in &ratios {
            eprintln!("{name} | {title} | {ratio:.2}");
        }
        let ratios: Vec<f64> = ratios.iter().map(|(_, ratio)| *ratio).collect();
        table::print_alone(name, &ratios);
    }
}

fn print_table(plan: &Plan) {
    let all = measured(plan);
    let rows = table::rows_by_call(|call| {
        let mine = all.iter().filter(|(of, _)| *of == call);
        mine.map(|(_, m)| Case {
            ratio: m.ratio,
            product: m.product,
        })
        .collect()
    });
    table::print_ratios(&rows, "ns");
    print_alone(plan.effort);
    table::print_logs(&logs::all_logged());
}

fn main() -> ExitCode {
    let args: Vec<String> = std::env::args().collect();
    let words: Vec<&str> = args.iter().map(String::as_str).skip(1).collect();
    match words[..] {
        ["compare", extent] => {
            if let Some(plan) = Plan::named(extent) {
                return compare(&plan);
            }
        }
        ["table", extent] => {
            if let Some(plan) = Plan::named(extent) {
                print_table(&plan);
                return ExitCode::SUCCESS;
            }
        }
        ["list"] => {
            counting::list();
            return ExitCode::SUCCESS;
        }
        ["counted", list, prefix] => match counting::read(list, prefix) {
            Ok(rows) => {
                table::print_ratios(&rows, "instructions");
                return ExitCode::SUCCESS;
            }
            Err(error) => eprintln!("{error}"),
        },
        _ => {}
    }
    eprintln!("usage: harness compare short|long, table short|long, list, counted LIST PREFIX");
    ExitCode::FAILURE
}
