//! tray-bench: the proved archive against the same algorithm by hand and against maps.
//!
//! Without arguments it times all workloads on the largest store and prints a table. `count NAME WORKLOAD KEYS VERSIONS
//! CALLS SPAN` fills a store and runs one workload once, for a counter of instructions, and prints calls, steps and keys
//! shown by sweeps, which are of SPAN keys.

mod drive;
mod hand;
mod java;
mod map;
mod measure;
mod plan;
mod words;

use drive::{Contestant, Run, Store, Workload};
use hand::HandRust;
use measure::{Figure, Named};
use plan::Plan;
use std::env;
use words::{Archive, HandC};

const KEYS: u32 = 1_023;
const VERSIONS: u32 = 4_095;
const CALLS: usize = 4_000;
const INSPECTIONS: u64 = 50;
const SPAN: usize = 32;

/// Names of the table's columns; ratios are to the second.
const COLUMNS: [&str; 5] = ["archive", "C", "Rust", "BTreeMap", "Java"];
const REFERENCE: usize = 1;

fn stepped<S: Store + 'static>(name: &'static str, plan: &Plan) -> Named {
    Named { name, ticks: true, contestant: Box::new(S::closed(plan.keys, plan.versions)) }
}

fn field(plan: &Plan) -> Vec<Named> {
    let map = Box::new(map::Map::new(plan.keys, plan.versions));
    vec![
        stepped::<Archive>("archive", plan),
        stepped::<HandC>("C", plan),
        stepped::<HandRust>("Rust", plan),
        Named { name: "BTreeMap", ticks: false, contestant: map },
    ]
}

fn bench() {
    let plan = Plan::new(KEYS, VERSIONS, CALLS, INSPECTIONS, SPAN);
    let mut field = field(&plan);
    let java = java::figures(&plan);
    println!("| workload | steps a call | C, ns a step | C, ns a call | {} |", COLUMNS.join(" | "));
    println!("|---|{}", "--:|".repeat(3 + COLUMNS.len()));
    for (workload, name) in Workload::ALL {
        let figures = measure::figures(&mut field, &plan, workload, REFERENCE);
        let java = java.iter().find(|figure| figure.workload == workload);
        println!("{}", row(name, &figures, java));
    }
    println!("{}", row("inspect-chain", &chain_figures(), None));
}

/// Inspections of a store that has one key with all versions: one long chain.
fn chain_figures() -> Vec<Figure> {
    let plan = Plan::new(1, VERSIONS, CALLS, INSPECTIONS, SPAN);
    let mut field = field(&plan);
    field.iter_mut().for_each(|named| _ = named.contestant.run(&plan, Workload::Fill));
    measure::figures(&mut field, &plan, Workload::Inspect, REFERENCE)
}

fn row(name: &str, figures: &[Figure], java: Option<&java::Figure>) -> String {
    let reference = &figures[REFERENCE];
    let steps = reference.run.steps as f64 / reference.run.calls as f64;
    let mut ratios: Vec<Option<f64>> =
        COLUMNS.iter().map(|&column| Some(figures.iter().find(|figure| figure.name == column)?.ratio)).collect();
    if let Some(java) = java {
        assert_eq!(java.answers, reference.run.answers, "java differs");
        ratios[COLUMNS.len() - 1] = Some(java.nanos / reference.nanos);
    }
    let ratios: Vec<String> =
        ratios.iter().map(|ratio| ratio.map_or("-".into(), |ratio| format!("{ratio:.2}"))).collect();
    let per_step = if steps == 0.0 { "- | -".into() } else { format!("{steps:.1} | {:.1}", reference.nanos / steps) };
    format!("| {name} | {per_step} | {:.0} | {} |", reference.nanos, ratios.join(" | "))
}

/// What a counter of instructions counts from.
#[inline(never)]
#[export_name = "tray_bench_counted"]
fn counted(contestant: &mut dyn Contestant, plan: &Plan, workload: Workload) -> Run {
    contestant.run(plan, workload).expect("a workload that it has")
}

fn count(arguments: &[String]) -> Option<Run> {
    let [name, workload, keys, versions, calls, span] = arguments else { return None };
    let calls = calls.parse().ok()?;
    let plan = Plan::new(keys.parse().ok()?, versions.parse().ok()?, calls, calls as u64, span.parse().ok()?);
    let workload = Workload::ALL.iter().find(|of| of.1 == workload)?.0;
    let mut named = field(&plan).into_iter().find(|named| named.name == name)?;
    named.contestant.run(&plan, Workload::Fill);
    Some(counted(&mut *named.contestant, &plan, workload))
}

fn main() {
    let arguments: Vec<String> = env::args().skip(1).collect();
    match arguments.split_first() {
        None => bench(),
        Some((mode, rest)) if mode == "count" => {
            let run = count(rest).expect("usage: tray-bench count NAME WORKLOAD KEYS VERSIONS CALLS SPAN");
            println!("{} {} {}", run.calls, run.steps, run.shown);
        }
        Some(_) => panic!("usage: tray-bench [count NAME WORKLOAD KEYS VERSIONS CALLS SPAN]"),
    }
}
