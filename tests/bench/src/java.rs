//! Java's concurrent skip list in a process of its own, where there is a Java: it reads the plan and times itself.

use crate::drive::Workload;
use crate::plan::{Call, Kind, Plan};
use std::io::Write;
use std::process::{Command, Stdio};

pub struct Figure {
    pub workload: Workload,
    pub nanos: f64,
    pub answers: u64,
}

/// Figures of fill, get, put, sweep and span-get; none where `TRAY_JAVA`, the folder of its classes, is not set.
pub fn figures(plan: &Plan) -> Vec<Figure> {
    let Ok(classes) = std::env::var("TRAY_JAVA") else { return Vec::new() };
    let mut java = Command::new("java")
        .args(["-cp", &classes, "Bench"])
        .stdin(Stdio::piped())
        .stdout(Stdio::piped())
        .spawn()
        .expect("java does not start");
    java.stdin.take().unwrap().write_all(&plan_bytes(plan)).unwrap();
    let output = java.wait_with_output().unwrap();
    assert!(output.status.success(), "java failed");
    let text = String::from_utf8(output.stdout).unwrap();
    text.lines()
        .zip([Workload::Fill, Workload::Get, Workload::Put, Workload::Sweep, Workload::SpanGet])
        .map(|(line, workload)| figure(line, workload))
        .collect()
}

fn figure(line: &str, workload: Workload) -> Figure {
    let (nanos, answers) = line.split_once(' ').expect("a line of java");
    Figure { workload, nanos: nanos.parse().unwrap(), answers: answers.parse().unwrap() }
}

/// Big-endian words: keys, versions, then for each list its length and its calls (1 put, 2 get or 3 scan, the key's high and
/// low half, value, timestamp; for a scan the last key's halves in their place).
fn plan_bytes(plan: &Plan) -> Vec<u8> {
    let mut words = vec![plan.keys, plan.versions];
    for calls in [&plan.fill, &plan.gets, &plan.puts, &plan.scans, &plan.span_gets] {
        words.push(calls.len() as u32);
        words.extend(calls.iter().flat_map(call_words));
    }
    words.iter().flat_map(|word| word.to_be_bytes()).collect()
}

fn call_words(call: &Call) -> [u32; 5] {
    let (high, low) = ((call.key >> 32) as u32, call.key as u32);
    match call.kind {
        Kind::Put { value, timestamp, .. } => [1, high, low, value, timestamp],
        Kind::Get => [2, high, low, 0, 0],
        Kind::Scan { last } => [3, high, low, (last >> 32) as u32, last as u32],
    }
}
