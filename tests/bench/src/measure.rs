//! Interleaved rounds: every contestant once a round, in an order that moves on from round to round.

use crate::drive::{Contestant, Run, Workload};
use crate::plan::Plan;
use std::time::Instant;

/// Many short rounds: a busy machine then spoils few of them.
const ROUNDS: usize = 301;

pub struct Named {
    pub name: &'static str,
    /// Are its ticks those of the store? A map has none.
    pub ticks: bool,
    pub contestant: Box<dyn Contestant>,
}

pub struct Figure {
    pub name: &'static str,
    pub run: Run,
    /// Nanoseconds a call, the median of all rounds.
    pub nanos: f64,
    /// To the contestant of reference, the median of the ratios of each round.
    pub ratio: f64,
}

pub fn median(mut values: Vec<f64>) -> f64 {
    values.sort_by(f64::total_cmp);
    values[values.len() / 2]
}

/// Figures of those that have the workload. The contestant `reference` is what ratios are to.
pub fn figures(field: &mut [Named], plan: &Plan, workload: Workload, reference: usize) -> Vec<Figure> {
    let mut nanos = vec![Vec::new(); field.len()];
    let mut runs = vec![None; field.len()];
    for round in 0..ROUNDS {
        for turn in 0..field.len() {
            let at = (turn + round) % field.len();
            let Some((run, taken)) = timed(&mut *field[at].contestant, plan, workload) else { continue };
            nanos[at].push(taken);
            runs[at] = Some(run);
        }
        hold_together(field, &runs, reference);
    }
    let ratio = |at: usize| median(nanos[at].iter().zip(&nanos[reference]).map(|(a, b)| a / b).collect());
    let figure = |(at, run): (usize, &Option<Run>)| {
        let nanos = median(nanos[at].clone());
        run.map(|run| Figure { name: field[at].name, run, nanos: nanos / run.calls as f64, ratio: ratio(at) })
    };
    runs.iter().enumerate().filter(|(_, run)| run.is_some()).filter_map(figure).collect()
}

fn timed(contestant: &mut dyn Contestant, plan: &Plan, workload: Workload) -> Option<(Run, f64)> {
    contestant.prepare(workload);
    let from = Instant::now();
    let run = contestant.run(plan, workload)?;
    Some((run, from.elapsed().as_nanos() as f64))
}

/// Same answers everywhere; same steps and ticks of all that have ticks.
fn hold_together(field: &[Named], runs: &[Option<Run>], reference: usize) {
    let due = runs[reference].expect("the reference has every workload");
    for (named, run) in field.iter().zip(runs) {
        let Some(run) = run else { continue };
        let same = if named.ticks { *run == due } else { (run.calls, run.answers) == (due.calls, due.answers) };
        assert!(same, "{} differs: {run:?}, due {due:?}", named.name);
    }
}
