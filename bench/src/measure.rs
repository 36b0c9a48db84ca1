//! Two programs timed in turn, in many short batches.

use crate::operations::{Batch, Operation, Stage};
use std::time::{Duration, Instant};

/// Pairs of batches for each figure.
pub const PAIRS: usize = 2000;
/// About how long a batch of the slower program takes. It is long beside
/// reading the clock and short beside most disturbances, which then spoil
/// single pairs and leave the median alone.
pub const BATCH: Duration = Duration::from_micros(50);

pub struct Measured {
    /// Medians of nanoseconds per call.
    pub ours: f64,
    pub reference: f64,
    /// Ours by reference, pair by pair: 10th percentile, median and 90th.
    pub low: f64,
    pub ratio: f64,
    pub high: f64,
}

/// Times an operation on a stage by both programs.
pub fn measure(operation: &Operation, stage: &mut Stage) -> Measured {
    let calls = calls_per_batch(operation, stage);
    let (mut ours, mut reference, mut ratios) = (Vec::new(), Vec::new(), Vec::new());
    for pair in 0..PAIRS {
        // Each goes first in half of the pairs, so that neither gains by its
        // turn.
        let (a, b) = if pair % 2 == 0 {
            let a = timed(operation.ours, stage, calls);
            (a, timed(operation.reference, stage, calls))
        } else {
            let b = timed(operation.reference, stage, calls);
            (timed(operation.ours, stage, calls), b)
        };
        ours.push(a);
        reference.push(b);
        ratios.push(a / b);
    }
    Measured {
        ours: percentile(&mut ours, 50),
        reference: percentile(&mut reference, 50),
        low: percentile(&mut ratios, 10),
        ratio: percentile(&mut ratios, 50),
        high: percentile(&mut ratios, 90),
    }
}

/// Nanoseconds per call of one batch, its buffers filled with junk first.
fn timed(batch: Batch, stage: &mut Stage, calls: u32) -> f64 {
    stage.fill_with_junk();
    let begin = Instant::now();
    batch(stage, calls);
    begin.elapsed().as_nanos() as f64 / calls as f64
}

/// How many calls fill a batch of the slower program. This also warms up.
fn calls_per_batch(operation: &Operation, stage: &mut Stage) -> u32 {
    let mut calls = 1;
    loop {
        let slower = [operation.ours, operation.reference]
            .map(|batch| timed(batch, stage, calls))
            .into_iter()
            .fold(0.0, f64::max);
        if slower * calls as f64 >= BATCH.as_nanos() as f64 {
            return calls;
        }
        calls += calls.div_ceil(4);
    }
}

fn percentile(values: &mut [f64], percent: usize) -> f64 {
    values.sort_by(f64::total_cmp);
    values[(values.len() - 1) * percent / 100]
}
