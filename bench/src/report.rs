//! What is measured, and the tables that come of it.

use crate::choices;
use crate::large;
use crate::last_uses;
use crate::measure::{measure, Measured, BATCH, PAIRS};
use crate::operations::{Stage, OPERATIONS};
use crate::reborrows;
use crate::scripts::{full, mixed, with_sums, E1};
use crate::table::Table;
use roomscript::Limits;

/// How the figures below were taken.
pub fn conditions() -> String {
    format!(
        "Both programs are timed in one run, in turn: {PAIRS} pairs of batches of about {} \
         microseconds,\neach program first in half of them. The ratio is ours by reference, taken \
         pair by pair: the median,\nand the 10th to 90th percentile. Times are medians. Both \
         programs use the same buffers, which are\nfilled with junk before each batch, outside \
         the timed part, and are neither cleared nor refilled\nbetween the calls of a batch. \
         Reading itself clears the unused rows, and all that take rows look\nat them, and a run \
         clears the store; that is part of each call. The scripts are accepted. What is\nbeside \
         the whole call is the reference program's read and run one after the other; run checks\n\
         first, in both programs.\n",
        BATCH.as_micros()
    )
}

/// What is timed: its name, its set and its bytes.
type Timed = (&'static str, Limits, Vec<u8>);

/// Three scripts from small to full under the language's own set, a mixture of
/// all terms under the largest, two scripts with sums and two with borrows
/// through shared borrows, as large as the second and the third.
fn scripts() -> Vec<Timed> {
    let mut scripts = vec![
        ("small", Limits::BASE, E1.to_vec()),
        ("middling", Limits::BASE, mixed(60)),
        ("full", Limits::BASE, full()),
        ("largest", Limits::LARGEST, large::mixed(4096)),
        ("sums, middling", Limits::BASE, with_sums(60)),
        ("sums, full", Limits::BASE, with_sums(512)),
        ("reborrows, middling", Limits::BASE, reborrows::mixed(60)),
        ("reborrows, full", Limits::BASE, reborrows::mixed(512)),
    ];
    scripts.extend(with_last_uses());
    scripts.extend(with_choices());
    scripts
}

/// With borrows that end at their last use, as large as the second and the
/// third, with most variables of a set holding each other, and with a variable
/// that is asked about and was held.
fn with_last_uses() -> [Timed; 6] {
    let (base, largest) = (Limits::BASE, Limits::LARGEST);
    let (round, most) = (last_uses::round(base), last_uses::round(largest));
    let past = last_uses::out_of_date(base);
    let past_most = last_uses::out_of_date(largest);
    [
        ("last uses, middling", base, last_uses::mixed(60)),
        ("last uses, full", base, last_uses::mixed(512)),
        ("last uses, 61 holders", base, round),
        ("last uses, 125 holders", largest, most),
        ("last uses, held before", base, past),
        ("last uses, held before, largest", largest, past_most),
    ]
}

/// With choices: small, as large as the second and the third, nested, and with
/// many variables that borrow.
fn with_choices() -> [Timed; 7] {
    let (base, largest) = (Limits::BASE, Limits::LARGEST);
    [
        ("choice, small", base, choices::small()),
        ("choices, middling", base, choices::mixed(60)),
        ("choices, full", base, choices::mixed(512)),
        ("choices, nested", base, choices::nested(base)),
        ("choices, 4 borrowers", largest, choices::borrowers(4)),
        ("choices, 60 borrowers", largest, choices::borrowers(60)),
        ("choices, 120 borrowers", largest, choices::borrowers(120)),
    ]
}

/// Every operation on each of these scripts.
pub fn sizes() -> Table {
    let scripts = scripts();
    let mut lines = Vec::new();
    for operation in &OPERATIONS {
        for (name, limits, script) in &scripts {
            let mut stage = Stage::new(*limits, script.clone());
            let measured = measure(operation, &mut stage);
            let mut line = vec![
                operation.name.to_string(),
                name.to_string(),
                stage.terms().to_string(),
                script.len().to_string(),
                format!("{:.0}", measured.ours),
                format!("{:.0}", measured.reference),
            ];
            line.extend(ratio(&measured));
            lines.push(line);
        }
    }
    Table {
        title: "Nanoseconds per call",
        head: vec![
            "operation",
            "script",
            "terms",
            "bytes",
            "ours",
            "reference",
            "ratio",
            "10% to 90%",
        ],
        lines,
    }
}

/// The same mixture of terms at sizes that double, under the language's own
/// set.
pub fn growth() -> Table {
    let title = "Growth: nanoseconds per term";
    growth_of(title, Limits::BASE, mixed)
}

/// Another mixture, under the largest set.
pub fn growth_of_largest() -> Table {
    let title = "Growth under the largest set: nanoseconds per term";
    growth_of(title, Limits::LARGEST, large::mixed)
}

fn growth_of(title: &'static str, limits: Limits, mixed: fn(usize) -> Vec<u8>) -> Table {
    let most = limits.terms as usize;
    let mut lines = Vec::new();
    for operation in &OPERATIONS {
        for terms in (4..)
            .map(|power| 1 << power)
            .take_while(|size| *size <= most)
        {
            let mut stage = Stage::new(limits, mixed(terms));
            let measured = measure(operation, &mut stage);
            let each = |time: f64| format!("{:.1}", time / terms as f64);
            let mut line = vec![
                operation.name.to_string(),
                terms.to_string(),
                stage.script.len().to_string(),
                each(measured.ours),
                each(measured.reference),
            ];
            line.extend(ratio(&measured));
            lines.push(line);
        }
    }
    Table {
        title,
        head: vec![
            "operation",
            "terms",
            "bytes",
            "ours",
            "reference",
            "ratio",
            "10% to 90%",
        ],
        lines,
    }
}

fn ratio(measured: &Measured) -> [String; 2] {
    [
        format!("{:.2}", measured.ratio),
        format!("{:.2} to {:.2}", measured.low, measured.high),
    ]
}
