//! Prints how often each answer occurs in a sample of each generator, as the
//! documentation of the crate lists it. The set of limits is that of the
//! program, or given as four numbers: terms, variables, boxes and levels.

use reference::form::MAX_BYTES;
use reference::{
    check, judge_rows, read, run, run_unchecked, write, Generator, Limits, Ran, Refusal, NEWEST,
};
use std::collections::BTreeMap;
use std::time::Instant;

const SAMPLE: usize = 100_000;

/// Counts answers by refusal number, 0 for success.
fn count(name: &str, limits: Limits, mut next: impl FnMut(&mut Generator) -> Result<u32, Refusal>) {
    let mut generator = Generator::with_limits(1, limits);
    let begin = Instant::now();
    let mut counts = BTreeMap::new();
    for _ in 0..SAMPLE {
        let number = next(&mut generator).map_or_else(|refusal| refusal.number, |_| 0);
        *counts.entry(number).or_insert(0) += 1;
    }
    println!("{name}: {counts:?} in {:?}", begin.elapsed());
}

type Make = fn(&mut Generator, &mut Vec<u32>);

const KINDS: [(&str, Make); 10] = [
    ("accepted_rows", Generator::accepted_rows),
    ("near_miss_rows", Generator::near_miss_rows),
    ("joined_rows", Generator::joined_rows),
    ("near_joined_rows", Generator::near_joined_rows),
    ("through_shared_rows", Generator::through_shared_rows),
    (
        "near_through_shared_rows",
        Generator::near_through_shared_rows,
    ),
    ("last_uses_rows", Generator::last_uses_rows),
    ("near_last_uses_rows", Generator::near_last_uses_rows),
    ("wild_rows", Generator::wild_rows),
    ("mixed_rows", Generator::mixed_rows),
];

type Run = fn(Limits, &[u32], &[i32], &mut [u32]) -> Result<Ran, Refusal>;

const RUNS: [(&str, Run); 2] = [("run", run), ("run_unchecked", run_unchecked)];

fn given_limits() -> Limits {
    let number = |argument: String| argument.parse().expect("a number");
    let given: Vec<u32> = std::env::args().skip(1).map(number).collect();
    match given[..] {
        [] => Limits::BASE,
        [terms, variables, boxes, levels] => Limits {
            terms,
            variables,
            boxes,
            levels,
        },
        _ => panic!("four numbers or none"),
    }
}

fn main() {
    let limits = given_limits();
    let mut script = Vec::new();
    let mut rows = vec![0; limits.row_numbers()];
    let mut store = vec![0; limits.store_numbers()];
    count("script, read", limits, |generator| {
        generator.script(&mut script);
        read(limits, NEWEST, &script, &mut rows).map(|read| read.terms)
    });
    count("script and newest, read", limits, |generator| {
        generator.script(&mut script);
        let newest = generator.newest();
        read(limits, newest, &script, &mut rows).map(|read| read.terms)
    });
    count("rows, judge_rows", limits, |generator| {
        generator.rows(&mut rows);
        judge_rows(limits, &rows)
    });
    let mut output = vec![0; MAX_BYTES];
    count("rows and version, write", limits, |generator| {
        generator.rows(&mut rows);
        let version = generator.version();
        write(limits, version, &rows, &mut output)
    });
    for (name, make) in KINDS {
        count(&format!("{name}, check"), limits, |generator| {
            make(generator, &mut rows);
            check(limits, &rows)
        });
        for (entry, run) in RUNS {
            count(&format!("{name}, {entry}"), limits, |generator| {
                make(generator, &mut rows);
                let readings = generator.readings();
                run(limits, &rows, &readings, &mut store).map(|ran| ran.cells)
            });
        }
    }
}
