//! A script that is accepted under one set is accepted under every set that is
//! nowhere smaller, with the same terms, answer and cells.

use reference::form::MAX_BYTES;
use reference::{check, read, run, write, Generator, Limits, Ran, NEWEST};

/// The terms of an accepted script and what its run gives.
fn accepted(limits: Limits, rows: &[u32], readings: &[i32]) -> Option<(u32, Ran)> {
    let terms = check(limits, rows).ok()?;
    let mut store = vec![9; limits.store_numbers()];
    let ran = run(limits, rows, readings, &mut store).expect("an accepted script runs");
    let (variables, cells) = store.split_at(3 * limits.variables as usize);
    assert!(variables.iter().all(|field| *field == 0));
    for (cell, row) in cells.chunks(3).enumerate() {
        let state = if (cell as u32) < ran.cells { 2 } else { 0 };
        assert_eq!(row, [state, 0, 0]);
    }
    Some((terms, ran))
}

/// Rows laid out again, and the bytes that they write as, under larger sets.
fn grows(generator: &mut Generator, rows: &[u32]) -> bool {
    let limits = generator.limits();
    let readings = generator.readings();
    let Some(due) = accepted(limits, rows, &readings) else {
        return false;
    };
    let mut script = vec![0; MAX_BYTES];
    let length = write(limits, NEWEST, rows, &mut script).expect("rows of a script");
    for larger in [generator.limits_above(), Limits::LARGEST] {
        let mut again = rows.to_vec();
        again.resize(larger.row_numbers(), 0);
        assert_eq!(accepted(larger, &again, &readings), Some(due));
        let mut read_rows = vec![9; larger.row_numbers()];
        let read = read(larger, NEWEST, &script[..length as usize], &mut read_rows);
        assert_eq!(read.map(|read| read.terms), Ok(due.0));
        assert_eq!(read_rows, again);
    }
    true
}

#[test]
fn what_is_accepted_is_accepted_under_larger_sets() {
    let mut generator = Generator::new(41);
    let mut rows = Vec::new();
    let mut count = 0;
    for _ in 0..400 {
        let limits = generator.limits_within();
        generator.set_limits(limits);
        for _ in 0..5 {
            generator.accepted_rows(&mut rows);
            count += usize::from(grows(&mut generator, &rows));
            generator.mixed_rows(&mut rows);
            count += usize::from(grows(&mut generator, &rows));
        }
    }
    assert!(count > 1_500, "{count}");
}
