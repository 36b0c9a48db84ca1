//! All small scripts with a choice whose branches leave something differently,
//! by both programs, and beside the branch that runs alone.

use crate::branches::alone;
use crate::common::case::{Case, Input};
use crate::common::sets::set;
use crate::common::terms::*;
use crate::common::UncheckedAnswer;
use crate::layers::{Layers, Room};
use roomscript::{Limits, Stop};

/// All of the scripts are within it.
const LIMITS: Limits = set(64, 8, 8, 8);

/// The number that a run without a check answers, in place of the term that a
/// fault names, which another script counts differently.
fn without_term(answer: UncheckedAnswer) -> Result<(i32, u32), u32> {
    answer
        .map(|ran| (ran.answer, ran.cells))
        .map_err(|stop| match stop {
            Stop::Refused(refusal) => refusal.number,
            Stop::Fault(fault) => fault.number,
        })
}

/// The library runs a script unchecked as it runs the branch that is taken in
/// place of the choice, with the same store left.
fn as_the_branch_alone(case: &Case, rows: &[u32], given: &[i32], taken: usize) {
    let run = |rows: &[u32]| {
        let mut store = [9; LIMITS.store_numbers()];
        let answer = roomscript::run_unchecked(LIMITS, rows, given, &mut store);
        (without_term(answer), store)
    };
    let (due, store) = run(&alone(rows, taken));
    let (answer, left) = run(rows);
    case.equal(answer, due, "unchecked run beside that of the branch");
    case.same(&left, &store, "store beside that of the branch");
}

/// A script is checked and run by both with each branch. Its choices are on a
/// variable that has the first reading.
fn compare(layers: &mut Layers, number: u64, rows: &[u32]) {
    for (taken, first) in [1, 0].into_iter().enumerate() {
        let given = [first, 2, 3, 4, 5, 6, 7, 8];
        let case = Case {
            seed: None,
            number,
            limits: LIMITS,
            input: Input::Run(rows, &given),
        };
        let room = Room {
            length: LIMITS.store_numbers(),
            junk: number as u32,
        };
        layers.check_and_run(&case, rows, &given, room);
        as_the_branch_alone(&case, rows, &given, taken);
    }
}

#[test]
fn all_small_choices_are_checked_and_run_alike() {
    let mut layers = Layers::new("small choices");
    let mut rows = vec![0; LIMITS.row_numbers()];
    let mut number = 0;
    let count = reference::small_choices(&mut |terms| {
        let used = terms.as_flattened();
        rows[..used.len()].copy_from_slice(used);
        rows[used.len()..].fill(0);
        compare(&mut layers, number, &rows);
        number += 1;
    });
    assert_eq!((count, number), (980_452, 980_452));
    let checked = [0, 33, 34, 35, 36];
    layers.checked.report_all(&checked);
    layers.ran.report_all(&checked);
    layers.ran_unchecked.report_all(&[0, 60]);
}

/// A script of three blocks in each other, with a number and a borrow of the
/// outermost number in each. In the innermost one a variable borrows one of two
/// of these borrows, and one of two numbers is borrowed by way of it.
fn in_three_blocks(written: [u32; 2], borrowed: [u32; 2]) -> Vec<u32> {
    let number_of = |block: u32| 1 + 2 * block;
    let opened = |at: u32| {
        let lent = let_(number_of(at) + 1, shared((1, 0)));
        [let_(number_of(at), number(1)), lent]
    };
    let of = |terms: [Term; 2]| choice((0, 0), &terms[..1], &terms[1..]);
    let to = of(written.map(|at| exclusive((number_of(at) + 1, 0))));
    let value = of(borrowed.map(|at| shared((number_of(at), 0))));
    let last = [let_(7, to), assign((7, 1), value), number(1)];
    let innermost = block(&[&opened(2)[..], &last].concat());
    let middle = block(&[&opened(1)[..], &[innermost, number(1)]].concat());
    let first = [let_(0, reading(0))];
    rows_under(
        LIMITS,
        &[&first[..], &opened(0), &[middle, number(1)]].concat(),
    )
}

/// Every choice of blocks for what may be written and what may be borrowed.
#[test]
fn all_lives_of_what_is_written_and_borrowed() {
    let mut layers = Layers::new("three blocks");
    let pair = |of: u32| [of % 3, of / 3];
    for written in 0..9 {
        for borrowed in 0..9 {
            let rows = in_three_blocks(pair(written), pair(borrowed));
            compare(&mut layers, u64::from(9 * written + borrowed), &rows);
        }
    }
    layers.checked.report_all(&[0, 40]);
    layers.ran.report_all(&[0, 40]);
    layers.ran_unchecked.report_all(&[0]);
}
