//! Sets of limits (LANGUAGE 2.8): their ranges, and what they decide.

mod common;

use common::*;
use reference::form::{HEADER, MAX_BYTES};
use reference::{check, judge_rows, length, read, run, run_unchecked, write};
use reference::{Limits, Refusal, NEWEST};

const SMALLEST: Limits = Limits {
    terms: 1,
    variables: 1,
    boxes: 0,
    levels: 1,
};

/// What is answered under a set by reading, and by judging the rows that the
/// largest set gives, cut or filled up to the length of this one.
fn both(limits: Limits, terms: &[Term]) -> [Result<u32, Refusal>; 2] {
    let script = script_of(NEWEST, terms);
    let mut rows = vec![7; limits.row_numbers()];
    let answer = read(limits, NEWEST, &script, &mut rows);
    let mut rows = vec![7; Limits::LARGEST.row_numbers()];
    read(Limits::LARGEST, NEWEST, &script, &mut rows).expect("a script of the largest set");
    rows.resize(limits.row_numbers(), 0);
    [answer.map(|read| read.terms), judge_rows(limits, &rows)]
}

fn place<T>(number: u32, places: [u32; 2]) -> [Result<T, Refusal>; 2] {
    places.map(|place| refused(number, place))
}

/// Each function refuses with 74, though all that it is lent is wrong too, and
/// leaves it as it was.
fn assert_outside(limits: Limits) {
    assert!(!limits.in_ranges(), "{limits:?}");
    let long = vec![0; MAX_BYTES + 1];
    for lent in [0, 1, 2560] {
        let mut rows = vec![9; lent];
        assert_eq!(read(limits, NEWEST, &long, &mut rows), refused(74, 0));
        assert_eq!(
            read(limits, NEWEST, &script(&[number(1)]), &mut rows),
            refused(74, 0)
        );
        assert_eq!(judge_rows(limits, &rows), refused(74, 0));
        assert_eq!(check(limits, &rows), refused(74, 0));
        let (mut output, mut store) = (vec![9; lent], vec![9; lent]);
        for version in [0, 1, 2, 3] {
            assert_eq!(length(limits, version, &rows), refused(74, 0));
            assert_eq!(write(limits, version, &rows, &mut output), refused(74, 0));
        }
        for run in RUNS {
            assert_eq!(run(limits, &rows, &[], &mut store), refused(74, 0));
            assert_eq!(run(limits, &rows, &READINGS, &mut store), refused(74, 0));
        }
        assert!(rows.iter().chain(&store).all(|field| *field == 9));
        assert!(output.iter().all(|byte| *byte == 9));
    }
}

#[test]
fn a_set_outside_the_ranges_comes_before_everything() {
    let ends = [
        [0, 4097, u32::MAX],
        [0, 129, u32::MAX],
        [129, 130, u32::MAX],
        [0, 33, u32::MAX],
    ];
    for inside in [SMALLEST, Limits::BASE, Limits::LARGEST] {
        for [terms, variables, boxes, levels] in [0, 1, 2].map(|end| ends.map(|all| all[end])) {
            assert_outside(Limits { terms, ..inside });
            assert_outside(Limits {
                variables,
                ..inside
            });
            assert_outside(Limits { boxes, ..inside });
            assert_outside(Limits { levels, ..inside });
            assert_outside(set(terms, variables, boxes, levels));
        }
    }
}

#[test]
fn the_ends_of_the_ranges_are_inside() {
    for terms in [1, 4096] {
        for variables in [1, 128] {
            for (boxes, levels) in [(0, 1), (0, 32), (128, 1), (128, 32)] {
                let limits = set(terms, variables, boxes, levels);
                assert!(limits.in_ranges());
                let mut rows = vec![9; limits.row_numbers()];
                assert_eq!(read(limits, NEWEST, &[], &mut rows), refused(12, 0));
                let mut store = vec![9; limits.store_numbers()];
                for run in RUNS {
                    let answer = run(limits, &rows, &READINGS, &mut store);
                    assert_eq!(answer, refused(12, 0));
                }
                assert!(store.iter().all(|field| *field == 9));
            }
        }
    }
}

#[test]
fn lengths_follow_from_the_set() {
    assert_eq!(Limits::BASE.row_numbers(), 2560);
    assert_eq!(Limits::BASE.store_numbers(), 384);
    for limits in [
        SMALLEST,
        set(24, 5, 3, 5),
        set(200, 70, 65, 17),
        Limits::LARGEST,
    ] {
        let (right, store) = (limits.row_numbers(), limits.store_numbers());
        assert_eq!(right, 5 * limits.terms as usize);
        assert_eq!(store, 3 * (limits.variables + limits.boxes) as usize);
        for lent in [0, right - 1, right + 1, 2 * right, 2560] {
            let mut rows = vec![0; lent];
            assert_eq!(read(limits, NEWEST, &[], &mut rows), refused(2, 0));
            assert_eq!(judge_rows(limits, &rows), refused(2, 0));
            for version in [0, 1] {
                assert_eq!(length(limits, version, &rows), refused(2, 0));
                assert_eq!(write(limits, version, &rows, &mut []), refused(2, 0));
            }
            assert_eq!(check(limits, &rows), refused(2, 0));
            for run in RUNS {
                assert_eq!(run(limits, &rows, &[], &mut []), refused(2, 0));
            }
        }
        let rows = vec![0; right];
        for length in [0, store - 1, store + 1, 2 * store, 384] {
            let mut lent = vec![9; length];
            for run in RUNS {
                assert_eq!(run(limits, &rows, &[], &mut lent), refused(3, 0));
            }
            assert_eq!(lent, vec![9; length]);
        }
        for run in RUNS {
            assert_eq!(run(limits, &rows, &[], &mut vec![9; store]), refused(4, 0));
        }
    }
}

#[test]
fn variables_end_where_the_set_says() {
    for variables in [1, 2, 5, 63, 64, 65, 127, 128] {
        let limits = set(24, variables, 3, 5);
        let last = variables as u8 - 1;
        let of = |variable: u8, first: u8| {
            let place = (variable, 8);
            let terms = [copy(place), mov(place), shared(place), exclusive(place)];
            let wrappers = [let_(variable, reading(7)), assign(place, reading(7))];
            let comparison = [below(place, (first, 8)), below((first, 8), place)];
            let addition = [sum(place, (first, 8)), sum((first, 8), place)];
            [&terms[..], &wrappers, &comparison, &addition].concat()
        };
        for (term, over) in of(last, 0).into_iter().zip(of(last + 1, 0)) {
            assert!(both(limits, &[term]).iter().all(Result::is_ok));
            // The second place of the last comparison and the last sum.
            let offset = if [0x0A, 0x0D].contains(&over[0]) && over[1] == 0 {
                10
            } else {
                8
            };
            let mut rows = vec![7; limits.row_numbers()];
            assert_eq!(
                read(
                    limits,
                    NEWEST,
                    &script_of(2, std::slice::from_ref(&over)),
                    &mut rows
                ),
                refused(14, offset)
            );
            if variables < 128 {
                assert_eq!(both(limits, &[over])[1], refused(14, 1));
            }
        }
        let outside = [&HEADER[..], &[0x0B, 1, 0x03, 255, 0]].concat();
        let mut rows = vec![7; limits.row_numbers()];
        assert_eq!(read(limits, NEWEST, &outside, &mut rows), refused(14, 8));
        for field in [variables, 128, 256, 1 << 16, u32::MAX] {
            rows.fill(0);
            rows[..7].copy_from_slice(&[11, 1, 0, 0, 0, 8, field]);
            rows[10] = 2;
            assert_eq!(judge_rows(limits, &rows), refused(14, 1));
        }
    }
}

#[test]
fn follows_counts_and_readings_do_not_follow_the_set() {
    for limits in [set(512, 1, 0, 2), Limits::LARGEST] {
        assert_eq!(both(limits, &[copy((0, 8))]), [Ok(2); 2]);
        assert_eq!(both(limits, &[reading(7)]), [Ok(2); 2]);
        assert_eq!(both(limits, &vec![reading(0); 255]), [Ok(256); 2]);
        let mut rows = vec![7; limits.row_numbers()];
        let over = [script(&[copy((0, 9))]), script(&[reading(8)])];
        assert_eq!(read(limits, NEWEST, &over[0], &mut rows), refused(14, 9));
        assert_eq!(read(limits, NEWEST, &over[1], &mut rows), refused(14, 8));
    }
}

/// Blocks of one term round a reading, so many levels in all with the
/// outermost block.
fn levels(count: usize) -> Term {
    [[0x0B, 1].repeat(count - 2), reading(1)].concat()
}

#[test]
fn levels_terms_and_boxes_by_set() {
    let limits = set(24, 5, 3, 5);
    assert_eq!(both(limits, &[levels(5)]), [Ok(5); 2]);
    assert_eq!(both(limits, &[levels(6)]), place(15, [5 + 10, 5]));
    assert_eq!(both(limits, &vec![reading(1); 23]), [Ok(24); 2]);
    // Rows that are used up have no room for a term too many.
    let over = both(limits, &vec![reading(1); 24]);
    assert_eq!(over, [refused(16, 7 + 2 * 23), refused(12, 24)]);
    assert_eq!(both(limits, &vec![boxed(reading(1)); 3]), [Ok(7); 2]);
    assert_eq!(
        both(limits, &vec![boxed(reading(1)); 4]),
        place(17, [7 + 9, 7])
    );
}

#[test]
fn too_many_terms_before_too_deep_before_too_many_boxes() {
    let limits = set(24, 5, 3, 5);
    let after_boxes = |readings: usize, last: Term| {
        let boxes = vec![boxed(reading(1)); 3];
        both(
            limits,
            &[boxes, vec![reading(1); readings], vec![last]].concat(),
        )
    };
    // The reading on level 6 is a term too many, or there is room for it.
    let over = after_boxes(13, levels(6));
    assert_eq!(over, [refused(16, 7 + 9 + 26 + 8), refused(12, 24)]);
    assert_eq!(after_boxes(12, levels(6)), place(15, [7 + 9 + 24 + 8, 23]));
    // A fourth box, on level 6 and on level 2.
    let deep = [[0x0B, 1].repeat(4), boxed(reading(1))].concat();
    assert_eq!(after_boxes(0, deep), place(15, [7 + 9 + 8, 11]));
    assert_eq!(after_boxes(0, boxed(reading(1))), place(17, [7 + 9, 7]));
    let last = after_boxes(17, boxed(reading(1)));
    assert_eq!(last, [refused(16, 7 + 9 + 34), refused(12, 24)]);
    assert_eq!(
        after_boxes(16, boxed(reading(1))),
        place(17, [7 + 9 + 32, 23])
    );
}

#[test]
fn sets_with_nothing_to_spare() {
    // No boxes are a set: any box is one too many.
    let none = set(24, 5, 0, 5);
    assert_eq!(both(none, &[boxed(reading(1))]), place(17, [7, 1]));
    assert_eq!(both(none, &[reading(1)]), [Ok(2); 2]);
    // One level or one term is too few for a block and what is in it.
    assert_eq!(both(set(24, 1, 1, 1), &[reading(1)]), place(15, [7, 1]));
    let one = both(set(1, 1, 1, 9), &[reading(1)]);
    assert_eq!(one, [refused(16, 7), refused(12, 1)]);
    assert_eq!(both(SMALLEST, &[boxed(reading(1))])[0], refused(16, 7));
    let least = set(2, 1, 0, 2);
    assert_eq!(both(least, &[reading(1)]), [Ok(2); 2]);
    let rows = [11, 1, 0, 0, 0, 2, 1, 0, 0, 0];
    assert_eq!(check(least, &rows), Ok(2));
    assert_eq!(run(least, &rows, &READINGS, &mut [9; 3]), ran(200, 0));
}

#[test]
fn the_byte_limit_is_the_same_for_every_set() {
    for limits in [SMALLEST, Limits::BASE, Limits::LARGEST] {
        let mut rows = vec![9; limits.row_numbers()];
        assert_eq!(read(limits, NEWEST, &[0; 32_769], &mut rows), refused(1, 0));
        assert_eq!(
            read(limits, NEWEST, &[0; 32_769], &mut rows[1..]),
            refused(1, 0)
        );
        assert_eq!(rows, vec![9; limits.row_numbers()]);
        assert_eq!(
            read(limits, NEWEST, &[0; 32_768], &mut rows),
            refused(10, 0)
        );
        assert_eq!(rows, vec![0; limits.row_numbers()]);
    }
    let mut long = script(&[reading(1)]);
    long.resize(32_768, 0);
    let mut rows = vec![9; Limits::LARGEST.row_numbers()];
    assert_eq!(
        read(Limits::LARGEST, NEWEST, &long, &mut rows),
        refused(19, 9)
    );
}

#[test]
fn cells_come_after_the_variables_of_the_set() {
    for variables in [2, 5, 64, 70, 128] {
        let limits = set(24, variables, 3, 5);
        let terms = [
            let_(0, boxed(reading(0))),
            let_(1, shared((0, 1))),
            copy((0, 2)),
        ];
        let mut rows = vec![7; limits.row_numbers()];
        read(limits, NEWEST, &script(&terms), &mut rows).expect("a script");
        let mut store = vec![9; limits.store_numbers()];
        let answer = run_unchecked(limits, &rows, &READINGS, &mut store);
        assert_eq!(answer, refused(61, 6));
        let row = |row: usize| variable_row(&store, row);
        assert_eq!([row(0), row(1)], [[1, 2, 0], [1, 3, variables]]);
        assert_eq!(row(variables as usize), [1, 1, 185]);
        let others = store.iter().filter(|field| **field != 0).count();
        assert_eq!(others, 2 + 3 + 3);
    }
}
