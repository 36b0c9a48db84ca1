//! Lengths of rows and store that follow from the set (LANGUAGE 2.9, 4.1): the
//! right one, one off, and those of other sets.

use crate::asked;
use crate::common::guarded::Guarded;
use crate::common::refused;
use crate::common::sets::{set, LEAST, NAMED, SMALL, UNEVEN};
use crate::given::E1;
use crate::hand::{both_refuse, READINGS};
use roomscript::{Limits, NEWEST};

/// Sets with the lengths that they ask for.
const LENGTHS: [(Limits, usize, usize); 8] = [
    (LEAST, 5, 3),
    (SMALL, 120, 24),
    (UNEVEN, 1000, 405),
    (Limits::BASE, 2560, 384),
    (Limits::LARGEST, 20_480, 768),
    (set(4096, 1, 0, 1), 20_480, 3),
    (set(1, 128, 128, 32), 5, 768),
    (set(512, 64, 63, 16), 2560, 381),
];

/// Other lengths than the right one: a little off, and those of other sets.
fn others(right: usize, of: fn(Limits) -> usize) -> Vec<usize> {
    let near = [
        right - 1,
        right + 1,
        right + 3,
        right + 5,
        2 * right,
        right / 2,
    ];
    let mut others = near.to_vec();
    others.extend([0, right.saturating_sub(3), right.saturating_sub(5)]);
    others.extend(NAMED.map(of));
    others.retain(|length| *length != right);
    others
}

#[test]
fn rows_of_the_right_length() {
    for (limits, rows, store) in LENGTHS {
        assert_eq!(
            (limits.row_numbers(), limits.store_numbers()),
            (rows, store)
        );
        let ended = vec![0; rows];
        assert_eq!(asked::judge_rows(limits, &ended), refused(12, 0));
        assert_eq!(asked::length(limits, 2, &ended), refused(12, 0));
        assert_eq!(asked::length(limits, 3, &ended), refused(11, 0));
        assert_eq!(asked::write(limits, 2, &ended, &mut []), refused(12, 0));
        assert_eq!(asked::write(limits, 3, &ended, &mut []), refused(11, 0));
        assert_eq!(asked::check(limits, &ended), refused(12, 0));
        let answer = both_refuse(limits, &ended, &READINGS, store);
        assert_eq!(answer, refused(12, 0));
        let mut lent = Guarded::junk(rows, 42);
        let answer = asked::read(limits, NEWEST, b"RCS", lent.lent_mut());
        assert_eq!(answer, refused(12, 3));
        assert_eq!(lent.lent(), ended);
        assert!(lent.guards_hold());
    }
}

#[test]
fn rows_of_other_lengths_2() {
    for (limits, right, store) in LENGTHS {
        for length in others(right, Limits::row_numbers) {
            let rows = vec![0; length];
            assert_eq!(asked::judge_rows(limits, &rows), refused(2, 0));
            for version in [1, 2, 3] {
                let answer = asked::length(limits, version, &rows);
                assert_eq!(answer, refused(2, 0));
                let answer = asked::write(limits, version, &rows, &mut [0; 9]);
                assert_eq!(answer, refused(2, 0));
            }
            assert_eq!(asked::check(limits, &rows), refused(2, 0));
            let mut lent = Guarded::junk(length, 43);
            // Also where 3 and 4 would come.
            for store in [store, 0, store + 1] {
                for readings in [&READINGS[..], &[]] {
                    let answer = both_refuse(limits, &rows, readings, store);
                    assert_eq!(answer, refused(2, 0), "{limits:?} {length}");
                    let mut store = Guarded::junk(store, 44);
                    let (rows, on) = (lent.lent_mut(), store.lent_mut());
                    let answer = asked::call(limits, &E1, readings, rows, on);
                    assert_eq!(answer, refused(2, 0), "{limits:?} {length}");
                    assert!(store.junk_from(0) && store.guards_hold());
                }
            }
            let answer = asked::read(limits, NEWEST, &E1, lent.lent_mut());
            assert_eq!(answer, refused(2, 0));
            assert!(lent.junk_from(0) && lent.guards_hold());
        }
    }
}

#[test]
fn stores_of_other_lengths_3() {
    for (limits, rows, right) in LENGTHS {
        let ended = vec![0; rows];
        for length in others(right, Limits::store_numbers) {
            // Also where 4 would come, and before the rows and bytes.
            for readings in [&READINGS[..], &READINGS[..7], &[]] {
                let answer = both_refuse(limits, &ended, readings, length);
                assert_eq!(answer, refused(3, 0), "{limits:?} {length}");
                let mut lent = Guarded::junk(rows, 45);
                let mut store = Guarded::junk(length, 46);
                for script in [&E1[..], b"X"] {
                    let (rows, on) = (lent.lent_mut(), store.lent_mut());
                    let answer = asked::call(limits, script, readings, rows, on);
                    assert_eq!(answer, refused(3, 0), "{limits:?} {length}");
                }
                assert!(store.junk_from(0) && store.guards_hold());
                assert!(lent.junk_from(0) && lent.guards_hold());
            }
        }
    }
}

#[test]
fn readings_of_other_lengths_4() {
    for (limits, rows, store) in LENGTHS {
        let ended = vec![0; rows];
        for length in [0, 1, 7, 9, 16] {
            let readings = vec![1; length];
            let answer = both_refuse(limits, &ended, &readings, store);
            assert_eq!(answer, refused(4, 0), "{limits:?}");
            let mut lent = Guarded::junk(rows, 47);
            let mut store = Guarded::junk(store, 48);
            let (rows, on) = (lent.lent_mut(), store.lent_mut());
            let answer = asked::call(limits, b"X", &readings, rows, on);
            assert_eq!(answer, refused(4, 0), "{limits:?}");
            assert!(store.junk_from(0) && store.guards_hold());
            assert!(lent.junk_from(0) && lent.guards_hold());
        }
    }
}

/// The same number of bytes under every set, before all lengths.
#[test]
fn scripts_over_32768_bytes_1() {
    for (limits, rows, store) in LENGTHS {
        for length in [32_769, 40_000] {
            let script = vec![0x52; length];
            for rows in [rows, 0, rows + 1] {
                let mut lent = Guarded::junk(rows, 49);
                let answer = asked::read(limits, NEWEST, &script, lent.lent_mut());
                assert_eq!(answer, refused(1, 0));
                for store in [store, 0] {
                    let mut store = Guarded::junk(store, 50);
                    let (rows, on) = (lent.lent_mut(), store.lent_mut());
                    let answer = asked::call(limits, &script, &[], rows, on);
                    assert_eq!(answer, refused(1, 0), "{limits:?}");
                    assert!(store.junk_from(0) && store.guards_hold());
                }
                assert!(lent.junk_from(0) && lent.guards_hold());
            }
        }
        let mut lent = Guarded::junk(rows, 51);
        let script = vec![0x52; 32_768];
        assert_eq!(
            asked::read(limits, NEWEST, &script, lent.lent_mut()),
            refused(10, 1)
        );
    }
}
