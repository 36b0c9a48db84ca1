//! Whole calls (LANGUAGE 6.8): refusals by the caller in their order, and by
//! the bytes, with all lent memory. The author's refusals and success are
//! looked at wherever a script is checked by hand.

use crate::asked;
use crate::common::examples::e1;
use crate::common::guarded::Guarded;
use crate::common::refused;
use crate::common::store::is_tidy;
use crate::common::terms::*;
use crate::hand::READINGS;
use roomscript::{Called, Limits, Refusal};

const BASE: Limits = Limits::BASE;
const ROWS: usize = BASE.row_numbers();
const STORE: usize = BASE.store_numbers();

/// Rows and store, both full of junk.
struct Lent {
    rows: Guarded<u32>,
    store: Guarded<u32>,
}

impl Lent {
    fn new(rows: usize, store: usize) -> Self {
        Lent {
            rows: Guarded::junk(rows, 21),
            store: Guarded::junk(store, 22),
        }
    }

    #[track_caller]
    fn call(&mut self, script: &[u8], readings: &[i32]) -> Result<Called, Refusal> {
        let (rows, store) = (self.rows.lent_mut(), self.store.lent_mut());
        let answer = asked::call(BASE, script, readings, rows, store);
        assert!(self.rows.guards_hold() && self.store.guards_hold());
        answer
    }

    fn unchanged(&self) -> bool {
        self.rows.junk_from(0) && self.store.junk_from(0)
    }
}

#[test]
fn refusals_by_the_caller() {
    // Each length right or wrong, in every combination: the lowest number is
    // the one given, and every one of them comes before the bytes.
    let scripts = [script_of(&e1()), b"X".to_vec(), vec![0; 32_769]];
    for script in &scripts {
        for rows in [ROWS, 0, ROWS - 1, ROWS + 1] {
            for store in [STORE, 0, STORE - 1, STORE + 1] {
                for readings in [8, 0, 7, 9] {
                    let number = match (script.len(), rows, store, readings) {
                        (32_769, ..) => 1,
                        (_, rows, ..) if rows != ROWS => 2,
                        (_, _, store, _) if store != STORE => 3,
                        (_, _, _, readings) if readings != 8 => 4,
                        _ => continue,
                    };
                    let mut lent = Lent::new(rows, store);
                    let answer = lent.call(script, &vec![5; readings]);
                    assert_eq!(answer, refused(number, 0));
                    assert!(lent.unchanged());
                }
            }
        }
    }
}

/// A script that is refused for each number of the form, with its place.
fn bad_scripts() -> Vec<(Vec<u8>, u32, u32)> {
    let body = |bytes: &[u8]| [b"RCS\x00\x01", bytes].concat();
    let second = |bytes: &[u8]| [b"RCS\x00\x02", bytes].concat();
    let leaves = |count: usize| [&[0x0B, count as u8][..], &[2, 0].repeat(count)].concat();
    let two = [leaves(255), leaves(255)].concat();
    let boxes = [&[0x0B, 65][..], &[7, 2, 0].repeat(65)].concat();
    vec![
        (b"RXS\x00\x01".to_vec(), 10, 1),
        (b"RCS\x00\x03".to_vec(), 11, 3),
        (b"".to_vec(), 12, 0),
        (body(&[0x0B, 1]), 12, 7),
        (body(&[0x0B, 1, 0x0C]), 13, 7),
        (body(&[0x0B, 1, 0x0D]), 13, 7),
        (body(&[0x0B, 1, 2, 8]), 14, 8),
        (body(&[0x0B, 1].repeat(17)), 15, 5 + 32),
        (body(&[&[0x0B, 2][..], &two].concat()), 16, 5 + 6 + 509 * 2),
        (body(&boxes), 17, 5 + 2 + 64 * 3),
        (body(&[2, 0]), 18, 5),
        (body(&[0x0B, 1, 2, 0, 0]), 19, 9),
        (vec![0x52; 32_768], 10, 1),
        (second(&[0x0B, 1]), 12, 7),
        (second(&[0x0B, 1, 0x0C]), 12, 8),
        (second(&[0x0B, 1, 0x0C, 0, 9]), 14, 9),
        (second(&[0x0B, 1, 0x0C, 0, 0, 2, 0]), 18, 10),
        (second(&[0x0B, 1, 0x0E]), 13, 7),
        (second(&[0x0B, 1, 0x0D]), 12, 8),
        (second(&[0x0B, 1, 0x0D, 0, 0, 64, 0]), 14, 10),
        (second(&[0x0D, 0, 0, 0, 0]), 18, 5),
        (second(&[0x0B, 1, 0x0D, 0, 0, 0, 0, 0x0D]), 19, 12),
    ]
}

#[test]
fn refusals_by_the_bytes() {
    for (script, number, place) in bad_scripts() {
        let mut lent = Lent::new(ROWS, STORE);
        assert_eq!(lent.call(&script, &READINGS), refused(number, place));
        assert_eq!(lent.rows.lent(), [0; ROWS], "{number}");
        assert!(lent.store.junk_from(0), "{number}");
    }
    // E1 cut short at each length.
    let whole = script_of(&e1());
    for length in 0..whole.len() {
        let mut lent = Lent::new(ROWS, STORE);
        let answer = lent.call(&whole[..length], &READINGS);
        assert_eq!(answer, refused(12, length as u32));
        assert_eq!(lent.rows.lent(), [0; ROWS]);
        assert!(lent.store.junk_from(0));
    }
}

#[test]
fn refusals_by_the_author_leave_the_rows() {
    let terms = [boxed(number(1)), copy((0, 0))];
    let mut lent = Lent::new(ROWS, STORE);
    let answer = lent.call(&script_of(&terms), &READINGS);
    assert_eq!(answer, refused(31, 3));
    assert_eq!(lent.rows.lent(), rows_of(&terms));
    assert!(lent.store.junk_from(0));
}

#[test]
fn accepted_scripts() {
    let mut lent = Lent::new(ROWS, STORE);
    let answer = lent.call(&script_of(&e1()), &READINGS);
    let called = |answer, terms, cells| {
        Ok(Called {
            answer,
            terms,
            cells,
        })
    };
    assert_eq!(answer, called(1, 8, 0));
    assert_eq!(lent.rows.lent(), rows_of(&e1()));
    assert!(is_tidy(BASE, lent.store.lent(), 0));
    // On the memory that the first call left.
    let terms = [let_(9, boxes(2, number(-7))), copy((9, 2))];
    let answer = lent.call(&script_of(&terms), &READINGS);
    assert_eq!(answer, called(-7, 6, 2));
    assert_eq!(lent.rows.lent(), rows_of(&terms));
    assert!(is_tidy(BASE, lent.store.lent(), 2));
    // The readings are the caller's.
    let answer = lent.call(&script_of(&[reading(4)]), &READINGS);
    assert_eq!(answer, called(i32::MIN, 2, 0));
}
