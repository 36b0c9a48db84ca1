//! The generators reach every answer, keep their promises, and depend on
//! nothing but their seed.

mod common;

use common::{levels, LIMITS, ROWS_LEN};
use reference::form::MAX_BYTES;
use reference::{check, check_by_scope, judge_rows, read, write, Generator, NEWEST};
use std::collections::BTreeMap;

const SAMPLE: usize = 20_000;

/// A simple checksum (FNV-1a) over what a generator made.
fn mix(sum: u64, value: u64) -> u64 {
    (sum ^ value).wrapping_mul(0x0000_0100_0000_01B3)
}

/// Sums over 500 rounds of scripts, rows, rows for the check, and inputs.
fn sums(seed: u64) -> [u64; 4] {
    let mut generator = Generator::new(seed);
    let (mut bytes, mut rows) = (Vec::new(), Vec::new());
    let mut sums = [0; 4];
    let of_bytes = |sum, bytes: &[u8]| bytes.iter().fold(sum, |sum, byte| mix(sum, *byte as u64));
    let of_rows = |sum, rows: &[u32]| rows.iter().fold(sum, |sum, field| mix(sum, *field as u64));
    for _ in 0..500 {
        generator.script(&mut bytes);
        sums[0] = of_bytes(sums[0], &bytes);
        generator.rows(&mut rows);
        sums[1] = of_rows(sums[1], &rows);
        generator.mixed_rows(&mut rows);
        sums[2] = of_rows(sums[2], &rows);
        generator.input(&mut bytes);
        sums[3] = of_bytes(sums[3], &bytes);
    }
    sums
}

/// The sums are written down, so that another machine that made something
/// else from the same seed would be noticed. They change with the generators.
#[test]
fn one_seed_gives_one_sequence() {
    let expected = [
        0x81E7_6671_50EE_BE5E,
        0x6F4F_F020_161B_E9BF,
        0x2A43_E01F_159A_4563,
        0xD7E0_5C69_C739_E8DB,
    ];
    assert_eq!(sums(1), expected);
    assert_ne!(sums(2), expected);
}

#[test]
fn valid_scripts_are_read_and_written_back() {
    let mut generator = Generator::new(3);
    let mut script = Vec::new();
    let mut rows = vec![7; ROWS_LEN];
    let mut output = vec![0; MAX_BYTES];
    for _ in 0..SAMPLE {
        generator.valid_script(&mut script);
        let read = read(LIMITS, NEWEST, &script, &mut rows).expect("valid");
        assert_eq!(judge_rows(LIMITS, &rows), Ok(read.terms));
        let length = write(LIMITS, read.version, &rows, &mut output);
        assert_eq!(length, Ok(script.len() as u32));
        assert_eq!(output[..script.len()], script);
    }
}

#[test]
fn valid_rows_are_written_and_read_back() {
    let mut generator = Generator::new(4);
    let mut rows = Vec::new();
    let mut output = vec![0; MAX_BYTES];
    let mut again = vec![7; ROWS_LEN];
    for _ in 0..SAMPLE {
        generator.valid_rows(&mut rows);
        let length = write(LIMITS, NEWEST, &rows, &mut output).expect("valid");
        let read = read(LIMITS, NEWEST, &output[..length as usize], &mut again);
        assert_eq!(read.map(|read| read.version), Ok(NEWEST));
        assert_eq!(read.map(|read| read.terms), judge_rows(LIMITS, &rows));
        assert_eq!(again, rows);
    }
}

#[test]
fn accepted_scripts_and_rows_correspond() {
    let mut generator = Generator::new(5);
    let (mut script, mut rows) = (Vec::new(), vec![7; ROWS_LEN]);
    let mut output = vec![0; MAX_BYTES];
    let mut again = vec![7; ROWS_LEN];
    for _ in 0..SAMPLE {
        generator.script(&mut script);
        match read(LIMITS, NEWEST, &script, &mut rows) {
            Ok(read) => {
                let length = write(LIMITS, read.version, &rows, &mut output);
                assert_eq!(length, Ok(script.len() as u32));
                assert_eq!(output[..script.len()], script);
            }
            Err(refusal) if refusal.number >= 10 => assert!(rows.iter().all(|field| *field == 0)),
            Err(refusal) => assert_eq!((refusal.number, refusal.place), (1, 0)),
        }
        generator.rows(&mut rows);
        assert_eq!(rows.len(), ROWS_LEN);
        let version = generator.version();
        if let Ok(length) = write(LIMITS, version, &rows, &mut output) {
            let read = read(LIMITS, NEWEST, &output[..length as usize], &mut again);
            assert_eq!(read.map(|read| read.version), Ok(version));
            assert_eq!(read.map(|read| read.terms), judge_rows(LIMITS, &rows));
            assert_eq!(again, rows);
        }
    }
}

#[test]
fn every_number_of_the_form_occurs() {
    let mut generator = Generator::new(6);
    let (mut script, mut rows) = (Vec::new(), vec![0; ROWS_LEN]);
    let (mut reading, mut judging) = ([0; 20], [0; 20]);
    for _ in 0..SAMPLE {
        generator.script(&mut script);
        let answer = read(LIMITS, NEWEST, &script, &mut rows);
        reading[answer.map_or_else(|refusal| refusal.number as usize, |_| 0)] += 1;
        generator.rows_any_length(&mut rows);
        let answer = judge_rows(LIMITS, &rows);
        judging[answer.map_or_else(|refusal| refusal.number as usize, |_| 0)] += 1;
        rows.resize(ROWS_LEN, 0);
    }
    for number in [0, 1].into_iter().chain(10..=19) {
        assert!(reading[number] > 20, "reading {number}: {reading:?}");
    }
    for number in [0, 2, 12, 13, 14, 15, 17, 18, 19] {
        assert!(judging[number] > 20, "rows {number}: {judging:?}");
    }
    // 512 rows cannot hold a 513th term.
    assert_eq!(judging[16], 0);
}

#[test]
fn shapes_reach_the_limits() {
    let mut generator = Generator::new(7);
    let mut rows = Vec::new();
    let (mut deepest, mut widest, mut most_terms, mut most_boxes) = (0, 0, 0, 0);
    let mut kinds = [0; 14];
    for _ in 0..SAMPLE {
        generator.valid_rows(&mut rows);
        let terms = judge_rows(LIMITS, &rows).expect("valid") as usize;
        let used: Vec<&[u32]> = rows.chunks(5).take(terms).collect();
        used.iter().for_each(|row| kinds[row[0] as usize] += 1);
        most_terms = most_terms.max(terms);
        most_boxes = most_boxes.max(used.iter().filter(|row| row[0] == 7).count());
        widest = widest.max(
            used.iter()
                .filter(|row| row[0] == 11)
                .map(|row| row[1])
                .max()
                .unwrap(),
        );
        deepest = deepest.max(levels(&used, &mut 0));
    }
    assert_eq!(
        (deepest, widest, most_terms, most_boxes),
        (16, 255, 512, 64)
    );
    assert_eq!(kinds[0], 0);
    assert!(kinds[1..].iter().all(|count| *count > 10_000), "{kinds:?}");
}

#[test]
fn scripts_have_the_kinds_of_their_version() {
    let mut generator = Generator::new(8);
    let mut script = Vec::new();
    let mut rows = vec![0; ROWS_LEN];
    // Version 1, version 2 without its own kinds, version 2 with them.
    let mut counts = [0; 3];
    for _ in 0..SAMPLE {
        generator.valid_script(&mut script);
        let read = read(LIMITS, NEWEST, &script, &mut rows).expect("valid");
        let second = rows.chunks(5).any(|row| [12, 13].contains(&row[0]));
        assert!(read.version == 2 || !second);
        counts[(read.version - 1) as usize + usize::from(second)] += 1;
    }
    assert!(counts.iter().all(|count| *count > SAMPLE / 8), "{counts:?}");
}

/// How often this kind byte in version 1 is what is refused.
fn refused_in_version_1(
    refused: u8,
    make: fn(&mut Generator, &mut Vec<u8>),
    skipped: usize,
) -> usize {
    let mut generator = Generator::new(9);
    let mut bytes = Vec::new();
    let mut rows = vec![0; ROWS_LEN];
    let mut count = 0;
    for _ in 0..SAMPLE {
        make(&mut generator, &mut bytes);
        let script = bytes.get(skipped..).unwrap_or_default();
        if let Err(refusal) = read(LIMITS, NEWEST, script, &mut rows) {
            let kind = script.get(refusal.place as usize);
            count += usize::from(refusal.number == 13 && kind == Some(&refused));
        }
    }
    count
}

#[test]
fn kinds_of_version_2_in_version_1_occur() {
    for kind in [12, 13] {
        let scripts = refused_in_version_1(kind, Generator::script, 0);
        assert!(scripts > SAMPLE / 100, "{kind}: {scripts}");
        let inputs = refused_in_version_1(kind, Generator::input, 32);
        assert!(inputs > SAMPLE / 200, "{kind}: {inputs}");
    }
}

#[test]
fn versions_for_reader_and_writer() {
    let mut generator = Generator::new(10);
    let mut versions = BTreeMap::new();
    let mut newest = BTreeMap::new();
    for _ in 0..SAMPLE {
        *versions.entry(generator.version()).or_insert(0) += 1;
        *newest.entry(generator.newest()).or_insert(0) += 1;
    }
    for number in [0, 3, 256, 257, 258, 513, 0x1_0001, 0x1_0002, u32::MAX] {
        assert!(versions[&number] > 50, "{versions:?}");
        assert!(newest[&number] > 50, "{newest:?}");
    }
    for number in [1, 2] {
        assert!(versions[&number] > SAMPLE / 5, "{versions:?}");
        assert!(newest[&number] > SAMPLE / 5, "{newest:?}");
    }
}

/// Of so many scripts, on how many the last uses decide, since a bar is asked
/// of a root with a holder, and how many get another answer than they would by
/// scope.
fn decided(seed: u64, make: fn(&mut Generator, &mut Vec<u32>)) -> [usize; 2] {
    let mut generator = Generator::new(seed);
    let mut rows = Vec::new();
    let mut counts = [0; 2];
    for _ in 0..SAMPLE {
        make(&mut generator, &mut rows);
        let by_scope = check_by_scope(LIMITS, &rows);
        let asked = by_scope.is_err_and(|refusal| [34, 35].contains(&refusal.number));
        let differs = check(LIMITS, &rows) != by_scope;
        assert!(asked || !differs, "{by_scope:?}");
        counts[0] += usize::from(asked);
        counts[1] += usize::from(differs);
    }
    counts
}

#[test]
fn last_uses_decide() {
    let [asked, differ] = decided(11, Generator::last_uses_rows);
    assert!(asked > SAMPLE * 4 / 5, "{asked}");
    // These are accepted, so that each bar that is asked makes a difference.
    assert_eq!(differ, asked);
    let [asked, differ] = decided(12, Generator::near_last_uses_rows);
    assert!(asked > SAMPLE * 4 / 5, "{asked}");
    assert!(differ > SAMPLE / 2, "{differ}");
    // Scripts of other kinds are accepted by scope already.
    for make in [Generator::accepted_rows, Generator::joined_rows] {
        assert_eq!(decided(13, make), [0, 0]);
    }
}
