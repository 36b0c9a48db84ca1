//! The form of scripts at its edges (LANGUAGE 5.9 to 5.13, 8.6).

use reference::form::{header, HEADER, MAX_BYTES};
use reference::{judge_rows, read, write, Limits, Refusal, Script, NEWEST};

const LIMITS: Limits = Limits::BASE;
const ROWS_LEN: usize = LIMITS.row_numbers();

const E1: [u8; 25] = [
    0x52, 0x43, 0x53, 0x00, 0x01, 0x0B, 0x04, 0x08, 0x00, 0x02, 0x00, 0x08, 0x01, 0x02, 0x01, 0x08,
    0x02, 0x05, 0x00, 0x00, 0x0A, 0x02, 0x01, 0x01, 0x00,
];

const E1_ROWS: [[u32; 5]; 8] = [
    [0x0B, 4, 0, 0, 0],
    [0x08, 0, 0, 0, 0],
    [0x02, 0, 0, 0, 0],
    [0x08, 1, 0, 0, 0],
    [0x02, 1, 0, 0, 0],
    [0x08, 2, 0, 0, 0],
    [0x05, 0, 0, 0, 0],
    [0x0A, 2, 1, 1, 0],
];

const USED: u32 = 0xDEAD_BEEF;

fn script(body: &[u8]) -> Vec<u8> {
    [&HEADER[..], body].concat()
}

fn refused<T>(number: u32, place: u32) -> Result<T, Refusal> {
    Err(Refusal { number, place })
}

/// Reads over rows that held something before. A refusal by the bytes must
/// leave all of them 0, success must leave the unused ones 0 and the written
/// script equal.
fn read_checked(script: &[u8]) -> Result<u32, Refusal> {
    let mut rows = [USED; ROWS_LEN];
    let answer = read(LIMITS, NEWEST, script, &mut rows);
    match answer {
        Ok(Script { version, terms }) => {
            assert!(rows[terms as usize * 5..].iter().all(|field| *field == 0));
            assert_eq!(judge_rows(LIMITS, &rows), Ok(terms));
            let mut output = vec![0xA5; script.len() + 3];
            let written = write(LIMITS, version, &rows, &mut output);
            assert_eq!(written, Ok(script.len() as u32));
            assert_eq!(&output[..script.len()], script);
            assert_eq!(&output[script.len()..], [0xA5; 3]);
        }
        Err(refusal) if refusal.number >= 10 => assert_eq!(rows, [0; ROWS_LEN]),
        Err(_) => assert_eq!(rows, [USED; ROWS_LEN]),
    }
    answer.map(|read| read.terms)
}

/// What is answered in every version.
fn read_body(body: &[u8]) -> Result<u32, Refusal> {
    let answer = read_checked(&script(body));
    let newest = [&header(NEWEST)[..], body].concat();
    assert_eq!(read_checked(&newest), answer);
    answer
}

/// Term rows with the given ones first and 0 after them.
fn rows_of(first: &[[u32; 5]]) -> Vec<u32> {
    let mut rows = first.concat();
    rows.resize(ROWS_LEN, 0);
    rows
}

/// The judgement of rows; the writer must agree and leave its output alone.
fn judge(first: &[[u32; 5]]) -> Result<u32, Refusal> {
    let rows = rows_of(first);
    let answer = judge_rows(LIMITS, &rows);
    if let Err(refusal) = answer {
        let mut output = [0xA5; MAX_BYTES];
        assert_eq!(write(LIMITS, NEWEST, &rows, &mut output), Err(refusal));
        assert_eq!(output, [0xA5; MAX_BYTES]);
    }
    answer
}

#[test]
fn e1_has_8_terms_and_its_rows() {
    let mut rows = [USED; ROWS_LEN];
    let e1 = Script {
        version: 1,
        terms: 8,
    };
    assert_eq!(read(LIMITS, NEWEST, &E1, &mut rows), Ok(e1));
    assert_eq!(rows.to_vec(), rows_of(&E1_ROWS));
    assert_eq!(read_checked(&E1), Ok(8));
}

#[test]
fn every_kind_is_read_and_written() {
    let body = [
        0x0B, 0x0C, 0x01, 0x80, 0, 0, 0, 0x01, 0x7F, 0xFF, 0xFF, 0xFF, 0x02, 7, 0x03, 63, 8, 0x04,
        0, 0, 0x05, 1, 2, 0x06, 3, 4, 0x07, 0x02, 0, 0x08, 63, 0x02, 1, 0x09, 63, 8, 0x02, 3, 0x0A,
        63, 8, 0, 0, 0x0B, 1, 0x01, 0xFF, 0xFF, 0xFF, 0xFF,
    ];
    assert_eq!(read_body(&body), Ok(17));
    let mut rows = [USED; ROWS_LEN];
    assert!(read(LIMITS, NEWEST, &script(&body), &mut rows).is_ok());
    assert_eq!(rows[5..10], [1, 0x8000_0000, 0, 0, 0]);
    assert_eq!(rows[10..15], [1, 0x7FFF_FFFF, 0, 0, 0]);
    assert_eq!(rows[20..25], [3, 63, 8, 0, 0]);
    assert_eq!(rows[40..45], [7, 0, 0, 0, 0]);
    assert_eq!(rows[60..65], [9, 63, 8, 0, 0][..]);
    assert_eq!(rows[70..75], [0x0A, 63, 8, 0, 0]);
    assert_eq!(rows[80..85], [1, 0xFFFF_FFFF, 0, 0, 0]);
    assert_eq!(rows[85..], vec![0; ROWS_LEN - 85]);
}

#[test]
fn every_cut_of_e1_is_ended_at_its_length() {
    for length in 0..E1.len() {
        assert_eq!(read_checked(&E1[..length]), refused(12, length as u32));
    }
}

#[test]
fn caller_refusals_of_the_reader() {
    let long = [0; MAX_BYTES + 1];
    assert_eq!(read_checked(&long), refused(1, 0));
    let mut short = [USED; ROWS_LEN - 1];
    assert_eq!(read(LIMITS, NEWEST, &E1, &mut short), refused(2, 0));
    assert_eq!(read(LIMITS, NEWEST, &long, &mut short), refused(1, 0));
    assert_eq!(short, [USED; ROWS_LEN - 1]);
    let mut more = [USED; ROWS_LEN + 1];
    assert_eq!(read(LIMITS, NEWEST, &E1, &mut more), refused(2, 0));
    assert_eq!(more, [USED; ROWS_LEN + 1]);
    assert_eq!(read(LIMITS, NEWEST, &[], &mut []), refused(2, 0));
}

#[test]
fn the_longest_script_is_judged_by_its_bytes() {
    let mut bytes = E1.to_vec();
    bytes.resize(MAX_BYTES, 0);
    assert_eq!(read_checked(&bytes), refused(19, 25));
    bytes.push(0);
    assert_eq!(read_checked(&bytes), refused(1, 0));
}

#[test]
fn mark_and_version() {
    assert_eq!(read_checked(b""), refused(12, 0));
    assert_eq!(read_checked(b"X"), refused(10, 0));
    assert_eq!(read_checked(b"RX"), refused(10, 1));
    assert_eq!(read_checked(b"RCX\x00\x02"), refused(10, 2));
    assert_eq!(read_checked(b"RCS"), refused(12, 3));
    assert_eq!(read_checked(b"RCS\x01"), refused(12, 4));
    assert_eq!(read_checked(b"RCS\x01\x01\x0B"), refused(11, 3));
    assert_eq!(read_checked(b"RCS\x00\x03"), refused(11, 3));
    assert_eq!(read_checked(b"RCS\x00\x00"), refused(11, 3));
    assert_eq!(read_checked(b"RCS\x01\x00"), refused(11, 3));
    assert_eq!(read_checked(b"RCS\x00\x01"), refused(12, 5));
    assert_eq!(read_checked(b"RCS\x00\x02"), refused(12, 5));
}

#[test]
fn unknown_kinds_come_before_no_block() {
    for kind in (0x0E..=0xFF).chain([0x00]) {
        assert_eq!(read_body(&[kind]), refused(13, 5));
        assert_eq!(read_body(&[0x0B, 2, 2, 0, kind]), refused(13, 9));
    }
    for kind in 0x01..=0x0A {
        assert_eq!(read_body(&[kind]), refused(18, 5));
    }
}

#[test]
fn operands_out_of_range_at_their_byte() {
    assert_eq!(read_body(&[0x0B, 0, 0xFF]), refused(14, 6));
    assert_eq!(read_body(&[0x0B, 1, 0x02, 8]), refused(14, 8));
    for kind in [0x03, 0x04, 0x05, 0x06, 0x09] {
        assert_eq!(read_body(&[0x0B, 1, kind, 64, 9]), refused(14, 8));
        assert_eq!(read_body(&[0x0B, 1, kind, 63, 9]), refused(14, 9));
        assert_eq!(read_body(&[0x0B, 1, kind, 64]), refused(14, 8));
        assert_eq!(read_body(&[0x0B, 1, kind, 63]), refused(12, 9));
    }
    assert_eq!(read_body(&[0x0B, 1, 0x08, 64]), refused(14, 8));
    assert_eq!(read_body(&[0x0B, 1, 0x0A, 64, 9, 64, 9]), refused(14, 8));
    assert_eq!(read_body(&[0x0B, 1, 0x0A, 63, 9, 64, 9]), refused(14, 9));
    assert_eq!(read_body(&[0x0B, 1, 0x0A, 63, 8, 64, 9]), refused(14, 10));
    assert_eq!(read_body(&[0x0B, 1, 0x0A, 63, 8, 63, 9]), refused(14, 11));
    assert_eq!(read_body(&[0x0B, 1, 0x0A, 63, 8, 63, 8]), Ok(2));
    assert_eq!(read_body(&[0x0B, 1, 0x0B, 0]), refused(14, 8));
}

#[test]
fn bytes_left_over() {
    assert_eq!(read_body(&[0x0B, 1, 0x02, 0, 0]), refused(19, 9));
    assert_eq!(read_body(&[0x0B, 1, 0x02, 0, 0x0B, 1]), refused(19, 9));
}

/// Blocks of one term round a number, so many levels in all.
fn levels(count: usize) -> Vec<u8> {
    let mut body = [0x0B, 1].repeat(count - 1);
    body.extend([0x01, 0, 0, 0, 7]);
    body
}

#[test]
fn sixteen_levels_and_no_more() {
    assert_eq!(read_body(&levels(16)), Ok(16));
    assert_eq!(read_body(&levels(17)), refused(15, 5 + 32));
    // The operands of a block at level 16 are judged, its inner term is not.
    let full = [0x0B, 1].repeat(16);
    assert_eq!(read_body(&full), refused(12, 37));
    assert_eq!(read_body(&[&full[..], &[0x02]].concat()), refused(15, 37));
    assert_eq!(read_body(&[&full[..], &[0x0E]].concat()), refused(13, 37));
    // A let, a box and an assign are levels too.
    let mixed = |inner: &[u8]| {
        let mut body = [0x0B, 1, 0x08, 0, 0x07, 0x09, 0, 0].repeat(3);
        body.extend([0x0B, 1, 0x07, 0x07]);
        body.extend(inner);
        body
    };
    assert_eq!(read_body(&mixed(&[0x02, 0])), Ok(16));
    assert_eq!(read_body(&mixed(&[0x07, 0x02, 0])), refused(15, 5 + 29));
}

/// Two blocks in a block, with so many readings in them.
fn readings(first: u8, second: u8) -> Vec<u8> {
    let mut body = vec![0x0B, 2, 0x0B, first];
    body.extend([0x02, 1].repeat(first as usize));
    body.extend([0x0B, second]);
    body.extend([0x02, 7].repeat(second as usize));
    body
}

#[test]
fn five_hundred_and_twelve_terms_and_no_more() {
    assert_eq!(read_body(&readings(255, 254)), Ok(512));
    let over = readings(255, 255);
    assert_eq!(read_body(&over), refused(16, 5 + over.len() as u32 - 2));
    let mut unknown = over.clone();
    unknown[over.len() - 2] = 0;
    assert_eq!(read_body(&unknown), refused(13, 5 + over.len() as u32 - 2));
    assert_eq!(
        read_body(&over[..over.len() - 2]),
        refused(12, 5 + over.len() as u32 - 2)
    );
}

#[test]
fn sixty_four_boxes_and_no_more() {
    let boxes = |count: u8| {
        let mut body = vec![0x0B, count];
        body.extend([0x07, 0x02, 0].repeat(count as usize));
        body
    };
    assert_eq!(read_body(&boxes(64)), Ok(129));
    assert_eq!(read_body(&boxes(65)), refused(17, 5 + 2 + 64 * 3));
}

#[test]
fn too_many_terms_before_too_deep_before_too_many_boxes() {
    // 64 boxes with readings, then blocks down to level 16, then a box.
    let mut body = vec![0x0B, 65];
    body.extend([0x07, 0x02, 0].repeat(64));
    body.extend([0x0B, 1].repeat(15));
    let place = 5 + body.len() as u32;
    body.push(0x07);
    assert_eq!(read_body(&body), refused(15, place));
    // 512 terms, the last of them a block at level 16.
    let mut body = vec![0x0B, 3, 0x0B, 255];
    body.extend([0x02, 1].repeat(255));
    body.extend([0x0B, 239]);
    body.extend([0x02, 1].repeat(239));
    body.extend([0x0B, 1].repeat(15));
    let place = 5 + body.len() as u32;
    body.push(0x07);
    assert_eq!(read_body(&body), refused(16, place));
}

#[test]
fn rows_of_a_script_are_judged_by_12_to_19() {
    let number = [1, 5, 0, 0, 0];
    assert_eq!(judge(&[]), refused(12, 0));
    assert_eq!(judge(&[[0x0B, 2, 0, 0, 0], number]), refused(12, 2));
    assert_eq!(
        judge(&[[0x0B, 1, 0, 0, 0], [0, 1, 0, 0, 0]]),
        refused(12, 1)
    );
    assert_eq!(judge(&[[0x0E, 1, 0, 0, 0]]), refused(13, 0));
    assert_eq!(
        judge(&[[0x0B, 1, 0, 0, 0], [0x10B, 1, 0, 0, 0]]),
        refused(13, 1)
    );
    assert_eq!(judge(&[number]), refused(18, 0));
    assert_eq!(judge(&[[0x0C, 1, 0, 0, 0]]), refused(18, 0));
    assert_eq!(judge(&[[0x0B, 0, 0, 0, 0]]), refused(14, 0));
    assert_eq!(judge(&[[0x0B, 256, 0, 0, 0]]), refused(14, 0));
    assert_eq!(judge(&[[0x0B, 1, 0, 0, 1]]), refused(14, 0));
    assert_eq!(judge(&[[0x0B, 1, 0, 0, 0], number, number]), refused(19, 2));
    let unused = [0, 0, 0, 0, 9];
    assert_eq!(
        judge(&[[0x0B, 1, 0, 0, 0], number, [0; 5], unused]),
        refused(19, 3)
    );
    assert_eq!(judge(&[[0x0B, 1, 0, 0, 0], number]), Ok(2));
}

#[test]
fn each_field_of_each_kind_has_its_range() {
    const ANY: u32 = u32::MAX;
    let most: [(u32, [u32; 4]); 13] = [
        (1, [ANY, 0, 0, 0]),
        (2, [7, 0, 0, 0]),
        (3, [63, 8, 0, 0]),
        (4, [63, 8, 0, 0]),
        (5, [63, 8, 0, 0]),
        (6, [63, 8, 0, 0]),
        (7, [0, 0, 0, 0]),
        (8, [63, 0, 0, 0]),
        (9, [63, 8, 0, 0]),
        (10, [63, 8, 63, 8]),
        (11, [255, 0, 0, 0]),
        (12, [63, 8, 0, 0]),
        (13, [63, 8, 63, 8]),
    ];
    for (kind, most) in &most {
        for field in 0..4 {
            let mut row = [*kind, 0, 0, 0, 0];
            row[1..].copy_from_slice(most);
            let given = [[0x0B, 1, 0, 0, 0], row, [2, 0, 0, 0, 0]];
            assert_ne!(judge(&given), refused(14, 1), "kind {kind}");
            if most[field] < ANY {
                for over in [most[field] + 1, ANY] {
                    let mut given = given;
                    given[1][field + 1] = over;
                    assert_eq!(judge(&given), refused(14, 1), "kind {kind} field {field}");
                }
            }
        }
    }
}

#[test]
fn limits_of_rows() {
    let block = |count| [0x0B, count, 0, 0, 0];
    let reading = [2, 0, 0, 0, 0];
    let mut deep = vec![block(1); 15];
    deep.push(reading);
    assert_eq!(judge(&deep), Ok(16));
    deep[15] = block(1);
    deep.push(reading);
    assert_eq!(judge(&deep), refused(15, 16));

    let mut wide = vec![block(2), block(255)];
    wide.extend([reading; 255]);
    wide.push(block(254));
    wide.extend([reading; 254]);
    assert_eq!(judge(&wide), Ok(512));
    // With one more the rows are used up before the script ends.
    wide[257] = block(255);
    assert_eq!(judge(&wide), refused(12, 512));

    let boxed = [[7, 0, 0, 0, 0], reading];
    let boxes = |count: u32| [vec![block(count)], vec![boxed; count as usize].concat()].concat();
    assert_eq!(judge(&boxes(64)), Ok(129));
    assert_eq!(judge(&boxes(65)), refused(17, 129));
}

#[test]
fn caller_refusals_of_the_writer_and_the_row_judge() {
    let mut output = [0xA5; 64];
    for length in [0, ROWS_LEN - 1, ROWS_LEN + 1] {
        let rows = vec![USED; length];
        assert_eq!(judge_rows(LIMITS, &rows), refused(2, 0));
        assert_eq!(write(LIMITS, 1, &rows, &mut output), refused(2, 0));
        assert_eq!(write(LIMITS, 1, &rows, &mut []), refused(2, 0));
    }
    let rows = rows_of(&E1_ROWS);
    for length in 0..E1.len() {
        let answer = write(LIMITS, 1, &rows, &mut output[..length]);
        assert_eq!(answer, refused(5, 0));
    }
    // The rows are judged before the output.
    assert_eq!(
        write(LIMITS, 1, &vec![0; ROWS_LEN], &mut []),
        refused(12, 0)
    );
    assert_eq!(output, [0xA5; 64]);
    assert_eq!(write(LIMITS, 1, &rows, &mut output[..25]), Ok(25));
    assert_eq!(output[..25], E1);
    assert_eq!(output[25..], [0xA5; 39]);
}
