//! The limits of the language's own set (LANGUAGE 2.8), from bytes and from
//! rows: bytes, levels, terms and boxes, each at its edge and one beyond, and
//! their order (5.10, 5.12).

use crate::common::refused;
use crate::given::*;

#[test]
fn bytes_32768_and_32769() {
    // No script of 32,768 bytes is accepted: all terms that there can be take
    // fewer.
    let mut bytes = E1.to_vec();
    bytes.resize(32_768, 0);
    assert_eq!(reads(&bytes), refused(19, 25));
    bytes.push(0);
    assert_eq!(reads(&bytes), refused(1, 0));
    for length in [4096, 4097, 20_485, 20_486, 32_768] {
        assert_eq!(reads(&vec![0x52; length]), refused(10, 1));
    }
    for length in [32_769, 65_536, 65_537, 100_000] {
        assert_eq!(reads(&vec![0x52; length]), refused(1, 0));
    }
}

#[test]
fn the_longest_accepted_script() {
    // Of 512 terms at least 3 are blocks, the others numbers of 5 bytes.
    let mut body = vec![0x0B, 2, 0x0B, 255];
    body.extend([0x01, 0x89, 0xAB, 0xCD, 0xEF].repeat(255));
    body.extend([0x0B, 254]);
    body.extend([0x01, 0x89, 0xAB, 0xCD, 0xEF].repeat(254));
    assert_eq!(body.len(), 2551);
    assert_eq!(reads_body(&body), Ok(512));
}

/// Blocks of one term, all but the innermost level.
fn blocks(levels: usize) -> Vec<u8> {
    [0x0B, 1].repeat(levels - 1)
}

#[test]
fn levels_16_and_17_of_bytes() {
    let reading = [0x02, 0];
    assert_eq!(reads_body(&[&blocks(16)[..], &reading].concat()), Ok(16));
    let beyond = [&blocks(17)[..], &reading].concat();
    assert_eq!(reads_body(&beyond), refused(15, 37));
    // The block on level 16 is read whole before its inner term is judged.
    assert_eq!(reads_body(&blocks(17)), refused(12, 37));
    assert_eq!(
        reads_body(&[&blocks(16)[..], &[0x0B, 0]].concat()),
        refused(14, 36)
    );
    assert_eq!(
        reads_body(&[&blocks(17)[..], &[0x0E]].concat()),
        refused(13, 37)
    );
    // After a term on level 16 the next one beside it is on level 16 too.
    let beside = [&blocks(15)[..], &[0x0B, 2], &reading, &reading].concat();
    assert_eq!(reads_body(&beside), Ok(17));
}

#[test]
fn boxes_lets_and_assigns_are_levels() {
    let wrappers: [&[u8]; 3] = [&[0x07], &[0x08, 5], &[0x09, 5, 0]];
    for wrapper in wrappers {
        let nested = |count: usize| [&[0x0B, 1], &wrapper.repeat(count)[..], &[0x02, 0]].concat();
        assert_eq!(reads_body(&nested(14)), Ok(16));
        let place = 5 + 2 + 15 * wrapper.len() as u32;
        assert_eq!(reads_body(&nested(15)), refused(15, place));
    }
}

#[test]
fn levels_16_and_17_of_rows() {
    let mut rows = vec![block(1); 15];
    rows.push(READING);
    assert_eq!(judges_first(&rows), Ok(16));
    rows.insert(0, block(1));
    assert_eq!(judges_first(&rows), refused(15, 16));
    for wrapper in [BOX, [0x08, 5, 0, 0, 0], [0x09, 5, 0, 0, 0]] {
        let nested = |count| [&[block(1)], &vec![wrapper; count][..], &[READING]].concat();
        assert_eq!(judges_first(&nested(14)), Ok(16));
        assert_eq!(judges_first(&nested(15)), refused(15, 16));
    }
}

/// A block of two blocks with so many readings in each.
fn two_blocks(first: u8, second: u8) -> Vec<u8> {
    let mut body = vec![0x0B, 2];
    for count in [first, second] {
        body.extend([0x0B, count]);
        body.extend([0x02, 7].repeat(count as usize));
    }
    body
}

#[test]
fn terms_512_and_513_of_bytes() {
    assert_eq!(reads_body(&two_blocks(255, 254)), Ok(512));
    // The last of 513 terms begins at 5 + 3 * 2 + 509 * 2.
    let mut beyond = two_blocks(255, 255);
    assert_eq!(reads_body(&beyond), refused(16, 1029));
    beyond[1029 - 5] = 0x0E;
    assert_eq!(reads_body(&beyond), refused(13, 1029));
    beyond.truncate(1029 - 5);
    assert_eq!(reads_body(&beyond), refused(12, 1029));
    let left = [&two_blocks(255, 254)[..], &[0x02, 0]].concat();
    assert_eq!(reads_body(&left), refused(19, 1029));
}

#[test]
fn terms_512_and_513_of_rows() {
    let mut rows = vec![block(2), block(255)];
    rows.extend([READING; 255]);
    rows.push(block(254));
    rows.extend([READING; 254]);
    assert_eq!(rows.len(), 512);
    assert_eq!(judges_first(&rows), Ok(512));
    // With one more the rows are used up, so 16 is never met.
    rows[257] = block(255);
    assert_eq!(judges_first(&rows), refused(12, 512));
    // The last row can also be one too many, or be missing.
    rows[257] = block(253);
    assert_eq!(judges_first(&rows), refused(19, 511));
    rows[257] = block(254);
    rows[511] = [0; 5];
    assert_eq!(judges_first(&rows), refused(12, 511));
}

#[test]
fn boxes_64_and_65_of_bytes() {
    let boxes = |count: u8| {
        let boxed = [0x07, 0x02, 0].repeat(count as usize);
        [&[0x0B, count], &boxed[..]].concat()
    };
    assert_eq!(reads_body(&boxes(64)), Ok(129));
    assert_eq!(reads_body(&boxes(65)), refused(17, 5 + 2 + 64 * 3));
}

#[test]
fn boxes_64_and_65_of_rows() {
    let boxes = |count: u32| {
        let boxed = vec![[BOX, READING]; count as usize].concat();
        [&[block(count)], &boxed[..]].concat()
    };
    assert_eq!(judges_first(&boxes(64)), Ok(129));
    assert_eq!(judges_first(&boxes(65)), refused(17, 129));
    // 17 is met at the kind, before the row's unused fields.
    let mut beyond = boxes(65);
    beyond[129] = [0x07, 0, 0, 0, 1];
    assert_eq!(judges_first(&beyond), refused(17, 129));
}

/// 64 boxes, and then blocks down to level 16.
fn deep_after_boxes() -> Vec<u8> {
    let boxes = [0x07, 0x02, 0].repeat(64);
    [&[0x0B, 65], &boxes[..], &blocks(16)].concat()
}

#[test]
fn too_deep_comes_before_too_many_boxes() {
    let mut body = deep_after_boxes();
    let place = 5 + body.len() as u32;
    body.extend([0x07, 0x02, 0]);
    assert_eq!(reads_body(&body), refused(15, place));

    let mut rows = vec![block(65)];
    rows.extend([[BOX, READING]; 64].concat());
    rows.extend([block(1); 15]);
    rows.push(BOX);
    assert_eq!(judges_first(&rows), refused(15, 144));
}

#[test]
fn too_many_terms_comes_before_too_deep() {
    // 2 + 255 + 1 + 239 + 15 terms, the last on level 16, and then a box.
    let mut body = vec![0x0B, 3, 0x0B, 255];
    body.extend([0x02, 1].repeat(255));
    body.extend([0x0B, 239]);
    body.extend([0x02, 1].repeat(239));
    body.extend(blocks(16));
    let place = 5 + body.len() as u32;
    body.extend([0x07, 0x02, 0]);
    assert_eq!(reads_body(&body), refused(16, place));
}
