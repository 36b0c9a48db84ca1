//! From script bytes to term rows (LANGUAGE 5.9 to 5.11, 6.2).

use super::kind::{is_in_range, ranges_of, Layout, Ranges, LAYOUTS};
use super::outline::Outline;
use super::version::is_known;
use super::*;
use crate::limits::Limits;
use crate::refusal::*;

/// What reading tells of a script beside its rows.
#[derive(Clone, Copy, Debug, PartialEq, Eq)]
pub struct Script {
    pub version: u32,
    pub terms: u32,
}

/// Reads a script into term rows. The reader knows the versions from 1 to
/// `newest`, as far as there are any. A refusal by the bytes (10 to 19) leaves
/// all rows 0, one by the caller (74, 1, 2) leaves them as they were.
pub fn read(
    limits: Limits,
    newest: u32,
    script: &[u8],
    rows: &mut [u32],
) -> Result<Script, Refusal> {
    limits.judge()?;
    if script.len() > MAX_BYTES {
        return Err(Refusal::by_caller(SCRIPT_TOO_LONG));
    }
    if rows.len() != limits.row_numbers() {
        return Err(Refusal::by_caller(ROWS_LENGTH));
    }
    let (rows, _) = rows.as_chunks_mut();
    let answer = version(newest, script).and_then(|version| {
        let terms = terms(limits, version, script, rows)?;
        Ok(Script { version, terms })
    });
    // Rows of terms that were read are written whole, so after success only
    // the unused ones need clearing.
    let kept = answer.map_or(0, |read| read.terms as usize);
    rows[kept..].as_flattened_mut().fill(0);
    answer
}

/// The mark byte by byte, then the version once both its bytes are there.
fn version(newest: u32, script: &[u8]) -> Result<u32, Refusal> {
    for (offset, expected) in HEADER[..3].iter().enumerate() {
        if byte(script, offset)? != *expected {
            return Err(Refusal::new(MARK, offset));
        }
    }
    let version = u16::from_be_bytes([byte(script, 3)?, byte(script, 4)?]) as u32;
    if !is_known(newest, version) {
        return Err(Refusal::new(VERSION, 3));
    }
    Ok(version)
}

/// The terms from the outermost block on, and nothing after it.
fn terms(limits: Limits, version: u32, script: &[u8], rows: &mut [Row]) -> Result<u32, Refusal> {
    let mut outline = Outline::new(limits, version);
    let ranges = ranges_of(limits);
    let mut offset = HEADER.len();
    loop {
        let kind = byte(script, offset)? as u32;
        outline
            .begin(kind)
            .map_err(|number| Refusal::new(number, offset))?;
        let window = script[offset..].first_chunk();
        let row = match window.and_then(|window| whole_term(ranges, window)) {
            Some(row) => row,
            None => term(limits.variables, script, offset, kind)?,
        };
        rows[outline.terms - 1] = row;
        offset += LAYOUTS[kind as usize].bytes as usize;
        if outline.end(&row) {
            break;
        }
    }
    if offset < script.len() {
        return Err(Refusal::new(LEFT_OVER, offset));
    }
    Ok(outline.terms as u32)
}

/// The row of a term from the five bytes that begin at its known kind. They
/// hold the operands of every kind; those that this kind does not have belong
/// to the next term and are left out. Nothing if an operand is out of range.
/// The reader decides without jumps here: kinds follow each other in no order
/// that could be predicted.
#[inline(always)]
fn whole_term(ranges: &Ranges, window: &[u8; FIELDS]) -> Option<Row> {
    let [kind, operands @ ..] = *window;
    let operands = u32::from_be_bytes(operands);
    let Layout { shift, kept, .. } = &LAYOUTS[kind as usize];
    let row = [
        kind as u32,
        (operands as u64 >> shift) as u32,
        operands >> 16 & kept[0],
        operands >> 8 & kept[1],
        operands & kept[2],
    ];
    is_in_range(ranges, &row).then_some(row)
}

/// The row of the term whose kind byte is at `offset`, operand by operand, so
/// that the first one missing or out of range is the one that is refused.
#[cold]
fn term(variables: u32, script: &[u8], offset: usize, kind: u32) -> Result<Row, Refusal> {
    let operand =
        |index: usize, least: u32, most: u32| operand(script, offset + index, least, most);
    let variable = |index| operand(index, 0, variables - 1);
    let follows = |index| operand(index, 0, MAX_FOLLOWS);
    Ok(match kind {
        NUMBER => [kind, number(script, offset + 1)?, 0, 0, 0],
        READING => [kind, operand(1, 0, MAX_READING)?, 0, 0, 0],
        BOX => [kind, 0, 0, 0, 0],
        LET => [kind, variable(1)?, 0, 0, 0],
        BELOW | SUM => [kind, variable(1)?, follows(2)?, variable(3)?, follows(4)?],
        BLOCK => [kind, operand(1, 1, MAX_COUNT)?, 0, 0, 0],
        // Copy, move, both borrows, assign and choice: one place.
        _ => [kind, variable(1)?, follows(2)?, 0, 0],
    })
}

/// The byte at an offset; a script that ended before it is refused at its
/// length.
#[inline(always)]
fn byte(script: &[u8], offset: usize) -> Result<u8, Refusal> {
    match script.get(offset) {
        Some(byte) => Ok(*byte),
        None => Err(Refusal::new(ENDED, script.len())),
    }
}

#[inline(always)]
fn operand(script: &[u8], offset: usize, least: u32, most: u32) -> Result<u32, Refusal> {
    let value = byte(script, offset)? as u32;
    if value < least || value > most {
        return Err(Refusal::new(OPERAND, offset));
    }
    Ok(value)
}

/// Four bytes, high byte first. Every value is allowed, so only the end of
/// the script can be in the way.
#[inline(always)]
fn number(script: &[u8], offset: usize) -> Result<u32, Refusal> {
    match script.get(offset..).and_then(|tail| tail.first_chunk()) {
        Some(bytes) => Ok(u32::from_be_bytes(*bytes)),
        None => Err(Refusal::new(ENDED, script.len())),
    }
}
