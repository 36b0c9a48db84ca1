//! From term rows to script bytes, and how many they are (LANGUAGE 6.4).

use super::kind::LAYOUTS;
use super::version::is_known;
use super::*;
use crate::limits::Limits;
use crate::refusal::*;

/// How many bytes [`write()`] fills with the script of a version that the rows
/// describe. The order is 74, 2, 11 for a version that there is not, then 12
/// to 19. There is no output, so never 5.
pub fn length(limits: Limits, version: u32, rows: &[u32]) -> Result<u32, Refusal> {
    let (_, bytes) = measure(limits, version, rows)?;
    Ok(bytes as u32)
}

/// Writes the script of a version that the rows describe and answers its
/// length. It is refused where [`length`] is, and then with 5 where the output
/// is shorter. Every refusal leaves the output as it was; bytes past the script
/// stay.
pub fn write(
    limits: Limits,
    version: u32,
    rows: &[u32],
    output: &mut [u8],
) -> Result<u32, Refusal> {
    let (terms, bytes) = measure(limits, version, rows)?;
    let Some(script) = output.get_mut(..bytes) else {
        return Err(Refusal::by_caller(OUTPUT_SHORT));
    };
    let (first, mut rest) = script.split_at_mut(HEADER.len());
    first.copy_from_slice(&header(version));
    for row in terms {
        rest = term(row, rest);
    }
    Ok(bytes as u32)
}

/// The rows with a term, and the bytes of the whole script, worked out from
/// them. Every number but 5 is judged here, before the first byte is written,
/// so that the script can go straight into the output.
#[inline]
fn measure(limits: Limits, version: u32, rows: &[u32]) -> Result<(&[Row], usize), Refusal> {
    let rows = lent_rows(limits, rows)?;
    if !is_known(NEWEST, version) {
        return Err(Refusal::by_caller(VERSION));
    }
    let judged = judge_all(limits, version, rows)?;
    Ok((&rows[..judged.terms], judged.bytes))
}

/// Writes one term's kind and operands and answers what is left of the
/// output. The fields are in range, so each but a number fits its byte.
#[inline(always)]
fn term<'a>(row: &Row, output: &'a mut [u8]) -> &'a mut [u8] {
    let mut bytes = row.map(|field| field as u8);
    if row[0] == NUMBER {
        bytes[1..].copy_from_slice(&row[1].to_be_bytes());
    }
    let length = LAYOUTS[row[0] as usize].bytes as usize;
    // All five bytes at once where there is room: what belongs to the next
    // term is written again with that term.
    match output.first_chunk_mut() {
        Some(window) => *window = bytes,
        None => output[..length].copy_from_slice(&bytes[..length]),
    }
    &mut output[length..]
}
