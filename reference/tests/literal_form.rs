//! The form once more (LANGUAGE 2, 5.9 to 5.13), written for closeness to the
//! text instead of speed: a recursive reader that knows nothing of rows, a
//! recursive judge and writer of rows, and the length that the table of kinds
//! gives. Compared with the crate on generated input.

use reference::{judge_rows, length, read, write, Generator, Limits};

type Refused = (u32, u32);

/// What the terms of one script have in common while they are read.
struct Counts {
    limits: Limits,
    version: u32,
    terms: u32,
    boxes: u32,
}

impl Counts {
    fn new(limits: Limits, version: u32) -> Self {
        Counts {
            limits,
            version,
            terms: 0,
            boxes: 0,
        }
    }
}

/// Where terms come from: bytes or rows.
trait Source {
    /// The kind at the next place, not yet passed.
    fn kind(&self) -> Result<u32, Refused>;
    fn place(&self) -> u32;
    /// Passes the kind and takes its operands.
    fn operands(&mut self, ranges: &[(u32, u32)]) -> Result<Vec<u32>, Refused>;
}

const ANY: (u32, u32) = (0, u32::MAX);
const FOLLOWS: (u32, u32) = (0, 8);

/// The ranges of the operands of each kind that a version has.
fn ranges(limits: Limits, version: u32, kind: u32) -> Option<Vec<(u32, u32)>> {
    let variable = (0, limits.variables - 1);
    Some(match kind {
        1 => vec![ANY],
        2 => vec![(0, 7)],
        3..=6 | 9 => vec![variable, FOLLOWS],
        7 => vec![],
        8 => vec![variable],
        10 => vec![variable, FOLLOWS, variable, FOLLOWS],
        11 => vec![(1, 255)],
        12 if version == 2 => vec![variable, FOLLOWS],
        13 if version == 2 => vec![variable, FOLLOWS, variable, FOLLOWS],
        _ => return None,
    })
}

fn term(
    source: &mut impl Source,
    counts: &mut Counts,
    level: u32,
    only_a_block: bool,
    terms: &mut Vec<u32>,
) -> Result<(), Refused> {
    let kind = source.kind()?;
    let place = source.place();
    let ranges = ranges(counts.limits, counts.version, kind).ok_or((13, place))?;
    if only_a_block && kind != 11 {
        return Err((18, place));
    }
    if counts.terms + 1 > counts.limits.terms {
        return Err((16, place));
    }
    if level > counts.limits.levels {
        return Err((15, place));
    }
    if kind == 7 && counts.boxes + 1 > counts.limits.boxes {
        return Err((17, place));
    }
    counts.terms += 1;
    counts.boxes += u32::from(kind == 7);
    let operands = source.operands(&ranges)?;
    let mut row = vec![kind];
    row.extend(&operands);
    row.resize(5, 0);
    terms.extend(row);
    let inner = match kind {
        7..=9 => 1,
        11 => operands[0],
        12 => 2,
        _ => 0,
    };
    for _ in 0..inner {
        term(source, counts, level + 1, kind == 12, terms)?;
    }
    Ok(())
}

struct Bytes<'a> {
    script: &'a [u8],
    offset: usize,
}

impl Bytes<'_> {
    fn next(&mut self) -> Result<u8, Refused> {
        let ended = (12, self.script.len() as u32);
        let byte = *self.script.get(self.offset).ok_or(ended)?;
        self.offset += 1;
        Ok(byte)
    }
}

impl Source for Bytes<'_> {
    fn kind(&self) -> Result<u32, Refused> {
        let ended = (12, self.script.len() as u32);
        self.script
            .get(self.offset)
            .map(|byte| *byte as u32)
            .ok_or(ended)
    }

    fn place(&self) -> u32 {
        self.offset as u32
    }

    fn operands(&mut self, ranges: &[(u32, u32)]) -> Result<Vec<u32>, Refused> {
        self.offset += 1;
        let mut operands = Vec::new();
        for range in ranges {
            let offset = self.offset as u32;
            let bytes = if *range == ANY { 4 } else { 1 };
            let mut operand = 0;
            for _ in 0..bytes {
                operand = operand << 8 | self.next()? as u32;
            }
            if operand < range.0 || operand > range.1 {
                return Err((14, offset));
            }
            operands.push(operand);
        }
        Ok(operands)
    }
}

/// Version, number of terms and rows, or the refusal.
fn literal_read(
    limits: Limits,
    newest: u32,
    script: &[u8],
) -> Result<(u32, u32, Vec<u32>), Refused> {
    if script.len() > 32_768 {
        return Err((1, 0));
    }
    let mut bytes = Bytes { script, offset: 0 };
    for (offset, mark) in [0x52, 0x43, 0x53].into_iter().enumerate() {
        if bytes.next()? != mark {
            return Err((10, offset as u32));
        }
    }
    let version = bytes.next()? as u32 * 256 + bytes.next()? as u32;
    if version == 0 || version > 2 || version > newest {
        return Err((11, 3));
    }
    let mut counts = Counts::new(limits, version);
    let mut terms = Vec::new();
    term(&mut bytes, &mut counts, 1, true, &mut terms)?;
    if bytes.offset < script.len() {
        return Err((19, bytes.offset as u32));
    }
    terms.resize(5 * limits.terms as usize, 0);
    Ok((version, counts.terms, terms))
}

struct Rows<'a> {
    rows: Vec<&'a [u32]>,
    next: usize,
}

impl Source for Rows<'_> {
    fn kind(&self) -> Result<u32, Refused> {
        match self.rows.get(self.next) {
            Some(row) if row[0] != 0 => Ok(row[0]),
            _ => Err((12, self.next as u32)),
        }
    }

    fn place(&self) -> u32 {
        self.next as u32
    }

    fn operands(&mut self, ranges: &[(u32, u32)]) -> Result<Vec<u32>, Refused> {
        let row = self.rows[self.next];
        for (field, operand) in row[1..].iter().enumerate() {
            let range = ranges.get(field).unwrap_or(&(0, 0));
            if *operand < range.0 || *operand > range.1 {
                return Err((14, self.next as u32));
            }
        }
        self.next += 1;
        Ok(row[1..=ranges.len()].to_vec())
    }
}

/// The number of terms, by the kinds of a version.
fn literal_judge(limits: Limits, version: u32, rows: &[u32]) -> Result<u32, Refused> {
    if rows.len() != 5 * limits.terms as usize {
        return Err((2, 0));
    }
    let mut source = Rows {
        rows: rows.chunks(5).collect(),
        next: 0,
    };
    let mut counts = Counts::new(limits, version);
    term(&mut source, &mut counts, 1, true, &mut Vec::new())?;
    for row in counts.terms..limits.terms {
        if source.rows[row as usize].iter().any(|field| *field != 0) {
            return Err((19, row));
        }
    }
    Ok(counts.terms)
}

/// The number of terms that are to be written.
fn literal_terms(limits: Limits, version: u32, rows: &[u32]) -> Result<u32, Refused> {
    if rows.len() != 5 * limits.terms as usize {
        return Err((2, 0));
    }
    if version != 1 && version != 2 {
        return Err((11, 0));
    }
    literal_judge(limits, version, rows)
}

/// The mark, the version, and the bytes of each term by the table of 2.3.
fn literal_length(limits: Limits, version: u32, rows: &[u32]) -> Result<u32, Refused> {
    let terms = literal_terms(limits, version, rows)?;
    let bytes = |row: &[u32]| match row[0] {
        7 => 1,
        2 | 8 | 11 => 2,
        3..=6 | 9 | 12 => 3,
        1 | 10 | 13 => 5,
        kind => panic!("kind {kind} was judged to be one"),
    };
    let each = rows.chunks(5).take(terms as usize).map(bytes);
    Ok(3 + 2 + each.sum::<u32>())
}

/// The bytes, if there is room for so many.
fn literal_write(
    limits: Limits,
    version: u32,
    rows: &[u32],
    room: usize,
) -> Result<Vec<u8>, Refused> {
    let terms = literal_terms(limits, version, rows)?;
    let mut bytes = vec![0x52, 0x43, 0x53, 0, version as u8];
    for row in rows.chunks(5).take(terms as usize) {
        bytes.push(row[0] as u8);
        let ranges = ranges(limits, version, row[0]).expect("a known kind");
        for (operand, range) in row[1..].iter().zip(ranges) {
            let operand = operand.to_be_bytes();
            let from = if range == ANY { 0 } else { 3 };
            bytes.extend(&operand[from..]);
        }
    }
    if bytes.len() > room {
        return Err((5, 0));
    }
    Ok(bytes)
}

fn readers_agree(seed: u64, limits: Limits, count: usize) {
    let mut generator = Generator::with_limits(seed, limits);
    let (mut script, mut rows) = (Vec::new(), vec![7; limits.row_numbers()]);
    for _ in 0..count {
        generator.script(&mut script);
        let newest = generator.newest();
        rows.fill(7);
        let answer = read(limits, newest, &script, &mut rows)
            .map(|read| (read.version, read.terms, rows.clone()))
            .map_err(|refusal| (refusal.number, refusal.place));
        assert_eq!(answer, literal_read(limits, newest, &script));
        let left = match answer {
            Ok(_) => continue,
            Err((1, 0)) => 7,
            Err(_) => 0,
        };
        assert!(rows.iter().all(|field| *field == left));
    }
}

fn judges_agree(seed: u64, limits: Limits, count: usize) {
    let mut generator = Generator::with_limits(seed, limits);
    let mut rows = Vec::new();
    for _ in 0..count {
        generator.rows_any_length(&mut rows);
        let answer = judge_rows(limits, &rows);
        let answer = answer.map_err(|refusal| (refusal.number, refusal.place));
        assert_eq!(answer, literal_judge(limits, 2, &rows));
    }
}

fn writers_agree(seed: u64, limits: Limits, count: usize) {
    let mut generator = Generator::with_limits(seed, limits);
    let mut rows = Vec::new();
    for number in 0..count {
        generator.rows_any_length(&mut rows);
        let version = generator.version();
        // Every third output may be too short.
        let room = if number % 3 == 0 {
            number % 200
        } else {
            32_768
        };
        let answer = length(limits, version, &rows);
        let answer = answer.map_err(|refusal| (refusal.number, refusal.place));
        assert_eq!(answer, literal_length(limits, version, &rows));
        let mut output = vec![0xA5; room];
        let answer = write(limits, version, &rows, &mut output);
        let literal = literal_write(limits, version, &rows, room);
        let mut due = literal.clone().unwrap_or_default();
        due.resize(room, 0xA5);
        assert_eq!(output, due);
        let answer = answer.map_err(|refusal| (refusal.number, refusal.place));
        assert_eq!(answer, literal.map(|bytes| bytes.len() as u32));
    }
}

#[test]
fn the_reader_agrees() {
    readers_agree(11, Limits::BASE, 30_000);
    readers_agree(11, Limits::LARGEST, 3_000);
}

#[test]
fn the_row_judge_agrees() {
    judges_agree(12, Limits::BASE, 30_000);
    judges_agree(12, Limits::LARGEST, 3_000);
}

#[test]
fn the_writer_agrees() {
    writers_agree(14, Limits::BASE, 30_000);
    writers_agree(14, Limits::LARGEST, 3_000);
}

#[test]
fn all_agree_under_any_set() {
    let mut sets = Generator::new(13);
    for seed in 0..200 {
        let limits = sets.limits_within();
        readers_agree(seed, limits, 100);
        judges_agree(seed, limits, 100);
        writers_agree(seed, limits, 100);
    }
}
