//! The text of `docs/LANGUAGE.md`: its paragraphs and their tables.

use std::fs;

/// Where the document is, below this package.
const PATH: &str = concat!(env!("CARGO_MANIFEST_DIR"), "/../docs/LANGUAGE.md");

pub struct Document {
    paragraphs: Vec<Paragraph>,
}

/// A numbered paragraph, up to the next one.
pub struct Paragraph {
    /// As `8.4`.
    pub number: String,
    pub lines: Vec<String>,
}

/// A table of a paragraph.
pub struct Table {
    /// The number of the paragraph.
    pub paragraph: String,
    pub head: Vec<String>,
    /// As many cells in each as in the head.
    pub rows: Vec<Vec<String>>,
}

/// A row of a table, by the names of its columns.
#[derive(Clone, Copy)]
pub struct Row<'a> {
    table: &'a Table,
    cells: &'a [String],
}

impl Document {
    pub fn read() -> Self {
        let text = fs::read_to_string(PATH).unwrap_or_else(|error| panic!("{PATH}: {error}"));
        let mut paragraphs: Vec<Paragraph> = Vec::new();
        for line in text.lines() {
            if let Some(number) = begun(line) {
                let lines = Vec::new();
                paragraphs.push(Paragraph { number, lines });
            }
            if let Some(paragraph) = paragraphs.last_mut() {
                paragraph.lines.push(line.to_owned());
            }
        }
        Document { paragraphs }
    }

    pub fn paragraph(&self, number: &str) -> &Paragraph {
        let found = self.paragraphs.iter().find(|one| one.number == number);
        found.unwrap_or_else(|| panic!("LANGUAGE has no paragraph {number}"))
    }

    /// The tables of a section, as `8`.
    pub fn tables(&self, section: &str) -> Vec<Table> {
        let within = |one: &&Paragraph| one.number.split('.').next() == Some(section);
        let paragraphs = self.paragraphs.iter().filter(within);
        paragraphs.flat_map(Paragraph::tables).collect()
    }

    /// The paragraphs that the last column cites are there.
    pub fn rules_exist(&self, table: &Table) {
        if !table.has("Rule") {
            return;
        }
        for row in table.rows() {
            for number in row.cell("Rule").split(", ") {
                self.paragraph(number);
            }
        }
    }
}

impl Paragraph {
    pub fn text(&self) -> String {
        self.lines.join("\n")
    }

    pub fn tables(&self) -> Vec<Table> {
        let mut tables: Vec<Table> = Vec::new();
        let mut inside = false;
        for line in &self.lines {
            match cells(line) {
                Some(cells) if inside => {
                    let table = tables.last_mut().expect("a table has begun");
                    assert_eq!(cells.len(), table.head.len(), "cells of {line}");
                    table.rows.push(cells);
                }
                Some(head) => {
                    let paragraph = self.number.clone();
                    let rows = Vec::new();
                    tables.push(Table {
                        paragraph,
                        head,
                        rows,
                    });
                    inside = true;
                }
                None => inside = false,
            }
        }
        // The first row is the line below the head.
        for table in &mut tables {
            let rule = table.rows.remove(0);
            assert!(rule.iter().all(|cell| cell.starts_with("---")));
        }
        tables
    }
}

impl Table {
    pub fn has(&self, column: &str) -> bool {
        self.head.iter().any(|name| name == column)
    }

    pub fn rows(&self) -> impl Iterator<Item = Row<'_>> {
        self.rows.iter().map(|cells| Row { table: self, cells })
    }
}

impl<'a> Row<'a> {
    /// What stands in a column, where the table has it.
    pub fn find(&self, column: &str) -> Option<&'a str> {
        let index = self.table.head.iter().position(|name| name == column)?;
        Some(&self.cells[index])
    }

    pub fn cell(&self, column: &str) -> &'a str {
        self.find(column)
            .unwrap_or_else(|| panic!("no column {column} in {}", self.shown()))
    }

    /// For messages.
    pub fn shown(&self) -> String {
        let Row { table, cells } = self;
        format!("LANGUAGE {}: | {} |", table.paragraph, cells.join(" | "))
    }
}

/// The number of the paragraph that begins with this line.
fn begun(line: &str) -> Option<String> {
    let number = line.strip_prefix("**")?.split(' ').next()?;
    let (section, paragraph) = number.split_once('.')?;
    let is_number = |text: &str| text.parse::<u32>().is_ok();
    (is_number(section) && is_number(paragraph)).then(|| number.to_owned())
}

/// The cells of a line of a table.
fn cells(line: &str) -> Option<Vec<String>> {
    let inner = line.strip_prefix('|')?.strip_suffix('|');
    let inner = inner.unwrap_or_else(|| panic!("a row without an end: {line}"));
    Some(
        inner
            .split('|')
            .map(|cell| cell.trim().to_owned())
            .collect(),
    )
}

/// What stands between the backquotes of a cell that has nothing else.
pub fn quoted(cell: &str) -> Option<&str> {
    let inner = cell.strip_prefix('`')?.strip_suffix('`')?;
    (!inner.contains('`')).then_some(inner)
}

/// Bytes in hexadecimal, as `0B 01`.
pub fn bytes(text: &str) -> Option<Vec<u8>> {
    let byte = |pair: &str| match pair.len() {
        2 => u8::from_str_radix(pair, 16).ok(),
        _ => None,
    };
    text.split(' ').map(byte).collect()
}

/// Decimal numbers, as `13, 0, 0`.
pub fn numbers<T: std::str::FromStr>(text: &str) -> Option<Vec<T>> {
    text.split(", ").map(|number| number.parse().ok()).collect()
}
