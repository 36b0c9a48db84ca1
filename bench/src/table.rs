//! A table as plain text or as Markdown.

#[derive(Clone, Copy, PartialEq)]
pub enum Form {
    Plain,
    Markdown,
}

pub struct Table {
    pub title: &'static str,
    pub head: Vec<&'static str>,
    pub lines: Vec<Vec<String>>,
}

impl Table {
    pub fn shown(&self, form: Form) -> String {
        let head: Vec<String> = self.head.iter().map(|cell| cell.to_string()).collect();
        let widths: Vec<usize> = (0..head.len())
            .map(|column| {
                let cells = self.lines.iter().chain([&head]);
                cells.map(|line| line[column].len()).max().unwrap_or(0)
            })
            .collect();
        let mut text = match form {
            Form::Plain => format!("{}\n\n", self.title),
            Form::Markdown => format!("### {}\n\n", self.title),
        };
        text += &line(&head, &widths, form);
        text += &rule(&widths, form);
        for cells in &self.lines {
            text += &line(cells, &widths, form);
        }
        text
    }
}

/// Columns of figures stand to the right, the first one to the left.
fn line(cells: &[String], widths: &[usize], form: Form) -> String {
    let padded: Vec<String> = cells
        .iter()
        .zip(widths)
        .enumerate()
        .map(|(column, (cell, &width))| match column {
            0 => format!("{cell:<width$}"),
            _ => format!("{cell:>width$}"),
        })
        .collect();
    match form {
        Form::Plain => format!("{}\n", padded.join("  ").trim_end()),
        Form::Markdown => format!("| {} |\n", padded.join(" | ")),
    }
}

fn rule(widths: &[usize], form: Form) -> String {
    let dashes = widths
        .iter()
        .enumerate()
        .map(|(column, &width)| match form {
            Form::Plain => "-".repeat(width),
            Form::Markdown if column == 0 => "-".repeat(width + 2),
            Form::Markdown => format!("{}:", "-".repeat(width + 1)),
        });
    let dashes: Vec<String> = dashes.collect();
    match form {
        Form::Plain => format!("{}\n", dashes.join("  ")),
        Form::Markdown => format!("|{}|\n", dashes.join("|")),
    }
}
