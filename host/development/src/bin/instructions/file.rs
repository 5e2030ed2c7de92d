//! docs/INSTRUCTIONS.md: a table with a row for each call.

use crate::callgrind::{count, Count};
use crate::calls::Counted;
use bannelgo_development::figures::grouped;

pub const NAME: &str = "docs/INSTRUCTIONS.md";

const PATH: &str = concat!(env!("CARGO_MANIFEST_DIR"), "/../../docs/INSTRUCTIONS.md");

const HEAD: &str = "\
# Instructions

`bin/bench instructions write` writes this file; [BENCHMARKS.md](BENCHMARKS.md) says what is counted. A landing that changes a count writes it
again, and its note says why.

| Call | Instructions | Bytes by memcpy and memset |
| --- | ---: | ---: |
";

#[derive(Clone, Debug, PartialEq, Eq)]
pub struct Row {
    pub name: String,
    pub count: Count,
}

impl Row {
    pub fn counted(call: &Counted) -> Result<Row, String> {
        Ok(Row {
            name: call.name.clone(),
            count: count(call)?,
        })
    }

    fn line(&self) -> String {
        let Count {
            instructions,
            moved,
        } = self.count;
        format!(
            "| {} | {} | {} |\n",
            self.name,
            grouped(instructions),
            grouped(moved)
        )
    }

    /// The row of a line of the table; nothing for other lines.
    fn of_line(line: &str) -> Option<Row> {
        let mut cells = line.strip_prefix('|')?.split('|').map(str::trim);
        let name = cells.next()?.to_string();
        let mut number = || cells.next()?.replace(',', "").parse().ok();
        let count = Count {
            instructions: number()?,
            moved: number()?,
        };
        Some(Row { name, count })
    }
}

/// The rows that the file has.
pub fn rows() -> Result<Vec<Row>, String> {
    let text = std::fs::read_to_string(PATH).map_err(|error| format!("{NAME}: {error}"))?;
    Ok(text.lines().filter_map(Row::of_line).collect())
}

pub fn write(rows: &[Row]) -> Result<(), String> {
    let lines: String = rows.iter().map(Row::line).collect();
    std::fs::write(PATH, format!("{HEAD}{lines}")).map_err(|error| format!("{NAME}: {error}"))
}

#[test]
fn a_line_has_its_row() {
    let row = Row {
        name: "open, 6,000 bytes".to_string(),
        count: Count {
            instructions: 1_234_567,
            moved: 89,
        },
    };
    assert_eq!(row.line(), "| open, 6,000 bytes | 1,234,567 | 89 |\n");
    assert_eq!(Row::of_line(row.line().trim_end()), Some(row));
    assert_eq!(Row::of_line("| --- | ---: | ---: |"), None);
}
