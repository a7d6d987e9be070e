//! The table of what has come up.
use std::fmt::Write as _;

/// A count with its name. Some have to come up.
pub struct Row {
    name: String,
    count: u64,
    wanted: bool,
}

impl Row {
    pub fn new(name: impl Into<String>, count: u64) -> Row {
        Row { name: name.into(), count, wanted: false }
    }

    pub fn wanted(name: impl Into<String>, count: u64) -> Row {
        Row { wanted: true, ..Row::new(name, count) }
    }

    pub fn is_missing(&self) -> bool {
        self.wanted && self.count == 0
    }
}

pub fn table(rows: &[Row], mismatches: u32) -> String {
    let mut text = String::new();
    for Row { name, count, .. } in rows {
        let _ = writeln!(text, "{name:<24}{count:>12}");
    }
    for row in rows.iter().filter(|row| row.is_missing()) {
        let _ = writeln!(text, "never came up: {}", row.name);
    }
    let _ = match mismatches {
        0 => writeln!(text, "no mismatch"),
        count => writeln!(text, "mismatches: {count}"),
    };
    text
}
