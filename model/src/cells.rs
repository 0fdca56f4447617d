//! A coverage table: its cells, printed row by row.

use crate::cover::Counts;

/// Collects cells; a cell that must be reached and isn't is missing.
#[derive(Default)]
pub struct Table {
    pub cells: u32,
    pub impossible: u32,
    pub missing: Vec<String>,
}

impl Table {
    /// One cell's text. `wanted` says that the rules allow it.
    pub fn cell<K: Ord>(&mut self, counts: &Counts<K>, key: K, wanted: bool, name: String) -> String {
        let count = counts.get(&key).copied().unwrap_or(0);
        if !wanted {
            self.impossible += 1;
            assert_eq!(count, 0, "reached, though impossible: {name}");
            return "-".to_string();
        }
        self.cells += 1;
        if count == 0 {
            self.missing.push(name);
            return "MISSING".to_string();
        }
        count.to_string()
    }

    /// Prints a row of cells behind its name, which has so much room.
    pub fn row<K: Ord>(&mut self, counts: &Counts<K>, subject: &str, name: &str, room: usize, cells: Vec<(K, bool)>) {
        let mut line = format!("  {name:room$}");
        for (column, (key, wanted)) in cells.into_iter().enumerate() {
            let cell = self.cell(counts, key, wanted, format!("{subject}, {name}, column {}", column + 1));
            line += &format!("{cell:>8}");
        }
        println!("{line}");
    }

    /// Prints rows of one cell each.
    pub fn column(&mut self, counts: &Counts<&'static str>, subject: &str, room: usize, names: &[&'static str]) {
        for name in names {
            self.row(counts, subject, name, room, vec![(*name, true)]);
        }
    }
}
