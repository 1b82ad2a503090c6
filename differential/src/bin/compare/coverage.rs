//! How many cases met each branch of the definitions.

/// A table of counts, printed at the end.
pub struct Table {
    title: &'static str,
    rows: &'static [&'static str],
    columns: &'static [&'static str],
    counts: Vec<u64>,
    /// The cells that no input meets, by row and column.
    never: &'static [(usize, usize)],
}

impl Table {
    pub fn new(
        title: &'static str,
        rows: &'static [&'static str],
        columns: &'static [&'static str],
        never: &'static [(usize, usize)],
    ) -> Self {
        Self {
            title,
            rows,
            columns,
            counts: vec![0; rows.len() * columns.len()],
            never,
        }
    }

    pub fn count(&mut self, row: usize, column: usize) {
        assert!(column < self.columns.len(), "there is no such column");
        self.counts[row * self.columns.len() + column] += 1;
    }

    pub fn print(&self) {
        let label = self.rows.iter().map(|row| row.chars().count()).max();
        let label = label.unwrap_or(0);
        let width = |column: usize| self.columns[column].chars().count().max(9);
        println!();
        println!("{}", self.title);
        print!("  {:label$}", "");
        for (place, column) in self.columns.iter().enumerate() {
            print!("  {column:>0$}", width(place));
        }
        println!();
        for (row, name) in self.rows.iter().enumerate() {
            print!("  {name:label$}");
            for column in 0..self.columns.len() {
                let count = self.at(row, column);
                let shown = if self.never.contains(&(row, column)) && count == 0 {
                    "-".to_owned()
                } else {
                    count.to_string()
                };
                print!("  {shown:>0$}", width(column));
            }
            println!();
        }
    }

    /// The cells that should have been met and were not, and those that were and cannot be.
    pub fn gaps(&self) -> Vec<String> {
        let mut gaps = Vec::new();
        for (row, name) in self.rows.iter().enumerate() {
            for (column, of) in self.columns.iter().enumerate() {
                let met = self.at(row, column) != 0;
                let never = self.never.contains(&(row, column));
                if met == never {
                    let what = if met { "met" } else { "never met" };
                    gaps.push(format!("{what}: {}: {name}, {of}", self.title));
                }
            }
        }
        gaps
    }

    fn at(&self, row: usize, column: usize) -> u64 {
        self.counts[row * self.columns.len() + column]
    }
}
