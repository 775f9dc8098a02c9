//! Tables, as text with columns that line up or in Markdown.

pub struct Table {
    pub title: String,
    pub head: Vec<String>,
    pub rows: Vec<Vec<String>>,
}

impl Table {
    pub fn new(title: impl Into<String>, head: &[&str]) -> Table {
        Table { title: title.into(), head: head.iter().map(|cell| cell.to_string()).collect(), rows: Vec::new() }
    }

    pub fn row<const K: usize>(&mut self, cells: [String; K]) {
        self.rows.push(cells.into());
    }

    /// The first column to the left, the others to the right.
    pub fn text(&self) -> String {
        let mut widths: Vec<usize> = self.head.iter().map(|cell| cell.chars().count()).collect();
        for row in &self.rows {
            for (width, cell) in widths.iter_mut().zip(row) {
                *width = (*width).max(cell.chars().count());
            }
        }
        let line = |row: &Vec<String>| {
            let cell = |(k, cell): (usize, &String)| match k {
                0 => format!("{cell:<0$}", widths[0]),
                _ => format!("  {cell:>0$}", widths[k]),
            };
            format!("  {}\n", row.iter().enumerate().map(cell).collect::<String>().trim_end())
        };
        let lines: String = std::iter::once(&self.head).chain(&self.rows).map(line).collect();
        format!("{}\n{lines}\n", self.title)
    }

    pub fn markdown(&self) -> String {
        let line = |row: &Vec<String>| format!("| {} |\n", row.join(" | "));
        let rule = format!("|---|{}\n", "---:|".repeat(self.head.len() - 1));
        let rows: String = self.rows.iter().map(line).collect();
        format!("{}:\n\n{}{rule}{rows}\n", self.title, line(&self.head))
    }
}
