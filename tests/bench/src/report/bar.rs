//! Figures, and the bars that they are held to.

use crate::table::Table;

/// A figure that may not be above its bar, and where it was found.
pub struct Bar {
    pub name: String,
    pub figure: f64,
    pub most: f64,
    pub place: String,
}

impl Bar {
    /// The greatest of the figures.
    pub fn new(name: impl Into<String>, most: f64, figures: impl Iterator<Item = (f64, String)>) -> Bar {
        let (figure, place) = figures.max_by(|one, other| one.0.total_cmp(&other.0)).expect("a figure");
        Bar { name: name.into(), figure, most, place }
    }

    pub fn holds(&self) -> bool {
        self.figure <= self.most
    }
}

/// A share or a ratio.
pub fn ratio(figure: f64) -> String {
    format!("{figure:.2}")
}

/// Nanoseconds.
pub fn whole(time: f64) -> String {
    format!("{time:.0}")
}

pub fn verdicts(bars: &[Bar]) -> Table {
    let mut table = Table::new("Bars", &["bar", "at most", "figure", "where", ""]);
    for bar in bars {
        let verdict = if bar.holds() { "pass" } else { "MISS" };
        table.row([bar.name.clone(), ratio(bar.most), ratio(bar.figure), bar.place.clone(), verdict.to_string()]);
    }
    table
}
