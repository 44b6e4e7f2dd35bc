//! A table of the page. A column is as wide as its title needs, or as any figure does, so that two runs differ in figures
//! alone.

use std::fmt;

/// Room for the longest figure.
const WIDTH: usize = 12;

/// What stands for a figure that could not be had.
pub const NONE: &str = "-";

/// The first cell of a row names what was done. The others are figures.
pub struct Table {
    pub titles: Vec<String>,
    pub rows: Vec<Vec<String>>,
}

impl Table {
    fn widths(&self) -> Vec<usize> {
        let names = self.rows.iter().map(|row| row[0].len()).max().unwrap_or(0);
        let width = |(at, title): (usize, &String)| title.len().max(if at == 0 { names } else { WIDTH });
        self.titles.iter().enumerate().map(width).collect()
    }
}

impl fmt::Display for Table {
    fn fmt(&self, to: &mut fmt::Formatter) -> fmt::Result {
        let widths = self.widths();
        let line = |cells: &[String]| {
            let padded = cells.iter().zip(&widths).enumerate();
            let cell = |(at, (cell, width)): (usize, (&String, &usize))| match at {
                0 => format!("| {cell:<width$} |"),
                _ => format!(" {cell:>width$} |"),
            };
            padded.map(cell).collect::<String>()
        };
        let rule = |(at, width): (usize, &usize)| match at {
            0 => format!("|-{}-|", "-".repeat(*width)),
            _ => format!("-{}:|", "-".repeat(*width)),
        };
        writeln!(to, "{}", line(&self.titles))?;
        write!(to, "{}", widths.iter().enumerate().map(rule).collect::<String>())?;
        self.rows.iter().try_for_each(|row| write!(to, "\n{}", line(row)))
    }
}

#[cfg(test)]
mod tests {
    use super::*;

    #[test]
    fn figures_do_not_move_the_columns() {
        let of = |figure: &str| {
            let rows = vec![vec!["64".into(), figure.into()], vec!["65,535".into(), NONE.into()]];
            Table { titles: vec!["octets".into(), "nanoseconds".into()], rows }.to_string()
        };
        let wide = "\
| octets |  nanoseconds |
|--------|-------------:|
| 64     |      123,000 |
| 65,535 |            - |";
        assert_eq!(of("123,000"), wide);
        assert_eq!(of("7").len(), wide.len());
    }
}
