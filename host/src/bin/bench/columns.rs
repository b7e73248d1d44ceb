//! The columns of the tables that compare the machines.

use std::io::{self, Write};

/// Prints the head of a table: what a row is, the machines, the ratios of their times.
pub fn head(out: &mut impl Write, row: &str) -> io::Result<()> {
    let [library, plain, predecoded] = ["library", "plain", "predecoded"];
    write!(out, "{row:18} {library:>10} {plain:>10} {predecoded:>10}")?;
    writeln!(out, " {:>10} {:>10}", "lib/plain", "lib/predec")
}

/// Prints a row: a number for each machine, and the ratios of their times.
pub fn row(
    out: &mut impl Write,
    name: &str,
    numbers: [f64; 3],
    ratios: [f64; 2],
) -> io::Result<()> {
    let [library, plain, predecoded] = numbers;
    let [over_plain, over_predecoded] = ratios;
    write!(out, "{name:18} {library:10.1} {plain:10.1} {predecoded:10.1}")?;
    writeln!(out, " {over_plain:10.3} {over_predecoded:10.3}")
}

/// Prints the geometric means of the ratios of some rows.
pub fn means(out: &mut impl Write, ratios: &[[f64; 2]]) -> io::Result<()> {
    let mean = |which: usize| {
        let logarithms = ratios.iter().map(|ratios| ratios[which].ln());
        (logarithms.sum::<f64>() / ratios.len() as f64).exp()
    };
    writeln!(out, "{:51} {:10.3} {:10.3}", "geometric mean", mean(0), mean(1))
}
