//! The tables that are printed: a line each, times in nanoseconds, and how many times the hand-written one fits into the proved.

const NAME: usize = 62;

pub fn title(text: &str, columns: &[&str]) {
    let heads: String = columns.iter().map(|column| format!("{column:>16}")).collect();
    println!("\n{text:<NAME$}{heads}");
}

pub fn row(name: &str, cells: &[String]) {
    let cells: String = cells.iter().map(|cell| format!("{cell:>16}")).collect();
    println!("{name:<NAME$}{cells}");
}

pub fn time(nanoseconds: f64) -> String {
    match nanoseconds {
        n if n < 100.0 => format!("{n:.2}"),
        n if n < 1_000_000.0 => format!("{n:.0}"),
        n => format!("{:.2} ms", n / 1e6),
    }
}

pub fn ratio(proved: f64, other: f64) -> String {
    format!("{:.2}", proved / other)
}
