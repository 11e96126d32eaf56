//! The tables of the paper's bench sheet, in its order and as it writes them.

const TABLES: [&str; 16] = [
    "",
    "(5,1,1)",
    "(0,8,2) (3,12,1)",
    "(3,12,1) (0,8,2)",
    "(0,8,2) (1,12,1)",
    "(0,8,2) (2,12,2)",
    "(0,8,2) (3,12,2)",
    "(0,4,1) (2,4,1) (1,6,1)",
    "(0,5,1) (1,7,1)",
    "(0,4,1) (0,4,1)",
    "(0/1, 36/13, 12/13) (12/13, 72/13, 12/13)",
    "(0, 3/1, 10/3)",
    "(0, 3/1, 9/3)",
    "(0,10000000,1)",
    "(0,10000001,1)",
    "(1/1000000, 2/1, 1/999999)",
];

/// The rows of the tables: a time without a denominator is of whole milliseconds.
pub fn rows() -> impl Iterator<Item = Vec<u32>> {
    TABLES.into_iter().map(|table| {
        let times = table.split(['(', ')', ',', ' ']).filter(|time| !time.is_empty());
        let parts = times.flat_map(|time| <[&str; 2]>::from(time.split_once('/').unwrap_or((time, "1"))));
        parts.map(|number| number.parse().expect("a number of 32 bits")).collect()
    })
}
