//! What the proved calls take, beside hand-written Rust of the same algorithm on the same data and buffers, beside a walk
//! through the ticks, and beside what the processor's divisions take alone. `./urzabelki speed` builds and runs it; with
//! the word `check` it only sees that all answer alike; `search SEED SECONDS` looks for accepted tables with many divisions;
//! `repeat proved|Rust ROW CALLS` makes so many calls and measures nothing.

mod by_hand;
mod clock;
mod data;
mod dispatchers;
mod floor;
mod print;
mod proved;
mod search;
mod tables;
mod walk;
mod walks;

/// What the machine says of its processor.
fn processor() -> String {
    let told = std::fs::read_to_string("/proc/cpuinfo").unwrap_or_default();
    let name = told.lines().find_map(|line| line.strip_prefix("model name")?.split_once(": "));
    name.map_or("no x86-64 processor but an emulator, whose times say nothing".into(), |(_, name)| name.into())
}

fn main() {
    let words: Vec<String> = std::env::args().skip(1).collect();
    if let [command, seed, seconds] = &words[..] {
        assert_eq!(command, "search", "speed [check | search SEED SECONDS]");
        return search::climb(seed.parse().expect("a seed"), seconds.parse().expect("seconds"));
    }
    if let [command, side, row, calls] = &words[..] {
        assert_eq!(command, "repeat", "speed repeat proved|Rust ROW CALLS");
        return tables::repeated(side, row.parse().expect("a row"), calls.parse().expect("calls"));
    }
    measure();
}

fn measure() {
    println!("{}; the best of {} batches of at least {:?}, taken in turn", processor(), clock::batches(), clock::BATCH);
    println!("Rust: opt-level 3, one codegen unit, no link-time optimisation across the two; all answers and memory are equal");
    let verdicts = tables::on_rows();
    tables::on_files_and_lines();
    tables::kept();
    tables::listed();
    dispatchers::all();
    walks::all();
    floor::all(&verdicts);
}
