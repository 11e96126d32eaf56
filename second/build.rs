//! Links the proved library, target/staticlib/libbench.a, which `./urzabelki library` builds, and takes the numbers of
//! include/urzabelki.h, so that none of them is written a second time. `speed` is built by this file too.

use std::path::{Path, PathBuf};

fn main() {
    let root = PathBuf::from(of_cargo("CARGO_MANIFEST_DIR")).join("..");
    link(&root.join("target/staticlib"));
    let header = root.join("include/urzabelki.h");
    println!("cargo:rerun-if-changed={}", header.display());
    let text = std::fs::read_to_string(&header).expect("the header can be read");
    let constants: String = text.lines().filter_map(number).map(constant).collect();
    assert!(!constants.is_empty(), "the header has numbers");
    std::fs::write(Path::new(&of_cargo("OUT_DIR")).join("header.rs"), constants).expect("the constants can be written");
}

fn of_cargo(name: &str) -> String {
    std::env::var(name).expect("cargo says it")
}

fn link(directory: &Path) {
    println!("cargo:rustc-link-search=native={}", directory.display());
    println!("cargo:rustc-link-lib=static=bench");
    println!("cargo:rerun-if-changed={}", directory.join("libbench.a").display());
}

/// The name and the number of a line `#define URZABELKI_NAME NUMBER` or `    URZABELKI_NAME = NUMBER,`, with a comment or
/// without; nothing where a line defines no number.
fn number(line: &str) -> Option<(&str, u32)> {
    let code = line.split("/*").next()?.trim_end();
    let (name, value) = match code.strip_prefix("#define URZABELKI_") {
        Some("H") => return None,
        Some(defined) => defined.split_once(' ').expect("a definition has a number"),
        None => code.strip_prefix("    URZABELKI_")?.strip_suffix(',')?.split_once(" = ")?,
    };
    Some((name, value.trim().parse().expect("a number of 32 bits")))
}

fn constant((name, value): (&str, u32)) -> String {
    format!("pub const {name}: u32 = {value};\n")
}
