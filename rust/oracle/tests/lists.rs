//! The lists that the programs replay, as the repository has them, are those that the oracle makes.

use oracle::lists::{edges, records, List};
use std::fs;
use std::path::Path;

/// Compares a program's files; `cargo run --bin lists ../crates/record_program ../crates/edges` writes them anew.
fn compare(program: &str, made: List) {
    let folder = Path::new(env!("CARGO_MANIFEST_DIR"))
        .join("../../crates")
        .join(program);
    let file = |name| fs::read(folder.join(name)).expect(name);
    assert!(file("stdin") == made.stdin, "{program}: another stdin");
    assert!(file("stdout") == made.stdout, "{program}: another stdout");
}

#[test]
fn record_program() {
    compare("record_program", records());
}

#[test]
fn edge_program() {
    compare("edges", edges());
}
