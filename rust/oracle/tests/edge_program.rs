//! The program `edges` tells right answers from wrong ones, and does not pass over any.

use oracle::lists::{damaged_edges, edges};
use oracle::program;
use std::io::Write;
use std::process::Stdio;

/// What the program writes of a list.
fn wrote(list: &[u8]) -> String {
    let mut child = program("edges")
        .stdin(Stdio::piped())
        .stdout(Stdio::piped())
        .spawn()
        .expect("the program starts");
    let mut stdin = child.stdin.take().expect("a pipe");
    stdin.write_all(list).expect("the program reads the list");
    drop(stdin);
    let output = child.wait_with_output().expect("the program ends");
    String::from_utf8(output.stdout).expect("the program writes text")
}

#[test]
fn a_damaged_answer_is_wrong() {
    let list = damaged_edges();
    assert_eq!(wrote(&list.stdin).as_bytes(), list.stdout);
}

#[test]
fn what_is_no_entry_is_left_over() {
    let list = edges().stdin;
    let cut = wrote(&list[..list.len() - 1]);
    assert!(
        cut.ends_with("card_write: 539 right, 0 wrong\nleft over: 57 bytes\n"),
        "{cut}"
    );
    let more = wrote(&[&list[..], &[37, 0]].concat());
    assert!(more.ends_with("left over: 2 bytes\n"), "{more}");
    let none = wrote(&[]);
    assert!(
        none.ends_with("card_write: 0 right, 0 wrong\nleft over: 0 bytes\n"),
        "{none}"
    );
}
