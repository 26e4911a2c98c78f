//! The record program, on inputs that are cut and joined in every way, compared with the rules over again.

use oracle::lists::records;
use oracle::record::answers;
use oracle::{program, Counter, Random};
use std::fs::File;
use std::io::Write;
use std::process::{Command, Output, Stdio};
use std::thread;
use std::time::Duration;

/// How many bytes the program reads before it answers: 4,096 records.
const ROOM: usize = 4096 * 17;

/// The program, with what it writes and says kept.
fn command() -> Command {
    let mut command = program("record_program");
    command.stdout(Stdio::piped()).stderr(Stdio::piped());
    command
}

/// Runs the program on an input that comes in pieces, with a pause after each, so that a read brings no more than one.
fn run(pieces: Vec<Vec<u8>>) -> Output {
    let mut child = command()
        .stdin(Stdio::piped())
        .spawn()
        .expect("the program starts");
    let mut stdin = child.stdin.take().expect("a pipe");
    let writer = thread::spawn(move || {
        for piece in pieces {
            stdin
                .write_all(&piece)
                .expect("the program reads to the end");
            thread::sleep(Duration::from_millis(1));
        }
    });
    let output = child.wait_with_output().expect("the program ends");
    writer.join().expect("all is written");
    output
}

/// Compares what the program writes of an input that comes in pieces of these sizes.
fn compare(calls: &mut Counter, input: &[u8], mut size: impl FnMut() -> usize) {
    let mut rest = input;
    let mut pieces = Vec::new();
    while !rest.is_empty() {
        let (piece, after) = rest.split_at(size().min(rest.len()));
        pieces.push(piece.to_vec());
        rest = after;
    }
    let wrote = run(pieces);
    assert!(
        wrote.status.success() && wrote.stderr.is_empty(),
        "{wrote:?}"
    );
    calls.value(input.len(), wrote.stdout, answers(input));
}

#[test]
fn every_length_from_0_to_60() {
    let input = records().stdin;
    let mut calls = Counter::new("record program, short inputs");
    for length in 0..=60 {
        compare(&mut calls, &input[..length], || length);
        compare(&mut calls, &input[..length], || 7);
    }
}

#[test]
fn lengths_beside_what_one_reading_takes() {
    let input = records().stdin;
    let mut calls = Counter::new("record program, long inputs");
    for length in [ROOM - 17, ROOM - 1, ROOM, ROOM + 1, ROOM + 16, ROOM + 17] {
        compare(&mut calls, &input[..length], || length);
    }
}

#[test]
fn the_list_cut_anywhere_and_joined() {
    let input = records().stdin;
    let mut random = Random::new(26);
    let mut calls = Counter::new("record program, the list cut and joined");
    compare(&mut calls, &input, || input.len());
    compare(&mut calls, &input, || 4096);
    for _ in 0..10 {
        compare(&mut calls, &input, || 1 + random.below(5000));
    }
    let records = &input[..input.len() / 17 * 17];
    let joined = [records, records, &input].concat();
    compare(&mut calls, &joined, || joined.len());
}

#[test]
fn a_read_or_a_write_that_fails_is_said() {
    let folder = File::open("/").expect("a folder opens, and cannot be read");
    let wrote = command().stdin(folder).output().expect("the program ends");
    assert!(
        wrote.stdout.is_empty() && wrote.stderr.starts_with(b"read: "),
        "{wrote:?}"
    );
    let full = File::options()
        .write(true)
        .open("/dev/full")
        .expect("a device that is always full");
    let mut child = command()
        .stdin(Stdio::piped())
        .stdout(full)
        .spawn()
        .expect("the program starts");
    let mut stdin = child.stdin.take().expect("a pipe");
    stdin.write_all(&[0; 17]).expect("a pipe takes a record");
    drop(stdin);
    let wrote = child.wait_with_output().expect("the program ends");
    assert!(wrote.stderr.starts_with(b"write: "), "{wrote:?}");
}
