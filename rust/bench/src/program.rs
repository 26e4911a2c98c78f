//! How many records the record program answers in a second.

use oracle::record::{listed, one_operand, width};
use oracle::Random;
use std::fs::{self, File};
use std::io;
use std::process::{Command, Stdio};
use std::time::Instant;

const RECORDS: usize = 1 << 20;
const RUNS: usize = 20;

/// A record of an operation at a type that it takes, on random operands.
fn record(random: &mut Random, listed: &[(u8, u8)]) -> Vec<u8> {
    let (operation, code) = random.pick(listed);
    let (a, b) = (random.word(width(code)), random.word(width(code)));
    let b = if one_operand(operation) { 0 } else { b };
    let head = [operation << 4 | code];
    [&head[..], &a.to_be_bytes(), &b.to_be_bytes()].concat()
}

/// Runs the program on a file of records, its answers thrown away, and gives the records a second of the shortest run.
pub fn records_a_second(program: &str) -> io::Result<f64> {
    let (mut random, listed) = (Random::new(7), listed());
    let records = (0..RECORDS).flat_map(|_| record(&mut random, &listed));
    let file = std::env::temp_dir().join(format!("records-{}", std::process::id()));
    fs::write(&file, records.collect::<Vec<u8>>())?;
    let mut shortest = f64::INFINITY;
    for _ in 0..RUNS {
        let mut command = Command::new(program);
        command.stdin(File::open(&file)?).stdout(Stdio::null());
        let start = Instant::now();
        let status = command.status()?;
        shortest = shortest.min(start.elapsed().as_secs_f64());
        if !status.success() {
            return Err(io::Error::other(format!("{program}: {status}")));
        }
    }
    fs::remove_file(&file)?;
    Ok(RECORDS as f64 / shortest)
}
