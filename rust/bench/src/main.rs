//! What the proved functions cost beside the Rust as given, as tables.
//!
//! `bench` measures times, and `bench program PATH` how many records a second the record program answers. For whoever
//! counts instructions, `bench names` writes the rows' names, and `bench NAME WHICH CALLS` makes one round of so many
//! calls, where WHICH is `ours`, `beside` or `neither`.

mod batches;
mod function;
mod kernels;
mod program;
mod row;

use row::{Round, Row};
use std::error::Error;
use std::hint::black_box;
use std::time::Instant;

/// How many calls a timed round makes, and how many rounds there are of each side; the shortest counts.
const CALLS: usize = 1 << 14;
const ROUNDS: usize = 1000;

/// Rows, with what a time is for and what the functions stand beside.
struct Table {
    per: &'static str,
    beside: &'static str,
    rows: Vec<Row>,
}

fn tables() -> [Table; 2] {
    [
        Table {
            per: "a call",
            beside: "the Rust",
            rows: kernels::rows(),
        },
        Table {
            per: "a word",
            beside: "a call for each",
            rows: batches::rows(),
        },
    ]
}

fn rows() -> impl Iterator<Item = Row> {
    tables().into_iter().flat_map(|table| table.rows)
}

/// A round's time, in nanoseconds a call.
fn time(round: &Round) -> f64 {
    let start = Instant::now();
    black_box(round());
    start.elapsed().as_nanos() as f64 / CALLS as f64
}

/// Writes a table in Markdown. The rounds of the two sides of a row take turns.
fn measure(table: Table) {
    println!(
        "| C function | ns {} | {}, ns | ratio |",
        table.per, table.beside
    );
    println!("|---|---:|---:|---:|");
    for row in table.rows {
        let rounds = (row.rounds)(CALLS);
        let (mut ours, mut other) = (f64::INFINITY, f64::INFINITY);
        for _ in 0..ROUNDS {
            ours = ours.min(time(&rounds.ours));
            other = other.min(time(&rounds.beside));
        }
        let ratio = ours / other;
        println!("| `{}` | {ours:.2} | {other:.2} | {ratio:.2} |", row.name);
    }
    println!();
}

/// Makes one round, if there is such a row and such a side.
fn one_round(name: &str, which: &str, calls: usize) -> Option<u64> {
    let row = rows().find(|row| row.name == name)?;
    let rounds = (row.rounds)(calls);
    let round = match which {
        "ours" => rounds.ours,
        "beside" => rounds.beside,
        "neither" => rounds.neither,
        _ => return None,
    };
    Some(black_box(round()))
}

fn main() -> Result<(), Box<dyn Error>> {
    let arguments: Vec<String> = std::env::args().skip(1).collect();
    let arguments: Vec<&str> = arguments.iter().map(String::as_str).collect();
    match arguments[..] {
        [] => tables().into_iter().for_each(measure),
        ["names"] => rows().for_each(|row| println!("{}", row.name)),
        ["program", path] => {
            let millions = program::records_a_second(path)? / 1e6;
            println!("{millions:.1} million records a second");
        }
        [name, which, calls] => {
            one_round(name, which, calls.parse()?).ok_or("no such row or side")?;
        }
        _ => return Err("takes nothing, `names`, `program PATH` or NAME WHICH CALLS".into()),
    }
    Ok(())
}

#[cfg(test)]
mod tests {
    use super::*;

    #[test]
    fn both_sides_of_every_row_give_the_same_numbers() {
        for row in rows() {
            let rounds = (row.rounds)(CALLS);
            let ours = (rounds.ours)();
            assert_eq!(ours, (rounds.beside)(), "{}", row.name);
            assert_ne!(ours, (rounds.neither)(), "{}", row.name);
        }
    }
}
