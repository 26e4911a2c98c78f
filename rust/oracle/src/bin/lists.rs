//! Writes the fixed lists that the programs replay, `stdin` and `stdout` each, into two folders: that of `record_program`
//! and that of `edges`.

use oracle::lists::{edges, records, List};
use std::path::Path;
use std::process::ExitCode;
use std::{env, fs, io};

fn write(folder: &str, list: List) -> io::Result<()> {
    let folder = Path::new(folder);
    fs::write(folder.join("stdin"), list.stdin)?;
    fs::write(folder.join("stdout"), list.stdout)
}

fn main() -> ExitCode {
    let folders: Vec<String> = env::args().skip(1).collect();
    let [record_program, edge_program] = &folders[..] else {
        eprintln!("lists: wants two folders, that of record_program and that of edges");
        return ExitCode::FAILURE;
    };
    let written = write(record_program, records()).and_then(|()| write(edge_program, edges()));
    match written {
        Ok(()) => ExitCode::SUCCESS,
        Err(why) => {
            eprintln!("lists: {why}");
            ExitCode::FAILURE
        }
    }
}
