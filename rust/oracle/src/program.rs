//! The proved programs, as `tools/build NAME` makes them.

use std::env;
use std::path::Path;
use std::process::Command;

/// A program by its name, run by whatever runs x86-64 code here.
///
/// # Panics
///
/// Where the program is not made yet.
pub fn program(name: &str) -> Command {
    let crates = Path::new(env!("CARGO_MANIFEST_DIR")).join("../../crates");
    let path = crates.join(name).join("out").join(name);
    assert!(path.exists(), "`tools/build {name}` makes the program");
    match env::var_os("CARGO_TARGET_X86_64_UNKNOWN_LINUX_GNU_RUNNER") {
        Some(runner) => {
            let mut command = Command::new(runner);
            command.arg(path);
            command
        }
        None => Command::new(path),
    }
}
