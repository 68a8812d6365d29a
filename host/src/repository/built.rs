//! The programs that tests run, proved and built once for all of these tests.

use crate::programs::names::{LINE_PROGRAMS, READ_SCHEDULE};
use crate::repository::guide::building_command;
use crate::repository::places::top;
use std::path::PathBuf;
use std::process::Command;
use std::sync::OnceLock;

fn succeed_at_the_top(command: &str) -> Result<(), String> {
    let run = Command::new("sh")
        .args(["-c", command])
        .current_dir(top())
        .output();
    let output = run.map_err(|error| format!("sh: {error}"))?;
    if output.status.success() {
        return Ok(());
    }
    let printed = [output.stdout, output.stderr].concat();
    let printed = String::from_utf8_lossy(&printed).into_owned();
    Err(format!("`{command}`: {}\n{printed}", output.status))
}

/// The guide's command builds the programs for planners. The tests run these besides.
fn build() -> Result<(), String> {
    succeed_at_the_top(&building_command()?)?;
    let lines = LINE_PROGRAMS.join(" ");
    succeed_at_the_top(&format!("tools/programs.sh {READ_SCHEDULE} {lines}"))
}

/// The folder of the programs.
pub fn built_programs() -> PathBuf {
    static BUILT: OnceLock<Result<(), String>> = OnceLock::new();
    if let Err(error) = BUILT.get_or_init(build) {
        panic!("{error}");
    }
    top().join("target/bin")
}
