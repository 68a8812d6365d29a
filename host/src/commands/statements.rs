//! docs/STATEMENTS.md compared with the sources, or written anew.

use crate::statements::{difference, faults_of_claims, write};
use std::path::Path;

/// What is to be told, with nothing where all is as it should be.
fn told(top: &Path, is_written: bool) -> Result<Vec<String>, String> {
    if is_written {
        write(top)?;
    }
    let difference = difference(top)?;
    Ok(difference
        .into_iter()
        .chain(faults_of_claims(top)?)
        .collect())
}

/// The exit status: 0, or 1 if the page differs, docs/CLAIMS.md names what is not there, or a file cannot be read or written.
pub fn check_statements(is_written: bool) -> u8 {
    let told = told(Path::new("."), is_written).unwrap_or_else(|error| vec![error]);
    for line in &told {
        println!("{line}");
    }
    if told.is_empty() {
        println!("no difference");
    }
    u8::from(!told.is_empty())
}
