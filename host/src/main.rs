//! A second implementation of document 01 and of U1, U2 and U3 of document 02, for comparison with the programs under crates/ and
//! with their library.

mod commands;
mod library;
mod plain;
mod programs;
mod random;
#[cfg(test)]
mod repository;
mod second;
mod statements;

use commands::statements::check_statements;
use commands::weakened::try_weakened;
use commands::{bad_hosts, bench, compare, compare_library, expected};
use std::path::Path;
use std::process::ExitCode;

const USAGE: &str =
    "host bad-hosts N SEED\nhost bench [growth]\nhost expected [--write]\nhost library N SEED\n\
    host random N SEED [--bin DIR]\nhost repeat ROW SITE rattle|rust N\n\
    host statements [--write]\nhost watch N SEED\nhost weakened [CRATE ...]";

/// A command that takes how many inputs to make, and from which seed.
fn seeded(count: &str, seed: &str, command: impl Fn(u64, u64) -> u8) -> Option<u8> {
    Some(command(count.parse().ok()?, seed.parse().ok()?))
}

fn random(count: &str, seed: &str, folder: &str) -> Option<u8> {
    seeded(count, seed, |count, seed| {
        compare::compare_random(count, seed, Path::new(folder))
    })
}

/// The exit status, or None if there is no such command.
fn status(words: &[&str]) -> Option<u8> {
    match *words {
        ["bad-hosts", count, seed] => seeded(count, seed, bad_hosts::try_bad_hosts),
        ["bench"] => Some(bench::bench()),
        ["bench", "growth"] => Some(bench::bench_growth()),
        ["expected"] => Some(expected::check_all(false)),
        ["expected", "--write"] => Some(expected::check_all(true)),
        ["library", count, seed] => seeded(count, seed, compare_library::compare_library),
        ["random", count, seed] => random(count, seed, "target/bin"),
        ["random", count, seed, "--bin", folder] => random(count, seed, folder),
        ["repeat", row, site, implementation, count] => {
            bench::repeat(row, site, implementation, count)
        }
        ["statements"] => Some(check_statements(false)),
        ["statements", "--write"] => Some(check_statements(true)),
        ["watch", count, seed] => seeded(count, seed, compare::watch_random),
        ["weakened", ref crates @ ..] => Some(try_weakened(crates)),
        _ => None,
    }
}

fn main() -> ExitCode {
    let words: Vec<String> = std::env::args().skip(1).collect();
    let words: Vec<&str> = words.iter().map(String::as_str).collect();
    let status = status(&words).unwrap_or_else(|| {
        eprintln!("{USAGE}");
        2
    });
    ExitCode::from(status)
}
