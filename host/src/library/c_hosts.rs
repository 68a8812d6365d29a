//! Tests of the library as a C compiler sees it: the header alone, and a host in C.

use crate::library::slotplan_lib::{ARCHIVE, HEADER};
use crate::programs::lines::first_difference;
use crate::repository::places::{read_text, top, Folder};
use std::fs;
use std::io::ErrorKind;
use std::process::Command;

const WARNINGS: [&str; 4] = ["-Wall", "-Wextra", "-Werror", "-pedantic"];

/// Whether the compiler is there. The error is what it prints about the sources.
fn compile(compiler: &str, arguments: &[&str]) -> Result<bool, String> {
    let mut command = Command::new(compiler);
    command.args(WARNINGS).args(["-I", "include"]);
    let run = command.args(arguments).current_dir(top()).output();
    match run {
        Err(error) if error.kind() == ErrorKind::NotFound => Ok(false),
        Err(error) => Err(format!("{compiler}: {error}")),
        Ok(output) if output.status.success() => Ok(true),
        Ok(output) => Err(String::from_utf8_lossy(&output.stderr).into_owned()),
    }
}

fn compile_with_gcc(arguments: &[&str]) {
    let is_there = compile("gcc", arguments).unwrap_or_else(|error| panic!("{error}"));
    assert!(is_there, "no gcc on the path: this test compiles C with it");
}

#[test]
fn the_example_prints_what_is_stored() {
    let folder = Folder::new("example");
    let program = folder.0.join("live_site");
    let archive = fs::canonicalize(ARCHIVE).unwrap();
    compile_with_gcc(&[
        "-std=c99",
        "examples/live_site.c",
        archive.to_str().unwrap(),
        "-o",
        program.to_str().unwrap(),
    ]);
    let output = Command::new(&program).output().unwrap();
    let stored = read_text(&top().join("examples/live_site.out"));
    let printed = String::from_utf8_lossy(&output.stdout);
    assert_eq!(first_difference(&printed, &stored), None);
    assert!(output.stderr.is_empty() && output.status.success());
}

/// With no other header before it, and twice.
#[test]
fn the_header_compiles_alone() {
    let folder = Folder::new("header");
    let source = folder.0.join("header.c");
    let text = format!("#include \"{HEADER}\"\n").repeat(2);
    fs::write(&source, text).unwrap();
    let source = source.to_str().unwrap();
    for standard in ["-std=c99", "-std=c11"] {
        compile_with_gcc(&[standard, "-fsyntax-only", source]);
    }
    let as_cpp = ["-std=c++11", "-fsyntax-only", "-x", "c++", source];
    let is_there = compile("g++", &as_cpp).unwrap_or_else(|error| panic!("{error}"));
    if !is_there {
        println!("no g++ on the path: the header was not compiled as C++");
    }
}
