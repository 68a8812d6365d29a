//! Tests of the built programs' habits: wrong arguments are told in one line on standard error, and no input keeps a program from its end.

use crate::programs::names::{ASSEMBLE, CHART, LISTING, READ_SCHEDULE, REHEARSE, SLOTPLAN};
use crate::programs::output::output;
use crate::programs::rehearse_lines::{cannot_open, rehearse, USAGE};
use crate::programs::running::{run, Printed};
use crate::repository::built::built_programs;
use crate::repository::places::{read, top};
use crate::second::typed::assemble;
use std::io::{Read, Write};
use std::path::{Path, PathBuf};
use std::process::{Command, Stdio};
use std::sync::mpsc::channel;
use std::thread;
use std::time::Duration;

/// The programs that take no argument and read standard input alone, with what they tell of an argument, or how that begins.
const WITHOUT_ARGUMENTS: [(&str, &str); 5] = [
    (SLOTPLAN, "usage: slotplan < PLAN"),
    (READ_SCHEDULE, "usage: readschedule < SCHEDULE"),
    (LISTING, "usage: listing < PLAN > TEXT"),
    (ASSEMBLE, "usage: assemble < TEXT > PLAN"),
    (CHART, "usage: chart"),
];

fn sample_plan() -> PathBuf {
    top().join("samples/p.plan")
}

fn run_built(program: &str, arguments: &[&Path], input: &[u8]) -> Printed {
    let path = built_programs().join(program);
    let printed = run(&path, arguments, input);
    printed.unwrap_or_else(|error| panic!("{}: {error}", path.display()))
}

/// The one line on standard error of a program that prints nothing else.
fn told(program: &str, arguments: &[&Path]) -> String {
    let printed = run_built(program, arguments, b"start\n");
    let line = printed.err.strip_suffix('\n').unwrap_or_default();
    let one_line = !line.is_empty() && !line.contains('\n');
    assert!(
        printed.out.is_empty() && one_line,
        "{program} {arguments:?}: {printed:?}"
    );
    line.to_string()
}

#[test]
fn an_argument_too_many_is_told_in_one_line() {
    for (program, usage) in WITHOUT_ARGUMENTS {
        for arguments in [
            &["x"][..],
            &[""],
            &["-"],
            &["--help"],
            &["samples/p.plan", "x"],
        ] {
            let arguments: Vec<&Path> = arguments.iter().map(Path::new).collect();
            let told = told(program, &arguments);
            assert!(told.starts_with(usage), "{program} {arguments:?}: {told}");
        }
    }
}

#[test]
fn rehearse_tells_a_wrong_argument_in_one_line() {
    let plan = sample_plan();
    assert_eq!(told(REHEARSE, &[]), USAGE);
    assert_eq!(told(REHEARSE, &[&plan, &plan]), USAGE);
    let missing = top().join("samples/none.plan");
    assert_eq!(told(REHEARSE, &[&missing]), cannot_open(&missing));
}

/// Each answer comes while more may be typed: the input stays open until the last one has been read.
#[test]
fn rehearse_answers_each_line_when_it_is_typed() {
    let plan = sample_plan();
    let mut child = Command::new(built_programs().join(REHEARSE))
        .arg(&plan)
        .stdin(Stdio::piped())
        .stdout(Stdio::piped())
        .spawn()
        .unwrap();
    let (mut stdin, mut stdout) = (child.stdin.take().unwrap(), child.stdout.take().unwrap());
    let (sender, receiver) = channel();
    thread::spawn(move || {
        let mut part = [0; 4096];
        while let Ok(length @ 1..) = stdout.read(&mut part) {
            if sender.send(part[..length].to_vec()).is_err() {
                break;
            }
        }
    });
    let (mut typed, mut printed) = (Vec::new(), Vec::new());
    for piece in ["bound 0\n", "cells 0\nbou", "nd 0\n", "plan\n"] {
        stdin.write_all(piece.as_bytes()).unwrap();
        typed.extend_from_slice(piece.as_bytes());
        let whole = typed.iter().rposition(|byte| *byte == b'\n').unwrap() + 1;
        let expected = rehearse(Some(&read(&plan)), &typed[..whole]).0.into_bytes();
        while printed.len() < expected.len() {
            let part = receiver.recv_timeout(Duration::from_secs(20));
            printed.extend(part.unwrap_or_else(|_| panic!("no answer to {piece:?}")));
        }
        assert_eq!(printed, expected, "{piece:?}");
    }
    drop(stdin);
    assert!(child.wait().unwrap().success());
}

/// A folder can be opened and has no bytes, so it is a plan without END.
#[test]
fn rehearse_refuses_a_folder() {
    let printed = run_built(REHEARSE, &[&top().join("samples")], b"start\n");
    let expected = Printed {
        out: b"refused 2 0\n".to_vec(),
        err: String::new(),
    };
    assert_eq!(printed, expected);
}

/// A text whose second line is wrong in each way that a line can be, and in two ways at once: the first is told.
#[test]
fn assemble_tells_each_wrong_word() {
    let wrong = [
        "nodes 1 2 3",
        "node",
        "node 256 2 3",
        "node 1 65536 3",
        "node 1 2",
        "node 1 2 65536",
        "node 1 2 3 4",
        "node x y",
        "flow",
        "flow 256 2 3 4",
        "flow 1 256 3 4",
        "flow 1 2 -3 4",
        "flow 1 2 3 65536",
        "flow 1 2 3 4 5",
    ];
    for line in wrong {
        let text = format!("node 0 20 4 # a lane\n{line}\nflow x\n");
        let expected = Printed::told(&assemble(text.as_bytes()).unwrap_err());
        let printed = run_built(ASSEMBLE, &[], text.as_bytes());
        assert_eq!(printed.difference(&expected), None, "{line}");
    }
}

/// More than any program keeps. rehearse answers every line, so the lines are long.
fn endless_inputs() -> [Vec<u8>; 4] {
    let line = [&[b'y'; 999][..], b"\n"].concat();
    let lines = line.repeat(20_000);
    let length = lines.len();
    [vec![b'y'; length], lines, vec![0; length], vec![1; length]]
}

/// None for chart, of which only the end is awaited here.
fn expected(program: &str, input: &[u8]) -> Option<Printed> {
    let out = match program {
        CHART => return None,
        REHEARSE => rehearse(Some(&read(&sample_plan())), input).0.into_bytes(),
        ASSEMBLE => match assemble(input) {
            Ok(plan) => plan,
            Err(line) => return Some(Printed::told(&line)),
        },
        _ => output(program, input).unwrap().into_bytes(),
    };
    let err = String::new();
    Some(Printed { out, err })
}

/// A program that goes on for 20 seconds is an error of `run`.
#[test]
fn every_program_comes_to_an_end() {
    let plan = sample_plan();
    let without = WITHOUT_ARGUMENTS.map(|(program, _)| (program, Vec::new()));
    let programs = without
        .into_iter()
        .chain([(REHEARSE, vec![plan.as_path()])]);
    let inputs: Vec<Vec<u8>> = endless_inputs().into_iter().chain([Vec::new()]).collect();
    for (program, arguments) in programs {
        for input in &inputs {
            let printed = run_built(program, &arguments, input);
            let begin = input.first();
            match expected(program, input) {
                Some(expected) => {
                    let difference = printed.difference(&expected);
                    assert_eq!(difference, None, "{program} {begin:?}");
                }
                None => {
                    let answers = printed.out.is_empty() != printed.err.is_empty();
                    assert!(answers, "{program} {begin:?}: {printed:?}");
                }
            }
        }
    }
}
