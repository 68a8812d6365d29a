//! Tests of the script .ci/run, on copies of it that meet other commands in the place of rt, cargo and gcc: whichever of them fails or is missing, the
//! script fails, and its last line is that of `rt ci` only if all pass.

use crate::repository::places::{link_programs, top, write_script, Folder};
use std::fs;
use std::io::{BufRead, BufReader, Read};
use std::path::PathBuf;
use std::process::{Command, Output, Stdio};

/// What the script and the commands below use besides.
const TOOLS: [&str; 9] = [
    "cat", "dirname", "grep", "mktemp", "rm", "sh", "sleep", "tail", "tee",
];

const VERDICT: &str = "3 passed, 0 failed";

const OK: &str =
    "rt: ok; handles allowed: none; must-fail edits: 12 refused; done in this run: all";

const RT_PASSES: &str = "echo proved
echo 'rt: ok; handles allowed: none; must-fail edits: 12 refused; done in this run: all'
echo '3 passed, 0 failed'";
const RT_FAILS: &str = "echo '2 passed, 1 failed'\nexit 1";

/// The tests are told that `rt ci` has built the programs.
const CARGO_PASSES: &str = "[ \"$SLOTPLAN_PROVED\" = 1 ] || exit 8
echo 'test result: ok. 7 passed; 0 failed; 0 ignored'";
const CARGO_FAILS: &str = "echo 'test result: FAILED. 6 passed; 1 failed; 0 ignored'\nexit 101";

/// A repository with the script, and a folder with all commands that it can find.
struct Tree {
    folder: Folder,
}

impl Tree {
    /// Commands as shell scripts. None is a command that is missing.
    fn new(name: &str, [rt, cargo, gcc]: [Option<&str>; 3]) -> Tree {
        let folder = Folder::new(&format!("gate_{name}"));
        for part in ["repository/.ci", "commands", "temporary"] {
            fs::create_dir_all(folder.0.join(part)).unwrap();
        }
        let tree = Tree { folder };
        fs::copy(top().join(".ci/run"), tree.script()).unwrap();
        link_programs(&TOOLS, &tree.part("commands"));
        tree.write_command("rt", "ci", rt);
        let arguments = "test --quiet --manifest-path host/Cargo.toml";
        tree.write_command("cargo", arguments, cargo);
        tree.write_command("gcc", "", gcc);
        tree
    }

    fn part(&self, name: &str) -> PathBuf {
        self.folder.0.join(name)
    }

    fn script(&self) -> PathBuf {
        self.part("repository/.ci/run")
    }

    /// A command that is to be called with these arguments, at the top of the repository.
    fn write_command(&self, name: &str, arguments: &str, text: Option<&str>) {
        if let Some(text) = text {
            let text = format!("[ \"$*\" = '{arguments}' ] && [ -x .ci/run ] || exit 9\n{text}");
            write_script(&self.part("commands").join(name), &text);
        }
    }

    /// The script called from another folder.
    fn gate(&self) -> Command {
        let mut command = Command::new("/bin/sh");
        command
            .arg(self.script())
            .current_dir("/")
            .env("PATH", self.part("commands"))
            .env("TMPDIR", self.part("temporary"));
        command
    }

    fn run(&self) -> Output {
        let output = self.gate().output().unwrap();
        let left = fs::read_dir(self.part("temporary")).unwrap().count();
        assert_eq!(left, 0, "temporary files are left");
        output
    }
}

fn text(bytes: &[u8]) -> String {
    String::from_utf8_lossy(bytes).into_owned()
}

fn is_verdict(line: &str) -> bool {
    line.ends_with(" passed, 0 failed")
}

#[test]
fn the_last_line_is_that_of_rt_if_all_pass() {
    let tree = Tree::new("passes", [Some(RT_PASSES), Some(CARGO_PASSES), Some("")]);
    let output = tree.run();
    assert!(output.status.success(), "{output:?}");
    let printed = text(&output.stdout);
    let lines: Vec<&str> = printed.lines().collect();
    let of_cargo = "test result: ok. 7 passed; 0 failed; 0 ignored";
    assert_eq!(lines, ["proved", OK, VERDICT, of_cargo, VERDICT]);
    assert_eq!(text(&output.stderr), "");
}

/// With what standard error tells, and whether rt's verdict is shown before.
#[test]
fn a_failure_of_any_command_fails_without_the_verdict_as_last_line() {
    let passes_and_fails = format!("{RT_PASSES}\nexit 3");
    let with_verdict = "echo '7 passed, 0 failed'\nexit 101";
    let bad_edit = RT_PASSES.replace("12 refused;", "11 refused, 1 bad;");
    let bad_edits = RT_PASSES.replace(
        "12 refused;",
        "2 refused, 1 of them only by a limit, 10 bad;",
    );
    let told_of_none = format!("echo proved\necho '{VERDICT}'");
    let [rt, cargo, gcc] = [Some(RT_PASSES), Some(CARGO_PASSES), Some("")];
    let cases = [
        ("rt", [Some(RT_FAILS), cargo, gcc], "rt ci failed"),
        (
            "status",
            [Some(&passes_and_fails), cargo, gcc],
            "rt ci failed",
        ),
        ("signal", [Some("kill -9 $$"), cargo, gcc], "rt ci failed"),
        (
            "bad_edit",
            [Some(&bad_edit), cargo, gcc],
            "rt ci told of edits that are bad",
        ),
        (
            "bad_edits",
            [Some(&bad_edits), cargo, gcc],
            "rt ci told of edits that are bad",
        ),
        (
            "not_ok",
            [Some(&told_of_none), cargo, gcc],
            "rt ci did not tell that all is well",
        ),
        (
            "tests",
            [rt, Some(CARGO_FAILS), gcc],
            "the tests of host/ failed",
        ),
        (
            "silent",
            [rt, Some("exit 1"), gcc],
            "the tests of host/ failed",
        ),
        (
            "line",
            [rt, Some(with_verdict), gcc],
            "the tests of host/ failed",
        ),
        ("no_rt", [None, cargo, gcc], "rt is missing: install "),
        ("no_cargo", [rt, None, gcc], "cargo is missing: install "),
        ("no_gcc", [rt, cargo, None], "gcc is missing: install "),
        ("rt_alone", [Some(RT_FAILS), None, None], "rt ci failed"),
    ];
    for (name, commands, told) in cases {
        let output = Tree::new(name, commands).run();
        assert_eq!(output.status.code(), Some(1), "{name}: {output:?}");
        let (printed, error) = (text(&output.stdout), text(&output.stderr));
        let told = format!(".ci/run: {told}");
        assert!(
            error.lines().any(|line| line.starts_with(&told)),
            "{name}: {error}"
        );
        let last = printed.lines().last().unwrap();
        assert!(!is_verdict(last), "{name}: {printed}");
        let is_shown = printed.lines().any(|line| line == VERDICT);
        let is_expected = commands[0].is_some_and(|rt| rt.contains(VERDICT));
        assert_eq!(is_shown, is_expected, "{name}: {printed}");
    }
}

/// Without cargo or gcc nothing is tested, nor where an edit is bad.
#[test]
fn tests_are_run_only_after_rt_has_passed_and_where_gcc_is() {
    let tells = "echo tested";
    let bad_edit = RT_PASSES.replace("12 refused;", "11 refused, 1 bad;");
    for (name, rt, gcc) in [
        ("after", RT_FAILS, Some("")),
        ("edits", &bad_edit, Some("")),
        ("without", RT_PASSES, None),
    ] {
        let output = Tree::new(name, [Some(rt), Some(tells), gcc]).run();
        assert!(!text(&output.stdout).contains("tested"), "{name}");
    }
}

/// rt waits, at most ten seconds, until its first line has been read.
#[test]
fn the_output_of_rt_is_shown_as_it_comes() {
    let waits = "echo first
count=0
until [ -e seen ]; do
    [ $count -lt 100 ] || exit 1
    sleep 0.1
    count=$((count + 1))
done
echo 'rt: ok; handles allowed: none'
echo '1 passed, 0 failed'";
    let tree = Tree::new("shown", [Some(waits), Some(CARGO_PASSES), Some("")]);
    let mut gate = tree.gate().stdout(Stdio::piped()).spawn().unwrap();
    let mut output = BufReader::new(gate.stdout.take().unwrap());
    let mut first = String::new();
    output.read_line(&mut first).unwrap();
    assert_eq!(first, "first\n");
    fs::write(tree.part("repository/seen"), "").unwrap();
    let mut rest = String::new();
    output.read_to_string(&mut rest).unwrap();
    assert!(gate.wait().unwrap().success(), "{rest}");
    assert_eq!(rest.lines().last(), Some("1 passed, 0 failed"));
}
