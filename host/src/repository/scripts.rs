//! Tests of the scripts in tools/ that build the archive and the programs, on copies of them that meet another command in the place of rt.

use crate::repository::places::{link_programs, read_text, top, write_script, Folder};
use std::fs;
use std::path::PathBuf;
use std::process::{Command, Output};

/// What the scripts use besides.
const TOOLS: [&str; 7] = ["cat", "cmp", "cp", "dirname", "mkdir", "mv", "sh"];

const LIBRARY: &str = "tools/library.sh";
const PROGRAMS: &str = "tools/programs.sh";

const ARCHIVE: &str = "target/staticlib/libslotplan_lib.a";

/// In the place of `rt lib`, in the folder of its crate.
const LIB_PASSES: &str = "[ \"$*\" = lib ] && [ -f src/lib.rt ] || exit 9
mkdir -p out
echo \"${PART-first}\" > out/libslotplan_lib_c.a";

/// In the place of `rt run`, in the folder of a program, which reads nothing and prints.
const RUN_PASSES: &str = "[ \"$*\" = run ] && [ -f src/main.rt ] || exit 9
mkdir -p out
echo \"echo ${PART-first} $(cat)\" > out/${PWD##*/}
chmod +x out/${PWD##*/}
echo printed";

/// A repository with the scripts, a crate of a library and two programs.
struct Tree(Folder);

impl Tree {
    fn new(name: &str, rt: Option<&str>) -> Tree {
        let tree = Tree(Folder::new(&format!("scripts_{name}")));
        for part in ["repository/tools", "commands"] {
            fs::create_dir_all(tree.0 .0.join(part)).unwrap();
        }
        for script in [LIBRARY, PROGRAMS] {
            fs::copy(top().join(script), tree.path(script)).unwrap();
        }
        for source in [
            "slotplan_lib_c/src/lib.rt",
            "chart/src/main.rt",
            "listing/src/main.rt",
        ] {
            let path = tree.path("crates").join(source);
            fs::create_dir_all(path.parent().unwrap()).unwrap();
            fs::write(path, "").unwrap();
        }
        let commands = tree.0 .0.join("commands");
        link_programs(&TOOLS, &commands);
        link_programs(&["chmod"], &commands);
        if let Some(rt) = rt {
            write_script(&commands.join("rt"), rt);
        }
        tree
    }

    fn path(&self, path: &str) -> PathBuf {
        self.0 .0.join("repository").join(path)
    }

    /// The script called from another folder, with these in the environment.
    fn run(&self, script: &str, names: &[&str], set: &[(&str, &str)]) -> Output {
        Command::new("/bin/sh")
            .arg(self.path(script))
            .args(names)
            .current_dir("/")
            .env("PATH", self.0 .0.join("commands"))
            .env_remove("SLOTPLAN_PROVED")
            .envs(set.iter().copied())
            .output()
            .unwrap()
    }

    fn is_there(&self, path: &str) -> bool {
        self.path(path).exists()
    }
}

fn fails(output: &Output) -> bool {
    output.status.code().is_some_and(|status| status != 0)
}

#[test]
fn the_archive_has_the_name_that_hosts_link() {
    let tree = Tree::new("archive", Some(LIB_PASSES));
    let output = tree.run(LIBRARY, &[], &[]);
    assert!(output.status.success(), "{output:?}");
    assert_eq!(read_text(&tree.path(ARCHIVE)), "first\n");
    // The same once more keeps its time, another one takes its place.
    let time = || {
        fs::metadata(tree.path(ARCHIVE))
            .unwrap()
            .modified()
            .unwrap()
    };
    let before = time();
    assert!(tree.run(LIBRARY, &[], &[]).status.success());
    assert_eq!(time(), before);
    let output = tree.run(LIBRARY, &[], &[("PART", "second")]);
    assert!(output.status.success(), "{output:?}");
    assert_eq!(read_text(&tree.path(ARCHIVE)), "second\n");
}

/// Also where an earlier archive is there.
#[test]
fn without_a_proof_there_is_no_archive() {
    for (name, rt) in [("unproved", Some("exit 1")), ("without", None)] {
        let tree = Tree::new(name, rt);
        let made = tree.path("crates/slotplan_lib_c/out/libslotplan_lib_c.a");
        fs::create_dir_all(made.parent().unwrap()).unwrap();
        fs::write(made, "old").unwrap();
        assert!(fails(&tree.run(LIBRARY, &[], &[])), "{name}");
        assert!(!tree.is_there(ARCHIVE), "{name}");
    }
}

#[test]
fn programs_are_built_on_an_empty_input() {
    let tree = Tree::new("programs", Some(RUN_PASSES));
    for part in ["first", "second"] {
        let output = tree.run(PROGRAMS, &["chart", "listing"], &[("PART", part)]);
        assert!(output.status.success(), "{output:?}");
        assert!(output.stdout.is_empty(), "{output:?}");
        for name in ["chart", "listing"] {
            let program = tree.path("target/bin").join(name);
            assert_eq!(read_text(&program), format!("echo {part} \n"));
            let printed = Command::new("/bin/sh").arg(program).output().unwrap();
            assert_eq!(
                String::from_utf8_lossy(&printed.stdout),
                format!("{part}\n")
            );
        }
    }
    assert_eq!(fs::read_dir(tree.path("target/bin")).unwrap().count(), 2);
}

#[test]
fn a_program_that_is_not_proved_or_not_there_fails() {
    let tree = Tree::new("failing", Some("exit 1"));
    for names in [&["chart"][..], &["slotplan_lib_c"], &["none"], &[]] {
        let output = tree.run(PROGRAMS, names, &[]);
        assert!(fails(&output), "{names:?}: {output:?}");
        let told = String::from_utf8_lossy(&output.stderr).into_owned();
        assert!(told.starts_with("tools/programs.sh: "), "{told}");
    }
    assert!(!tree.is_there("target/bin/chart"));
}

/// As `rt ci` left them: rt is not called.
#[test]
fn proved_programs_are_taken_as_they_are() {
    let tree = Tree::new("proved", None);
    let proved = [("SLOTPLAN_PROVED", "1")];
    assert!(fails(&tree.run(PROGRAMS, &["chart"], &proved)));
    fs::create_dir_all(tree.path("crates/chart/out")).unwrap();
    write_script(&tree.path("crates/chart/out/chart"), "echo kept");
    let output = tree.run(PROGRAMS, &["chart"], &proved);
    assert!(output.status.success(), "{output:?}");
    let kept = "#!/bin/sh\necho kept\n";
    assert_eq!(read_text(&tree.path("target/bin/chart")), kept);
    assert!(fails(&tree.run(PROGRAMS, &["chart"], &[])));
}
