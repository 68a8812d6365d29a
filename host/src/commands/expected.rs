//! The stored outputs of the programs, compared with this implementation or written by it.

use crate::programs::lines::first_difference;
use crate::programs::names::{self, ASSEMBLE, PLAN_FILES, REHEARSE};
use crate::programs::output::{commands_in_hex, output, slotplan};
use crate::programs::rehearse_lines::rehearse;
use crate::second::typed::assemble;
use std::fs;
use std::path::{Path, PathBuf};

/// The exit status: 0, or 1 if an output differs or a file cannot be read or written.
pub fn check_all(write: bool) -> u8 {
    let mut status = 0;
    for name in names::computed() {
        let folder = Path::new("crates").join(name);
        let answer = if write {
            write_one(name, &folder)
        } else {
            check_one(name, &folder)
        };
        match answer {
            Ok(answer) => println!("{name}: {answer}"),
            Err(error) => {
                println!("{name}: {error}");
                status = 1;
            }
        }
    }
    status
}

fn at(path: PathBuf) -> impl Fn(std::io::Error) -> String {
    move |error| format!("{}: {error}", path.display())
}

fn read(path: PathBuf) -> Result<Vec<u8>, String> {
    fs::read(&path).map_err(at(path))
}

fn computed(name: &str, folder: &Path) -> Result<Vec<u8>, String> {
    let input = || read(folder.join("stdin"));
    match name {
        ASSEMBLE => assemble(&input()?),
        REHEARSE => rehearsed(folder, &input()?).map(String::into_bytes),
        PLAN_FILES => plans_shown(folder).map(String::into_bytes),
        _ => output(name, &input()?).map(String::into_bytes),
    }
}

/// The output as it is compared and counted.
fn in_lines(name: &str, output: &[u8]) -> String {
    match name {
        ASSEMBLE => commands_in_hex(output),
        _ => String::from_utf8_lossy(output).into_owned(),
    }
}

/// The plans that a program is given. Their names stand in the crate's file `args`, one to a line, and the plans in its folder `data`.
fn plans(folder: &Path) -> Result<Vec<Vec<u8>>, String> {
    let names = read(folder.join("args"))?;
    let names = String::from_utf8_lossy(&names);
    let plans = names
        .lines()
        .map(|name| read(folder.join("data").join(name)));
    plans.collect()
}

/// Of whole files, though the program reads the first 1,024 bytes of each: these settle what is printed.
fn plans_shown(folder: &Path) -> Result<String, String> {
    let plans = plans(folder)?;
    Ok(plans.iter().map(|plan| slotplan(plan)).collect())
}

fn rehearsed(folder: &Path, input: &[u8]) -> Result<String, String> {
    let plans = plans(folder)?;
    let (output, rehearsal) = rehearse(plans.first().map(Vec::as_slice), input);
    let objections = rehearsal
        .iter()
        .flat_map(|rehearsal| &rehearsal.watch.objections);
    match objections.into_iter().next() {
        Some(objection) => Err(objection.to_string()),
        None => Ok(output),
    }
}

fn check_one(name: &str, folder: &Path) -> Result<String, String> {
    let expected = in_lines(name, &computed(name, folder)?);
    let stored = in_lines(name, &read(folder.join("stdout"))?);
    match first_difference(&stored, &expected) {
        None => Ok(format!("equal, {} lines", expected.lines().count())),
        Some(difference) => Err(format!("differs, {difference}")),
    }
}

fn write_one(name: &str, folder: &Path) -> Result<String, String> {
    let expected = computed(name, folder)?;
    let path = folder.join("stdout");
    fs::write(&path, &expected).map_err(at(path))?;
    let lines = in_lines(name, &expected).lines().count();
    Ok(format!("written, {lines} lines"))
}

#[cfg(test)]
mod tests {
    use super::*;
    use crate::programs::names::{CHART, LINE_PROGRAMS};
    use crate::repository::places::{top, Folder};
    use crate::second::bytes::plan_p;
    use std::collections::BTreeSet;

    fn folder_of(name: &str) -> PathBuf {
        top().join("crates").join(name)
    }

    #[test]
    fn every_stored_output_is_the_computed_one() {
        let difference = |name: &&str| {
            let error = check_one(name, &folder_of(name)).err()?;
            Some(format!("{name}: {error}"))
        };
        let programs = names::computed();
        let differences: Vec<String> = programs.iter().filter_map(difference).collect();
        assert!(differences.is_empty(), "{}", differences.join("\n"));
    }

    /// An output that is stored and not computed would be compared with nothing.
    #[test]
    fn every_stored_output_is_computed() {
        let crates = fs::read_dir(top().join("crates")).unwrap();
        let folders = crates.map(|folder| folder.unwrap().path());
        let stored: BTreeSet<String> = folders
            .filter(|folder| folder.join("stdout").exists())
            .map(|folder| folder.file_name().unwrap().to_str().unwrap().to_string())
            .collect();
        let known = names::computed().into_iter().chain([CHART]);
        let known: BTreeSet<String> = known.map(str::to_string).collect();
        assert_eq!(stored, known);
    }

    /// The last figure of the stored output, one more or less.
    fn with_another_figure(output: &[u8]) -> (Vec<u8>, usize) {
        let mut output = output.to_vec();
        let last = output.iter().rposition(u8::is_ascii_digit).unwrap();
        output[last] ^= 1;
        let line = output[..last].iter().filter(|&&byte| byte == b'\n').count() + 1;
        (output, line)
    }

    /// The files of a crate and of its folder `data`, in another folder.
    fn copy_of(name: &str) -> Folder {
        let folder = Folder::new(&format!("stored_{name}"));
        for part in ["", "data"] {
            let (from, to) = (folder_of(name).join(part), folder.0.join(part));
            let files = fs::read_dir(&from).into_iter().flatten();
            fs::create_dir_all(&to).unwrap();
            for file in files.map(|file| file.unwrap().path()) {
                if file.is_file() {
                    fs::copy(&file, to.join(file.file_name().unwrap())).unwrap();
                }
            }
        }
        folder
    }

    #[test]
    fn one_other_figure_is_found() {
        for name in LINE_PROGRAMS.into_iter().chain([PLAN_FILES]) {
            let folder = copy_of(name);
            let output = read(folder.0.join("stdout")).unwrap();
            assert!(check_one(name, &folder.0).is_ok(), "{name}");
            let (other, line) = with_another_figure(&output);
            fs::write(folder.0.join("stdout"), other).unwrap();
            let told = check_one(name, &folder.0).unwrap_err();
            let expected = format!("differs, line {line}:\nfound: ");
            assert!(told.starts_with(&expected), "{name}: {told}");
        }
    }

    /// In the order of the arguments, and a plan of more than 1,024 bytes.
    #[test]
    fn plans_are_shown_one_after_the_other() {
        let folder = Folder::new("plans_shown");
        fs::create_dir(folder.0.join("data")).unwrap();
        let long = [&plan_p(9, 7)[..], &[0; 2000]].concat();
        for (name, plan) in [("wired", &[0xFF][..]), ("long", &long)] {
            fs::write(folder.0.join("data").join(name), plan).unwrap();
        }
        let shown = |names: &str| {
            fs::write(folder.0.join("args"), names).unwrap();
            computed(PLAN_FILES, &folder.0).map(|shown| String::from_utf8(shown).unwrap())
        };
        let [wired, refused] = ["accepted links 0 flows 0\n", "refused 10 25\n"];
        assert_eq!(shown("wired\nlong\n"), Ok([wired, refused].concat()));
        assert_eq!(shown("long\nwired\n"), Ok([refused, wired].concat()));
        assert!(shown("wired\nmissing\n").unwrap_err().contains("missing"));
    }
}
