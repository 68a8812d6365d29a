//! Contracts weakened on purpose: what refuses each. Every law that reads a contract (`Reads.Post`) is tried on a copy of the repository in which the function
//! promises nothing and is proved to keep that promise.

mod checks;
#[cfg(test)]
mod tests;
mod texts;

use crate::statements::sources::{read_text, sources};
use checks::{check, Checked, Refused};
use std::fs;
use std::path::{Path, PathBuf};
use std::time::Instant;
use texts::{
    alone, calls, crates_below, laws, name_of, weaken_answers, weaken_promise, with_fewer_uses, Law,
};

/// The crates whose laws read contracts.
const READERS: [&str; 2] = ["contracts", "slotplan_lib"];

const LISTED: &str = "crates.txt";

/// The folders of a crate that rt reads.
const READ: [&str; 3] = ["src", "specs", "proofs"];

fn in_words(path: &Path) -> impl Fn(std::io::Error) -> String + '_ {
    move |error| format!("{}: {error}", path.display())
}

fn write(path: &Path, text: &str) -> Result<(), String> {
    fs::write(path, text).map_err(in_words(path))
}

fn copy_file(from: &Path, to: &Path) -> Result<(), String> {
    fs::copy(from, to).map(|_| ()).map_err(in_words(from))
}

/// With all that is below. A folder that is missing has nothing.
fn copy_folder(from: &Path, to: &Path) -> Result<(), String> {
    if !from.is_dir() {
        return Ok(());
    }
    fs::create_dir_all(to).map_err(in_words(to))?;
    for entry in fs::read_dir(from).map_err(in_words(from))? {
        let entry = entry.map_err(in_words(from))?;
        let (path, to) = (entry.path(), to.join(entry.file_name()));
        if path.is_dir() {
            copy_folder(&path, &to)?;
        } else {
            copy_file(&path, &to)?;
        }
    }
    Ok(())
}

/// Copies of the repository in a temporary folder that is gone at the end.
struct Copies(PathBuf);

impl Copies {
    fn new() -> Result<Copies, String> {
        let name = format!("slotplan_weakened_{}", std::process::id());
        let folder = std::env::temp_dir().join(name);
        fs::create_dir_all(&folder).map_err(in_words(&folder))?;
        Ok(Copies(folder))
    }

    /// What rt reads of the repository at `top`, under this name and anew. What was proved there or in another copy, rt takes from there.
    fn copy(&self, top: &Path, name: &str) -> Result<PathBuf, String> {
        let folder = self.0.join(name);
        if folder.exists() {
            fs::remove_dir_all(&folder).map_err(in_words(&folder))?;
        }
        let crates = top.join("crates");
        for owner in fs::read_dir(&crates).map_err(in_words(&crates))? {
            let owner = owner.map_err(in_words(&crates))?;
            let to = folder.join("crates").join(owner.file_name());
            for part in READ {
                copy_folder(&owner.path().join(part), &to.join(part))?;
            }
        }
        copy_file(&top.join(LISTED), &folder.join(LISTED))?;
        Ok(folder)
    }
}

impl Drop for Copies {
    /// If the folder cannot be removed, what was tried is still told.
    fn drop(&mut self) {
        let _ = fs::remove_dir_all(&self.0);
    }
}

/// A law, and the crate whose laws it stands among.
struct Trial {
    reader: &'static str,
    law: Law,
}

/// What refused a weakened contract.
struct Outcome {
    law: Refused,
    /// The first caller that is refused, of the crates that the law's crate is built on.
    caller: Option<Refused>,
    /// Functions of the same crate that are refused, and that were weakened too so that their crate is proved.
    weakened: Vec<String>,
}

fn laws_file(reader: &str) -> PathBuf {
    Path::new("crates").join(reader).join("proofs/Laws.antt")
}

/// All laws that read contracts of these crates, or of any crate if none is named.
fn trials(top: &Path, crates: &[&str]) -> Result<Vec<Trial>, String> {
    let mut trials = Vec::new();
    for reader in READERS {
        let laws = laws(&read_text(&top.join(laws_file(reader)))?)?;
        trials.extend(laws.into_iter().map(|law| Trial { reader, law }));
    }
    let has_some = |name: &&&str| trials.iter().any(|trial| trial.law.owner == **name);
    if let Some(name) = crates.iter().find(|name| !has_some(name)) {
        return Err(format!("no law reads a contract of {name}"));
    }
    trials.retain(|trial| crates.is_empty() || crates.contains(&trial.law.owner.as_str()));
    Ok(trials)
}

/// The function promises nothing, and no answer says why it returns what it promises. A method is named behind its type, as its proofs stand: `Site/is_live`.
fn weaken(top: &Path, owner: &str, function: &str) -> Result<(), String> {
    let name = name_of(function);
    let folder = top.join("crates").join(owner);
    let code = folder.join("src");
    let files = fs::read_dir(&code).map_err(in_words(&code))?;
    let mut is_found = false;
    for file in files {
        let path = file.map_err(in_words(&code))?.path();
        if let Some(text) = weaken_promise(&read_text(&path)?, name) {
            write(&path, &text)?;
            is_found = true;
        }
    }
    if !is_found {
        return Err(format!("no promise of {owner}::{function}"));
    }
    let answers = folder.join("proofs").join(function).join("Answers.antt");
    if answers.exists() {
        write(&answers, &weaken_answers(&read_text(&answers)?))?;
    }
    Ok(())
}

/// The answers and invariants of the function, so that `rt` looks for them by itself.
fn leave_out_proofs(top: &Path, owner: &str, function: &str) -> Result<(), String> {
    let folder = top.join("crates").join(owner).join("proofs").join(function);
    match folder.is_dir() {
        true => fs::remove_dir_all(&folder).map_err(in_words(&folder)),
        false => Ok(()),
    }
}

impl Trial {
    fn function(&self) -> String {
        format!("{}::{}", self.law.owner, self.law.function)
    }

    /// As `rt` names it where it is not proved.
    fn unproved_name(&self) -> String {
        self.function().replace('/', "::")
    }

    /// The law is the only one of its crate, which has no other proofs and uses no more than the law needs.
    fn leave_alone(&self, top: &Path) -> Result<(), String> {
        let (file, listed) = (top.join(laws_file(self.reader)), top.join(LISTED));
        let (text, needed) = alone(&read_text(&file)?, &self.law.name)?;
        let proofs = file.parent().unwrap_or(top);
        fs::remove_dir_all(proofs).map_err(in_words(proofs))?;
        fs::create_dir(proofs).map_err(in_words(proofs))?;
        write(&proofs.join("Lib.antt"), "pub mod Laws\n")?;
        write(&file, &text)?;
        let fewer = with_fewer_uses(&read_text(&listed)?, self.reader, &needed);
        write(&listed, &fewer)
    }

    /// That the law itself is what was refused.
    fn is_of_law(&self, refused: &Refused) -> bool {
        let named = format!("error: `{}`:", self.law.name);
        refused.owner == self.reader && refused.error.contains(&named)
    }

    /// The law is refused, or the error says what else was.
    fn law_refused(&self, checked: Checked) -> Result<Refused, String> {
        match checked.refused {
            None => Err(format!("NOT REFUSED: law {}", self.law.name)),
            Some(refused) if self.is_of_law(&refused) => Ok(refused),
            Some(refused) => Err(format!("not the law: {}", refused.error)),
        }
    }

    /// Weakens the function, and then those of its crate that are not proved any more, until the crate is proved: the first error, and these callers. All answers
    /// and invariants of a caller are left out too, where it is not proved though it promises nothing.
    fn weaken_all(&self, top: &Path) -> Result<(Option<Refused>, Vec<String>), String> {
        let owner = &self.law.owner;
        weaken(top, owner, &self.law.function)?;
        let (mut first, mut weakened, mut bare) = (None, Vec::new(), Vec::new());
        loop {
            let checked = check(top, owner)?;
            let Some(refused) = checked.refused else {
                return Ok((first, weakened));
            };
            let callers = checked.unproved;
            let is_stuck = |name: &String| bare.contains(name) || *name == self.unproved_name();
            if callers.is_empty() || callers.iter().any(is_stuck) {
                return Err(format!("not well weakened: {}", refused.error));
            }
            for caller in callers {
                let of_owner = caller.strip_prefix(&format!("{owner}::"));
                let Some(function) = of_owner.map(|name| name.replace("::", "/")) else {
                    return Err(format!("not well weakened: {}", refused.error));
                };
                if weakened.contains(&caller) {
                    leave_out_proofs(top, owner, &function)?;
                    bare.push(caller);
                } else {
                    weaken(top, owner, &function)?;
                    weakened.push(caller);
                }
            }
            first = first.or(Some(refused));
        }
    }

    /// A law of the function's own crate: the crate is refused for the law, and for no function.
    fn refused_at_home(&self, top: &Path) -> Result<Outcome, String> {
        weaken(top, &self.law.owner, &self.law.function)?;
        let checked = check(top, self.reader)?;
        if let Some(function) = checked.unproved.first() {
            return Err(format!("not well weakened: {function} is not proved"));
        }
        Ok(Outcome {
            law: self.law_refused(checked)?,
            caller: None,
            weakened: Vec::new(),
        })
    }

    /// The first crate that calls the function and is refused.
    fn caller_refused(&self, top: &Path, base: &Path) -> Result<Option<Refused>, String> {
        let listed = read_text(&base.join(LISTED))?;
        let below = crates_below(&listed, self.reader);
        for name in below {
            let code = sources(top, std::slice::from_ref(&name), &["src"], ".rt")?;
            let Law {
                owner, function, ..
            } = &self.law;
            if code.iter().any(|file| calls(&file.text, owner, function)) {
                let refused = check(top, &name)?.refused;
                if refused.is_some() {
                    return Ok(refused);
                }
            }
        }
        Ok(None)
    }

    /// The law alone has to be proved as long as the contract stands, so that it is the weaker contract that it fails by.
    fn refused(&self, copies: &Copies, base: &Path) -> Result<Outcome, String> {
        let top = copies.copy(base, "trial")?;
        if self.law.owner == self.reader {
            return self.refused_at_home(&top);
        }
        self.leave_alone(&top)?;
        if let Some(refused) = check(&top, self.reader)?.refused {
            return Err(format!("not proved as it stands: {}", refused.error));
        }
        let (in_crate, weakened) = self.weaken_all(&top)?;
        let law = self.law_refused(check(&top, self.reader)?)?;
        let caller = match in_crate {
            Some(refused) => Some(refused),
            None => self.caller_refused(&top, base)?,
        };
        Ok(Outcome {
            law,
            caller,
            weakened,
        })
    }

    /// A line for the trial.
    fn line(&self, outcome: &Result<Outcome, String>) -> String {
        let begin = format!("{}, law {}", self.function(), self.law.name);
        match outcome {
            Err(error) => format!("{begin}: {error}"),
            Ok(outcome) => {
                let caller = match &outcome.caller {
                    Some(refused) => format!("; caller refused: {}", refused.error),
                    None => String::new(),
                };
                let weakened = match &outcome.weakened[..] {
                    [] => String::new(),
                    callers => format!("; weakened too: {}", callers.join(", ")),
                };
                format!("{begin}: refused: {}{caller}{weakened}", outcome.law.error)
            }
        }
    }
}

fn try_all(top: &Path, crates: &[&str]) -> Result<bool, String> {
    let trials = trials(top, crates)?;
    let copies = Copies::new()?;
    let base = copies.copy(top, "base")?;
    for reader in READERS {
        if let Some(refused) = check(&base, reader)?.refused {
            return Err(format!("not proved as it stands: {}", refused.error));
        }
    }
    let begin = Instant::now();
    let mut count = 0;
    for trial in &trials {
        let begin = Instant::now();
        let outcome = trial.refused(&copies, &base);
        let seconds = begin.elapsed().as_secs();
        println!("{} ({seconds} s)", trial.line(&outcome));
        count += usize::from(outcome.is_ok());
    }
    let (all, minutes) = (trials.len(), begin.elapsed().as_secs().div_ceil(60));
    println!("{count} of {all} weakened contracts refused by their laws, {minutes} minutes");
    Ok(count == all)
}

/// The exit status: 0, or 1 if a law holds of a weakened contract, or something could not be tried.
pub fn try_weakened(crates: &[&str]) -> u8 {
    let is_refused = try_all(Path::new("."), crates).unwrap_or_else(|error| {
        println!("{error}");
        false
    });
    u8::from(!is_refused)
}
