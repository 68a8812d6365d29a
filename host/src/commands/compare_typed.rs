//! assemble and listing against this implementation, and one after the other.

use crate::commands::compare::{compare_both, compare_one};
use crate::commands::outcomes::{Tally, TEXTS};
use crate::programs::names::{ASSEMBLE, LISTING};
use crate::programs::output::Answered;
use crate::programs::running::Printed;
use crate::random::generator::Random;
use crate::random::typed::random_text;
use crate::second::bytes::read_plan;
use crate::second::typed::{assemble, listing};
use std::path::{Path, PathBuf};

pub struct Typed {
    assemble: PathBuf,
    listing: PathBuf,
    pub tally: Tally,
}

impl Typed {
    pub fn new(folder: &Path) -> Typed {
        Typed {
            assemble: folder.join(ASSEMBLE),
            listing: folder.join(LISTING),
            tally: Tally::new("texts", TEXTS),
        }
    }

    pub fn programs(&self) -> [&Path; 2] {
        [&self.assemble, &self.listing]
    }

    /// A text, and the plan in lines.
    pub fn compare(&mut self, random: &mut Random, plan: &[u8]) -> Result<(), String> {
        let text = random_text(random);
        let assembled = assemble(&text);
        self.tally.count(&outcome(&assembled));
        self.compare_assembled(&text, assembled)?;
        self.compare_listed(plan)
    }

    fn compare_assembled(
        &self,
        text: &[u8],
        assembled: Result<Vec<u8>, String>,
    ) -> Result<(), String> {
        let expected = match assembled {
            Ok(out) => Printed {
                out,
                err: String::new(),
            },
            Err(told) => Printed::told(&told),
        };
        compare_both(&self.assemble, &[], text, &expected)
    }

    /// What listing printed has to give the plan again.
    fn compare_listed(&self, plan: &[u8]) -> Result<(), String> {
        let listed = listing(plan);
        compare_one(&self.listing, plan, listed.clone())?;
        if read_plan(plan).is_err() {
            return Ok(());
        }
        self.compare_assembled(listed.as_bytes(), Ok(plan.to_vec()))
    }
}

/// What a tally counts of a text: what is told of it but for the number of the line, or that it was assembled.
pub fn outcome(assembled: &Result<Vec<u8>, String>) -> Answered {
    let answer = match assembled {
        Ok(_) => "assembled",
        Err(told) => told.split_once(": ").map_or("", |(_, what)| what),
    };
    Answered {
        line: String::new(),
        answer: answer.to_string(),
    }
}
