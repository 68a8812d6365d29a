//! Answers counted by call and outcome.

use crate::programs::output::Answered;
use std::fmt;

/// The lines of one call, with what their answers begin with if they are no refusals, and the numbers that may refuse it.
pub struct Call {
    /// What its lines begin with: every line begins with the empty text.
    begins: &'static str,
    name: &'static str,
    answers: &'static [&'static str],
    refusals: &'static [u64],
}

const fn call(
    [begins, name]: [&'static str; 2],
    answers: &'static [&'static str],
    refusals: &'static [u64],
) -> Call {
    Call {
        begins,
        name,
        answers,
        refusals,
    }
}

const ACCEPTED: &[&str] = &["accepted"];

/// END alone, the plan or schedule file without links, is counted once more.
const ACCEPTED_WITHOUT_LINKS: &[&str] = &["accepted", "accepted links 0 "];

pub const PLANS: &[Call] = &[call(
    ["", ""],
    ACCEPTED_WITHOUT_LINKS,
    &[2, 3, 4, 5, 6, 7, 8, 10, 11, 12, 13],
)];
pub const SITES: &[Call] = &[call(
    ["", ""],
    &["passes", "passes, plan 1: FF", "does not pass"],
    &[],
)];
pub const GAP_LISTS: &[Call] = &[call(["", ""], &["base"], &[1, 5, 11])];

/// The calls of test_calls.
pub const CALLS: &[Call] = &[
    call(["A", "admission "], ACCEPTED, &[1, 14, 5, 6, 15, 17, 18]),
    call(["R", "release "], ACCEPTED, &[1, 14, 5, 16]),
    call(["L", "lookup "], &["sender"], &[14, 6]),
    call(["T", "start "], ACCEPTED, &[1, 14]),
    call(["S", "slot "], ACCEPTED, &[1, 14, 19, 20]),
];

/// The lines of test_schedules: a schedule file, or a changed schedule that is written into at most 64 bytes.
pub const SCHEDULES: &[Call] = &[
    call(["", ""], ACCEPTED_WITHOUT_LINKS, &[2, 3, 21, 22, 10]),
    call(
        ["W", ""],
        &[
            "schedule 1:",
            "schedule 7:",
            "schedule 13:",
            "schedule 19:",
            "schedule 25:",
            "schedule 31:",
            "schedule 37:",
            "schedule 43:",
            "schedule 49:",
            "schedule 55:",
            "schedule 61:",
            "schedule refused 14 0:",
            "schedule refused 1 0:",
        ],
        &[],
    ),
];

/// A text for assemble, by what is told of it.
pub const TEXTS: &[Call] = &[call(
    ["", ""],
    &[
        "assembled",
        "neither node nor flow",
        "PARENT must be a number from 0 to 255",
        "CAPACITY must be a number from 0 to 65535",
        "GAP must be a number from 0 to 65535",
        "NUMBER must be a number from 0 to 255",
        "NODE must be a number from 0 to 255",
        "RATE must be a number from 0 to 255",
        "DEADLINE must be a number from 0 to 65535",
        "a word too many",
        "more than 65535 bytes",
    ],
    &[],
)];

/// The calls of test_calls on the site without links, or while it is altered.
#[cfg(test)]
pub const CALLS_WITHOUT_LINKS: &[Call] = &[
    call(["A", "admission "], &[], &[1, 14, 5, 6]),
    call(["R", "release "], &[], &[1, 14, 5, 16]),
    call(["L", "lookup "], &["sender 0"], &[14, 6]),
    call(["T", "start "], ACCEPTED, &[1, 14]),
    call(["S", "slot "], ACCEPTED, &[1, 14, 20]),
];

/// The calls of rehearse. Its site passes check 14, and it lends lists of the right lengths.
pub const RUNS: &[Call] = &[
    call(["start", "start "], ACCEPTED, &[]),
    call(["slot", "slot "], ACCEPTED, &[20]),
    call(["admit", "admission "], ACCEPTED, &[5, 6, 15, 17, 18]),
    call(["release", "release "], ACCEPTED, &[5, 16]),
    call(["sender", "lookup "], &["sender"], &[6]),
    call(["cells", ""], &["cells"], &[]),
    call(["bound", ""], &["bound", "not live"], &[]),
    call(["plan", "plan beginning "], &["01", "FF"], &[]),
    call(["schedule", "schedule beginning "], &["11", "FF"], &[]),
    call(["show", "show beginning "], &["link", "accepted"], &[]),
    call(["typed", "typed beginning "], &["node"], &[]),
    call(["", ""], &["error"], &[]),
];

/// The calls of rehearse on the plan of END alone.
#[cfg(test)]
pub const RUNS_WITHOUT_LINKS: &[Call] = &[
    call(["start", "start "], ACCEPTED, &[]),
    call(["slot", "slot "], ACCEPTED, &[20]),
    call(["admit", "admission "], &[], &[5, 6]),
    call(["release", "release "], &[], &[5, 16]),
    call(["sender", "lookup "], &["sender 0"], &[6]),
    call(["cells", ""], &["cells 0 0 0 0 0 0 0 0 0"], &[]),
    call(["bound", ""], &["not live"], &[]),
    call(["plan", "plan "], &["FF"], &[]),
    call(["schedule", "schedule "], &["FF"], &[]),
    call(["show", "show "], &["accepted links 0 flows 0"], &[]),
    call(["typed", "typed "], &[""], &[]),
    call(["", ""], &["error"], &[]),
];

/// The functions of the library, with the checks that the header lists for each.
pub const FUNCTIONS: &[Call] = &[
    call(
        ["read_plan", "read_plan "],
        ACCEPTED,
        &[2, 3, 4, 5, 6, 7, 8, 10, 11, 12, 13],
    ),
    call(
        ["schedule", "schedule "],
        ACCEPTED,
        &[2, 3, 4, 5, 6, 7, 8, 10, 11, 12, 13, 1],
    ),
    call(
        ["read_schedule", "read_schedule "],
        ACCEPTED,
        &[1, 2, 3, 21, 22, 10],
    ),
    call(["write_schedule", "write_schedule "], ACCEPTED, &[1, 14]),
    call(["admit", "admit "], ACCEPTED, &[1, 14, 5, 6, 15, 17, 18]),
    call(["release", "release "], ACCEPTED, &[1, 14, 5, 16]),
    call(["start", "start "], ACCEPTED, &[1, 14]),
    call(["slot", "slot "], ACCEPTED, &[1, 14, 19, 20]),
    call(["sender", "sender "], ACCEPTED, &[14, 6]),
    call(["bound", "bound "], ACCEPTED, &[14, 5, 16]),
    call(["assign", "assign "], ACCEPTED, &[1, 5, 11]),
];

/// The functions on END alone as plan or schedule file, and of a schedule without links written.
pub const FUNCTIONS_WITHOUT_LINKS: &[Call] = &[
    call(["read_plan", "read_plan "], ACCEPTED, &[]),
    call(["schedule", "schedule "], ACCEPTED, &[1]),
    call(["read_schedule", "read_schedule "], ACCEPTED, &[1]),
    call(["write_schedule", "write_schedule "], ACCEPTED, &[1, 14]),
    call(["admit", "admit "], &[], &[1, 5, 6]),
    call(["release", "release "], &[], &[1, 5, 16]),
    call(["start", "start "], ACCEPTED, &[1]),
    call(["slot", "slot "], ACCEPTED, &[1, 20]),
    call(["sender", "sender "], ACCEPTED, &[6]),
    call(["bound", "bound "], &[], &[5, 16]),
];

/// The numbers that refuse some call of the library, rising.
#[cfg(test)]
pub fn refusal_numbers() -> Vec<u64> {
    let refusals = FUNCTIONS.iter().flat_map(|call| call.refusals);
    let mut numbers: Vec<u64> = refusals.copied().collect();
    numbers.sort();
    numbers.dedup();
    numbers
}

struct Outcome {
    line_begins: &'static str,
    answer_begins: String,
    shown: String,
    count: u64,
}

impl Call {
    fn outcomes(&self) -> Vec<Outcome> {
        let outcome = |answer_begins: String, shown: String| Outcome {
            line_begins: self.begins,
            answer_begins,
            shown: format!("{}{shown}", self.name),
            count: 0,
        };
        let answers = self.answers.iter();
        let answers = answers.map(|&answer| {
            let shown = answer.trim_end_matches([' ', ':']);
            outcome(answer.to_string(), shown.to_string())
        });
        let refusals = self.refusals.iter();
        let refusals =
            refusals.map(|number| outcome(format!("refused {number} "), number.to_string()));
        answers.chain(refusals).collect()
    }
}

/// How often each outcome was met.
pub struct Tally {
    heading: &'static str,
    outcomes: Vec<Outcome>,
}

impl Tally {
    pub fn new(heading: &'static str, calls: &[Call]) -> Tally {
        Tally {
            heading,
            outcomes: calls.iter().flat_map(Call::outcomes).collect(),
        }
    }

    pub fn count(&mut self, line: &Answered) {
        for outcome in &mut self.outcomes {
            if line.line.starts_with(outcome.line_begins)
                && line.answer.starts_with(&outcome.answer_begins)
            {
                outcome.count += 1;
            }
        }
    }

    /// Whether each outcome was met this often.
    #[cfg(test)]
    pub fn all_reach(&self, least: u64) -> bool {
        self.outcomes.iter().all(|outcome| outcome.count >= least)
    }

    /// Whether each call was accepted this often.
    #[cfg(test)]
    pub fn all_accepted(&self, least: u64) -> bool {
        let mut outcomes = self.outcomes.iter();
        outcomes.all(|outcome| outcome.count >= least || outcome.answer_begins != "accepted")
    }
}

impl fmt::Display for Tally {
    fn fmt(&self, form: &mut fmt::Formatter) -> fmt::Result {
        writeln!(form, "{}:", self.heading)?;
        self.outcomes
            .iter()
            .try_for_each(|outcome| writeln!(form, "{}: {}", outcome.shown, outcome.count))
    }
}
