//! The compiled programs against this implementation, on random inputs.

use crate::commands::compare_typed::Typed;
use crate::commands::outcomes::{Tally, CALLS, GAP_LISTS, PLANS, SCHEDULES, SITES};
use crate::programs::chart::compare_picture;
use crate::programs::lines::first_difference;
use crate::programs::names::{
    CALL_LINES, CHART, GAP_LINES, PLAN_LINES, READ_SCHEDULE, REHEARSE, SCHEDULE_LINES, SITE_LINES,
    SLOTPLAN,
};
use crate::programs::output::{answered_lines, hex, printed, slotplan};
use crate::programs::rehearse_lines::{cannot_open, USAGE};
use crate::programs::running::{printed_text, run, Printed};
use crate::programs::schedule_lines::readschedule;
use crate::random::calls::call_lines;
use crate::random::damage::random_plan;
use crate::random::gaps::slot_rule_line;
use crate::random::generator::Random;
use crate::random::runs::Runs;
use crate::random::schedules::schedule_lines;
use crate::random::sites::altered_lines;
use std::fs;
use std::path::{Path, PathBuf};

/// The programs that read lines hold 131,072 bytes of text.
const MOST_TEXT: usize = 65_000;

/// Input of one or more lines, and what the program has to print for it.
struct Case {
    input: String,
    expected: String,
}

/// A program that reads lines, and the cases collected for its next run.
struct Feed {
    name: &'static str,
    program: PathBuf,
    cases: Vec<Case>,
    tally: Tally,
}

impl Feed {
    fn new(name: &'static str, folder: &Path, tally: Tally) -> Feed {
        Feed {
            name,
            program: folder.join(name),
            cases: Vec::new(),
            tally,
        }
    }

    fn add(&mut self, input: String) -> Result<(), String> {
        let waiting: usize = self.cases.iter().map(|case| case.input.len()).sum();
        if waiting + input.len() > MOST_TEXT {
            self.run()?;
        }
        let lines = answered_lines(self.name, input.as_bytes())?;
        lines.iter().for_each(|line| self.tally.count(line));
        let expected = printed(&lines);
        self.cases.push(Case { input, expected });
        Ok(())
    }

    fn run(&mut self) -> Result<(), String> {
        let cases = std::mem::take(&mut self.cases);
        let text = inputs(&cases);
        compare(&self.program, &[], text.as_bytes(), &cases)
    }
}

fn compare(
    program: &Path,
    arguments: &[&Path],
    input: &[u8],
    cases: &[Case],
) -> Result<(), String> {
    let name = program.display();
    let with_input = |what: String, input: &str| format!("{name}: {what}\ninput:\n{input}");
    let output = printed_text(program, arguments, input);
    let output = output.map_err(|error| with_input(error, &inputs(cases)))?;
    let mut rest = output.as_str();
    for case in cases {
        let lines = case.expected.matches('\n').count();
        let (of_case, after) = rest.split_at(end_of_lines(rest, lines));
        if let Some(difference) = first_difference(of_case, &case.expected) {
            return Err(with_input(difference, &case.input));
        }
        rest = after;
    }
    match first_difference(rest, "") {
        None => Ok(()),
        Some(more) => {
            let what = format!("more than all answers, {more}");
            Err(with_input(what, &inputs(cases)))
        }
    }
}

fn inputs(cases: &[Case]) -> String {
    cases.iter().map(|case| case.input.as_str()).collect()
}

/// Where the given number of lines ends, or the text if it has fewer.
fn end_of_lines(text: &str, lines: usize) -> usize {
    text.split_inclusive('\n').take(lines).map(str::len).sum()
}

/// slotplan and listing read one plan and readschedule one schedule file, so they are run for each.
pub fn compare_one(program: &Path, file: &[u8], expected: String) -> Result<(), String> {
    let case = Case {
        input: format!("{}\n", hex(file).trim_start()),
        expected,
    };
    compare(program, &[], file, &[case])
}

/// Standard output and standard error of a program, both in full. With a difference come the lines of the input, escaped.
pub fn compare_both(
    program: &Path,
    arguments: &[&Path],
    input: &[u8],
    expected: &Printed,
) -> Result<(), String> {
    let difference = match run(program, arguments, input) {
        Ok(printed) => printed.difference(expected),
        Err(error) => Some(error),
    };
    match difference {
        None => Ok(()),
        Some(what) => {
            let lines = input.split_inclusive(|&byte| byte == b'\n');
            let lines = lines.map(|line| format!("{}\n", line.escape_ascii()));
            let input: String = lines.collect();
            Err(format!("{}: {what}\ninput:\n{input}", program.display()))
        }
    }
}

/// rehearse, which reads its plan from a file, so it is started for each run.
struct Rehearse {
    program: PathBuf,
    plan: PathBuf,
    runs: Runs,
}

impl Rehearse {
    fn new(folder: &Path) -> Rehearse {
        let plan = format!("host_random_plan_{}", std::process::id());
        Rehearse {
            program: folder.join(REHEARSE),
            plan: std::env::temp_dir().join(plan),
            runs: Runs::new(),
        }
    }

    /// As long as the file of the plan is not written, there is none.
    fn compare_without_plan(&self) -> Result<(), String> {
        let missing = cannot_open(&self.plan);
        let runs: [(&[&Path], &str); 2] = [(&[], USAGE), (&[&self.plan], &missing)];
        for (arguments, told) in runs {
            let expected = Printed::told(told);
            compare_both(&self.program, arguments, b"start\n", &expected)?;
        }
        Ok(())
    }

    fn compare(&mut self, random: &mut Random) -> Result<(), String> {
        let run = self.runs.add(random)?;
        fs::write(&self.plan, &run.plan).map_err(|error| error.to_string())?;
        let case = Case {
            input: run.shown(),
            expected: run.expected(),
        };
        let input = run.input();
        compare(&self.program, &[&self.plan], input.as_bytes(), &[case])
    }
}

impl Drop for Rehearse {
    /// The file is missing if no run was compared, and then there is nothing to remove.
    fn drop(&mut self) {
        let _ = fs::remove_file(&self.plan);
    }
}

struct Comparison {
    slotplan: PathBuf,
    chart: PathBuf,
    readschedule: PathBuf,
    vectors: Feed,
    altered: Feed,
    gap_lists: Feed,
    calls: Feed,
    schedules: Feed,
    rehearse: Rehearse,
    typed: Typed,
}

impl Comparison {
    fn new(folder: &Path) -> Comparison {
        let feed = |name, heading, calls| Feed::new(name, folder, Tally::new(heading, calls));
        Comparison {
            slotplan: folder.join(SLOTPLAN),
            chart: folder.join(CHART),
            readschedule: folder.join(READ_SCHEDULE),
            vectors: feed(PLAN_LINES, "plans", PLANS),
            altered: feed(SITE_LINES, "altered sites", SITES),
            gap_lists: feed(GAP_LINES, "gap lists", GAP_LISTS),
            calls: feed(CALL_LINES, "calls", CALLS),
            schedules: feed(SCHEDULE_LINES, "schedules", SCHEDULES),
            rehearse: Rehearse::new(folder),
            typed: Typed::new(folder),
        }
    }

    fn feeds(&self) -> [&Feed; 5] {
        [
            &self.vectors,
            &self.altered,
            &self.gap_lists,
            &self.calls,
            &self.schedules,
        ]
    }

    fn missing(&self) -> Vec<&Path> {
        let programs = self.feeds().map(|feed| feed.program.as_path());
        let others = [
            &self.slotplan,
            &self.chart,
            &self.readschedule,
            &self.rehearse.program,
        ];
        let all = others.map(PathBuf::as_path).into_iter().chain(programs);
        let all = all.chain(self.typed.programs());
        all.filter(|program| !program.is_file()).collect()
    }

    fn run(&mut self, count: u64, random: &mut Random) -> Result<(), String> {
        self.rehearse.compare_without_plan()?;
        for _ in 0..count {
            let plan = random_plan(random);
            self.vectors.add(format!("{}\n", hex(&plan).trim_start()))?;
            compare_one(&self.slotplan, &plan, slotplan(&plan))?;
            compare_picture(&self.chart, &plan)?;
            self.altered.add(altered_lines(random))?;
            self.gap_lists.add(slot_rule_line(random))?;
            self.calls.add(call_lines(random))?;
            self.compare_schedules(random)?;
            self.rehearse.compare(random)?;
            self.typed.compare(random, &plan)?;
        }
        self.vectors.run()?;
        self.altered.run()?;
        self.gap_lists.run()?;
        self.calls.run()?;
        self.schedules.run()
    }

    fn compare_schedules(&mut self, random: &mut Random) -> Result<(), String> {
        let (file, lines) = schedule_lines(random);
        compare_one(&self.readschedule, &file, readschedule(&file))?;
        self.schedules.add(lines)
    }

    fn print_counts(&self) {
        for feed in self.feeds() {
            print!("{}", feed.tally);
        }
        print!("{}", self.typed.tally);
        print!("{}", self.rehearse.runs);
    }
}

/// Prints the result, the last line of a command. The exit status: 0 without a difference, 1 with one.
pub fn status_of(result: Result<(), String>, without: &str) -> u8 {
    match result {
        Ok(()) => {
            println!("{without}");
            0
        }
        Err(difference) => {
            println!("{difference}");
            1
        }
    }
}

/// The exit status: 0 without a difference, 1 with one, 2 if a program is not there.
pub fn compare_random(count: u64, seed: u64, folder: &Path) -> u8 {
    let mut comparison = Comparison::new(folder);
    let missing = comparison.missing();
    for program in &missing {
        let name = program.file_name().unwrap_or_default().to_string_lossy();
        println!(
            "no {}: `tools/programs.sh {name}` builds it",
            program.display()
        );
    }
    if !missing.is_empty() {
        return 2;
    }
    let result = comparison.run(count, &mut Random::from_seed(seed));
    comparison.print_counts();
    println!("seed {seed}, {count} random plans");
    status_of(result, "no difference")
}

/// Random runs of this implementation alone. The exit status: 0, or 1 if the watch objects.
pub fn watch_random(count: u64, seed: u64) -> u8 {
    let (mut runs, mut random) = (Runs::new(), Random::from_seed(seed));
    let result = (0..count).try_for_each(|_| runs.add(&mut random).map(drop));
    print!("{runs}");
    println!("seed {seed}, {count} random runs");
    status_of(result, "no objection")
}

#[cfg(test)]
mod tests {
    use super::*;
    use crate::commands::outcomes::CALLS_WITHOUT_LINKS;
    use crate::programs::output::Answered;
    use crate::random::calls::call_lines_on;
    use crate::repository::built::built_programs;
    use crate::second::bytes::{read_plan, END};

    /// These take a few seconds once the programs are built.
    const RANDOM_PLANS: u64 = 300;

    /// The command `random`, with fewer plans.
    #[test]
    fn built_programs_answer_random_inputs_alike() {
        let mut comparison = Comparison::new(&built_programs());
        assert_eq!(comparison.missing(), [""; 0].map(Path::new));
        let result = comparison.run(RANDOM_PLANS, &mut Random::from_seed(48));
        assert!(result.is_ok(), "{}", result.unwrap_err());
    }

    #[test]
    fn random_plans_meet_every_outcome() {
        let mut random = Random::from_seed(3);
        let mut tally = Tally::new("", PLANS);
        for _ in 0..3000 {
            let output = slotplan(&random_plan(&mut random));
            let answer = output.lines().last().unwrap_or_default().to_string();
            tally.count(&Answered {
                line: String::new(),
                answer,
            });
        }
        assert!(tally.all_reach(3), "{tally}");
    }

    #[test]
    fn random_calls_meet_every_outcome() {
        let mut random = Random::from_seed(5);
        let mut tally = Tally::new("", CALLS);
        for _ in 0..600 {
            let lines = call_lines(&mut random);
            let lines = answered_lines(CALL_LINES, lines.as_bytes()).unwrap();
            lines.iter().for_each(|line| tally.count(line));
        }
        assert!(tally.all_reach(10), "{tally}");
    }

    #[test]
    fn random_calls_meet_every_outcome_without_links() {
        let mut random = Random::from_seed(39);
        let mut tally = Tally::new("", CALLS_WITHOUT_LINKS);
        for _ in 0..600 {
            let lines = call_lines_on(&mut random, &[END]);
            let lines = answered_lines(CALL_LINES, lines.as_bytes()).unwrap();
            lines.iter().for_each(|line| tally.count(line));
        }
        assert!(tally.all_reach(3), "{tally}");
    }

    #[test]
    fn random_altered_sites_meet_every_outcome() {
        let mut random = Random::from_seed(40);
        let mut tally = Tally::new("", SITES);
        for _ in 0..600 {
            let lines = altered_lines(&mut random);
            let lines = answered_lines(SITE_LINES, lines.as_bytes()).unwrap();
            lines.iter().for_each(|line| tally.count(line));
        }
        assert!(tally.all_reach(10), "{tally}");
    }

    #[test]
    fn random_schedules_meet_every_outcome() {
        let mut random = Random::from_seed(6);
        let mut tally = Tally::new("", SCHEDULES);
        for _ in 0..2000 {
            let (_, lines) = schedule_lines(&mut random);
            let lines = answered_lines(SCHEDULE_LINES, lines.as_bytes()).unwrap();
            lines.iter().for_each(|line| tally.count(line));
        }
        assert!(tally.all_reach(10), "{tally}");
    }

    #[test]
    fn accepted_plans_reach_the_limits() {
        let mut random = Random::from_seed(4);
        let plans: Vec<Vec<u8>> = (0..3000).map(|_| random_plan(&mut random)).collect();
        let sites: Vec<_> = plans
            .iter()
            .filter_map(|plan| read_plan(plan).ok())
            .collect();
        assert!(sites.iter().any(|site| site.links == 63));
        assert!(sites.iter().any(|site| site.live_flows().len() == 64));
        assert!(sites
            .iter()
            .any(|site| site.offsets.iter().any(|&offset| offset >= 256)));
        assert!(sites.iter().any(|site| site.periods.contains(&1024)));
        let deep = |site: &crate::second::rules::Site| {
            site.nodes().iter().any(|&node| site.depth(node) == 8)
        };
        assert!(sites.iter().any(deep));
    }

    #[test]
    fn a_difference_names_the_input_of_its_line() {
        let case = |input: &str, expected: &str| Case {
            input: input.to_string(),
            expected: expected.to_string(),
        };
        let echo = Path::new("/bin/cat");
        let cases = [case("first\n", "a\nb\n"), case("second\n", "c\n")];
        assert_eq!(compare(echo, &[], b"a\nb\nc\n", &cases), Ok(()));
        let wrong = compare(echo, &[], b"a\nb\nd\n", &cases).unwrap_err();
        assert!(wrong.ends_with("second\n"), "{wrong}");
        let short = compare(echo, &[], b"a\n", &cases).unwrap_err();
        assert!(short.ends_with("first\n"), "{short}");
        assert!(compare(echo, &[], b"a\nb\nc\nd\n", &cases).is_err());
    }
}
