//! Random runs of rehearse, with what it has to print and with what the watch saw.

use crate::commands::outcomes::{Tally, RUNS};
use crate::commands::rehearsal::Rehearsal;
use crate::commands::watch::{Objection, Record};
use crate::programs::output::{hex, printed, Answered};
use crate::programs::rehearse_lines::{answer, begin, LONGEST_LINE};
use crate::random::calls::{
    arrivals_within_rates, random_flow, random_node, random_number, random_slot_number,
};
use crate::random::damage::random_plan;
use crate::random::generator::Random;
use crate::random::sites::site_to_alter;
use crate::second::bytes::END;
use crate::second::rules::{Site, FLOW_NUMBERS};
use crate::second::words::words;
use std::fmt;

pub struct Run {
    pub plan: Vec<u8>,
    /// The line printed for the plan.
    pub first: String,
    pub lines: Vec<Answered>,
    pub record: Record,
    pub objection: Option<Objection>,
}

impl Run {
    /// The last line has no newline, but it may be empty.
    pub fn input(&self) -> String {
        let lines: Vec<&str> = self.lines.iter().map(|line| line.line.as_str()).collect();
        lines.join("\n")
    }

    /// The plan and the lines, for a report.
    pub fn shown(&self) -> String {
        format!("plan{}\n{}\n", hex(&self.plan), self.input())
    }

    pub fn expected(&self) -> String {
        format!("{}{}", self.first, printed(&self.lines))
    }
}

/// Runs one after the other, with what was met in all of them.
pub struct Runs {
    tally: Tally,
    record: Record,
}

impl Runs {
    pub fn new() -> Runs {
        Runs {
            tally: Tally::new("lines of rehearse", RUNS),
            record: Record::default(),
        }
    }

    /// One run more. The error is what the watch objects to in it.
    pub fn add(&mut self, random: &mut Random) -> Result<Run, String> {
        let run = random_run(random);
        run.lines.iter().for_each(|line| self.tally.count(line));
        self.record.add(&run.record);
        match run.objection {
            Some(objection) => Err(format!("{objection}\ninput:\n{}", run.shown())),
            None => Ok(run),
        }
    }
}

impl fmt::Display for Runs {
    fn fmt(&self, form: &mut fmt::Formatter) -> fmt::Result {
        write!(form, "{}watched:\n{}", self.tally, self.record)
    }
}

/// How many packets come.
#[derive(Clone, Copy)]
enum Traffic {
    AtRate,
    UpToRate,
    /// One of the flows sends one packet, in a few of the slots.
    Lone,
}

const TRAFFIC: [Traffic; 3] = [Traffic::AtRate, Traffic::UpToRate, Traffic::Lone];

fn random_run(random: &mut Random) -> Run {
    let plan = plan_to_rehearse(random);
    run_on(random, plan)
}

fn run_on(random: &mut Random, plan: Vec<u8>) -> Run {
    let (first, rehearsal) = begin(&plan);
    let mut run = Run {
        plan,
        first,
        lines: Vec::new(),
        record: Record::default(),
        objection: None,
    };
    if let Some(rehearsal) = rehearsal {
        let mut script = Script::new(random, rehearsal);
        script.write();
        run.record = script.rehearsal.watch.close();
        run.objection = script.rehearsal.watch.objections.first().copied();
        run.lines = script.lines;
    } else {
        run.lines.push(unanswered("start"));
    }
    run
}

/// rehearse ends after a refused plan.
fn unanswered(line: &str) -> Answered {
    Answered {
        line: line.to_string(),
        answer: String::new(),
    }
}

/// Mostly a plan with a flow whose bound is short enough to be met in a run; a few that are refused, and a few of END alone.
fn plan_to_rehearse(random: &mut Random) -> Vec<u8> {
    if random.chance(5) {
        return random_plan(random);
    }
    if random.chance(6) {
        return vec![END];
    }
    loop {
        let (plan, site) = site_to_alter(random);
        let short = |flow: usize| site.bound(flow) <= 24;
        if site.live_flows().into_iter().any(short) || random.chance(4) {
            return plan;
        }
    }
}

/// A run while its lines are written.
struct Script<'a> {
    random: &'a mut Random,
    rehearsal: Rehearsal,
    /// The number of the next slot.
    next: u32,
    traffic: Traffic,
    lines: Vec<Answered>,
}

impl Script<'_> {
    fn new(random: &mut Random, rehearsal: Rehearsal) -> Script<'_> {
        let traffic = random.pick(&TRAFFIC);
        let mut script = Script {
            random,
            rehearsal,
            next: 0,
            traffic,
            lines: Vec::new(),
        };
        script.next = script.first_number();
        script
    }

    /// Often a small number, or one from which the numbers wrap.
    fn first_number(&mut self) -> u32 {
        let any = random_slot_number(self.random) as u32;
        let near_the_end = u32::MAX - self.random.between(0, 60) as u32;
        self.random.pick(&[0, any % 100, any, near_the_end])
    }

    fn site(&self) -> &Site {
        &self.rehearsal.site
    }

    /// The number after an accepted slot is the next one. A refused slot counts as none.
    fn add(&mut self, line: String) {
        let line = respaced(self.random, line);
        let answer = answer(&mut self.rehearsal, line.as_bytes());
        if let ["slot", number, ..] = words(&line)[..] {
            if answer == "accepted\n" {
                let number: u32 = number.parse().expect("an accepted slot has a number");
                self.next = number.wrapping_add(1);
            }
        }
        self.lines.push(Answered { line, answer });
    }

    fn write(&mut self) {
        for _ in 0..self.random.between(20, 90) {
            match self.random.between(0, 99) {
                0..=69 => self.slot_in_sequence(),
                70 => self.slot_above_the_rate(),
                71 => self.new_beginning(),
                72..=73 => self.slot_for_any_number(),
                74..=79 => self.change(),
                80..=95 => self.question(),
                _ => self.odd_line(),
            }
        }
        for flow in self.site().live_flows().into_iter().take(4) {
            self.add(format!("cells {flow}"));
        }
        if self.random.chance(50) {
            self.add(String::new());
        }
    }

    fn arrivals(&mut self) -> Vec<u16> {
        let site = &self.rehearsal.site;
        let live = site.live_flows();
        let mut arrivals = vec![0; FLOW_NUMBERS];
        match self.traffic {
            Traffic::UpToRate => return arrivals_within_rates(self.random, site),
            Traffic::AtRate => {
                live.iter()
                    .for_each(|&flow| arrivals[flow] = site.rates[flow] as u16);
            }
            Traffic::Lone if !live.is_empty() && self.random.chance(20) => {
                arrivals[self.random.pick(&live)] = 1;
            }
            Traffic::Lone => {}
        }
        arrivals
    }

    fn slot_line(&self, arrivals: &[u16]) -> String {
        let coming = arrivals.iter().enumerate().filter(|(_, &count)| count > 0);
        let pairs: String = coming
            .map(|(flow, count)| format!(" {flow}={count}"))
            .collect();
        format!("slot {}{pairs}", self.next)
    }

    fn slot(&mut self, arrivals: &[u16]) {
        self.add(self.slot_line(arrivals));
    }

    fn slot_in_sequence(&mut self) {
        let arrivals = self.arrivals();
        self.slot(&arrivals);
    }

    fn slot_above_the_rate(&mut self) {
        let mut arrivals = self.arrivals();
        if let Some(&flow) = self.site().live_flows().first() {
            arrivals[flow] = self
                .random
                .pick(&[self.site().rates[flow] as u16 + 1, u16::MAX]);
        }
        self.slot(&arrivals);
    }

    fn slot_for_any_number(&mut self) {
        let mut arrivals = self.arrivals();
        arrivals[self.random.index(FLOW_NUMBERS)] = 1;
        self.slot(&arrivals);
    }

    /// Other traffic, and mostly a start; the numbers go on or begin anew.
    fn new_beginning(&mut self) {
        self.traffic = self.random.pick(&TRAFFIC);
        if self.random.chance(80) {
            self.add("start".to_string());
        }
        if self.random.chance(50) {
            self.next = self.first_number();
        }
    }

    fn change(&mut self) {
        let site = &self.rehearsal.site;
        let line = if self.random.chance(60) {
            let flow = random_flow(self.random, site);
            let (number, entry) = (flow.number, flow.entry);
            format!("admit {number} {entry} {} {}", flow.rate, flow.deadline)
        } else {
            let number = random_number(self.random, &site.live_flows(), &site.numbers_not_live());
            format!("release {number}")
        };
        self.add(line);
    }

    fn question(&mut self) {
        let site = &self.rehearsal.site;
        let flow = random_number(self.random, &site.live_flows(), &site.numbers_not_live());
        let flow = flow % FLOW_NUMBERS;
        let line = match self.random.between(0, 16) {
            0..=5 => format!("cells {flow}"),
            6..=8 => format!("bound {flow}"),
            9..=12 => {
                let node = random_node(self.random, site);
                let above_the_links = site.links as usize + 1;
                let parent = self.random.pick(&[0, 0, node, node, node, above_the_links]);
                format!("sender {parent} {}", random_slot_number(self.random))
            }
            13 => "plan".to_string(),
            14 => "schedule".to_string(),
            15 => "typed".to_string(),
            _ => "show".to_string(),
        };
        self.add(line);
    }

    /// A line that is no call, one that is passed over, or an unusual form of a call.
    fn odd_line(&mut self) {
        let arrivals = self.arrivals();
        let slot = self.slot_line(&arrivals);
        let lines = [
            "start",
            "cells 0",
            "bound 63",
            "sender 0 5",
            "plan",
            "release 0",
        ];
        let other = self.random.pick(&lines);
        let usual = self.random.pick(&[slot.as_str(), slot.as_str(), other]);
        let line = odd_form(self.random, usual.to_string());
        self.add(line);
    }
}

/// In some of the lines tabs and carriage returns among the spaces, or behind the last word.
fn respaced(random: &mut Random, line: String) -> String {
    if random.chance(80) {
        return line;
    }
    let mut respaced = String::new();
    for (index, word) in line.split(' ').enumerate() {
        if index > 0 {
            respaced += random.pick(&[" ", " ", "\t", "\r", "\t \r"]);
        }
        respaced += word;
    }
    respaced + random.pick(&["", "", "\r", "\t"])
}

/// Lines with an operand just beyond its limit.
const BEYOND: [&str; 10] = [
    "slot 4294967296",
    "slot 0 64=1",
    "slot 0 0=65536",
    "admit 256 1 1 1",
    "admit 0 1 256 1",
    "admit 0 1 1 65536",
    "release 256",
    "sender 256 0",
    "cells 64",
    "bound 64",
];

fn odd_form(random: &mut Random, mut line: String) -> String {
    let place = random.index(line.len());
    let sign = random.pick(&['0', '1', '=', '#', ' ', 'x', '-', '\t', '\r']);
    let last = line.rsplit(' ').next().unwrap_or_default().to_string();
    match random.between(0, 13) {
        0..=1 => line.insert(place, sign),
        2..=3 => line.replace_range(place..=place, &sign.to_string()),
        4 => line.truncate(place),
        5 => line = format!("{line} {last}"),
        6 => line = format!("  {}  ", line.replace(' ', "   000")),
        7 => line.clear(),
        8 => line.insert(0, '#'),
        9 => line = format!("{line:LONGEST_LINE$}"),
        10 => line = format!("{line:>width$}", width = LONGEST_LINE + 1),
        11 => line = "#".repeat(LONGEST_LINE + random.index(2)),
        _ => line = random.pick(&BEYOND).to_string(),
    }
    line
}

#[cfg(test)]
mod tests {
    use super::*;
    use crate::commands::outcomes::RUNS_WITHOUT_LINKS;
    use crate::programs::rehearse_lines::rehearse;
    use crate::second::bytes::read_plan;
    use crate::second::former::read_formerly;

    #[test]
    fn random_runs_meet_every_outcome_and_both_bounds() {
        let mut random = Random::from_seed(10);
        let mut runs = Runs::new();
        for _ in 0..600 {
            assert_eq!(runs.add(&mut random).err(), None);
        }
        let (tally, record) = (runs.tally, runs.record);
        assert!(tally.all_reach(10), "{tally}");
        assert!(record.flows_at_bound >= 100, "{record}");
        assert!(record.flows_full >= 100, "{record}");
        assert!(record.broken >= 100, "{record}");
    }

    /// 02, U2: a flow admitted thanks to periods has every packet through within G. The watch does not object to any.
    #[test]
    fn many_runs_have_plans_that_wanted_gaps_would_refuse() {
        let (mut random, mut record, mut plans) = (Random::from_seed(35), Record::default(), 0);
        for _ in 0..300 {
            let run = random_run(&mut random);
            assert_eq!(run.objection, None);
            if read_plan(&run.plan).is_ok() && read_formerly(&run.plan).is_err() {
                record.add(&run.record);
                plans += 1;
            }
        }
        assert!(
            plans >= 50 && record.flows_at_bound >= 50,
            "{plans} {record}"
        );
    }

    #[test]
    fn random_runs_meet_every_outcome_without_links() {
        let mut random = Random::from_seed(38);
        let plans: Vec<_> = (0..1000).map(|_| plan_to_rehearse(&mut random)).collect();
        let alone = plans.iter().filter(|&plan| *plan == [END]).count();
        assert!(alone >= 40, "{alone}");
        let mut tally = Tally::new("", RUNS_WITHOUT_LINKS);
        for _ in 0..100 {
            let run = run_on(&mut random, vec![END]);
            assert_eq!(run.objection, None);
            run.lines.iter().for_each(|line| tally.count(line));
        }
        assert!(tally.all_reach(3), "{tally}");
    }

    #[test]
    fn many_calls_have_tabs_and_carriage_returns() {
        let mut random = Random::from_seed(45);
        let runs = (0..100).map(|_| random_run(&mut random));
        let lines: Vec<Answered> = runs.flat_map(|run| run.lines).collect();
        for sign in ["\t", "\r"] {
            let answers = ["accepted", "refused", "cells", "bound", "sender", "error"];
            for begin in answers {
                let spaced = lines.iter().filter(|line| line.line.contains(sign));
                let met = spaced.filter(|line| line.answer.starts_with(begin));
                assert!(met.count() >= 5, "{sign:?} {begin}");
            }
        }
    }

    #[test]
    fn a_run_is_what_rehearse_prints_for_its_input() {
        let mut random = Random::from_seed(11);
        for _ in 0..60 {
            let run = random_run(&mut random);
            let (output, _) = rehearse(Some(&run.plan), run.input().as_bytes());
            assert_eq!(output, run.expected());
        }
    }
}
