//! What each program prints for an input.

use crate::programs::call_lines::Desk;
use crate::programs::names::{
    CALL_LINES, GAP_LINES, LISTING, PLAN_LINES, READ_SCHEDULE, SCHEDULE_LINES, SITE_LINES, SLOTPLAN,
};
use crate::programs::schedule_lines::{readschedule, schedules_line};
use crate::second::bytes::{
    passes_check_14, read_plan, write_plan, write_schedule, written, COMMAND_LENGTH,
};
use crate::second::rules::{refused, slot_rule, Refusal, Site, OF_16_BITS, OF_8_BITS};
use crate::second::schedules::Schedule;
use crate::second::typed::listing;

/// A line of input and what is printed for it.
pub struct Answered {
    pub line: String,
    pub answer: String,
}

/// For the programs that print text. The error is about an input outside the form that the program reads.
pub fn output(program: &str, input: &[u8]) -> Result<String, String> {
    match program {
        SLOTPLAN => Ok(slotplan(input)),
        READ_SCHEDULE => Ok(readschedule(input)),
        LISTING => Ok(listing(input)),
        _ => Ok(printed(&answered_lines(program, input)?)),
    }
}

pub fn printed(lines: &[Answered]) -> String {
    lines.iter().map(|line| line.answer.as_str()).collect()
}

/// For the programs that read lines.
pub fn answered_lines(program: &str, input: &[u8]) -> Result<Vec<Answered>, String> {
    let (mut site, mut desk) = (Site::empty(), Desk::new());
    let mut schedule = Schedule::empty();
    match program {
        PLAN_LINES => each_line(input, vectors_line),
        SITE_LINES => each_line(input, |line| altered_line(&mut site, line)),
        GAP_LINES => each_line(input, slot_rule_line),
        CALL_LINES => each_line(input, |line| desk.line(line)),
        SCHEDULE_LINES => each_line(input, |line| schedules_line(&mut schedule, line)),
        _ => Err(format!("no program {program}")),
    }
}

fn each_line(
    input: &[u8],
    mut answer: impl FnMut(&str) -> Result<String, String>,
) -> Result<Vec<Answered>, String> {
    let text = std::str::from_utf8(input).map_err(|error| error.to_string())?;
    let mut lines = Vec::new();
    for line in text.split_terminator('\n') {
        let answer = if line.starts_with('#') {
            format!("{line}\n")
        } else {
            answer(line).map_err(|error| format!("{error} in line: {line}"))?
        };
        let line = line.to_string();
        lines.push(Answered { line, answer });
    }
    Ok(lines)
}

pub fn slotplan(plan: &[u8]) -> String {
    match read_plan(plan) {
        Ok(site) => links_and_flows(&site),
        Err(refusal) => format!("{}\n", refused(refusal)),
    }
}

pub fn links_and_flows(site: &Site) -> String {
    let mut output = String::new();
    for node in site.nodes() {
        let parent = site.parents[node - 1];
        let assigned = site.assign_under(parent as usize);
        let base = assigned.expect("the site was accepted").base;
        let (offset, period) = (site.offsets[node - 1], site.periods[node - 1]);
        output +=
            &format!("link {node} parent {parent} base {base} offset {offset} period {period}\n");
    }
    for flow in site.live_flows() {
        let (node, rate) = (site.entries[flow], site.rates[flow]);
        let (deadline, bound) = (site.deadlines[flow], site.bound(flow));
        output +=
            &format!("flow {flow} node {node} rate {rate} deadline {deadline} bound {bound}\n");
    }
    let (links, flows) = (site.links, site.live_flows().len());
    output + &format!("accepted links {links} flows {flows}\n")
}

pub fn verdict(answer: Result<(), Refusal>) -> String {
    answer.map_or_else(refused, |()| "accepted".to_string())
}

pub fn length_or_refusal(answer: Result<usize, Refusal>) -> String {
    answer.map_or_else(refused, |length| length.to_string())
}

/// Each byte after a space.
pub fn hex(bytes: &[u8]) -> String {
    bytes.iter().map(|byte| format!(" {byte:02X}")).collect()
}

/// Plan bytes, a line to each command.
pub fn commands_in_hex(bytes: &[u8]) -> String {
    let commands = bytes.chunks(COMMAND_LENGTH);
    commands
        .map(|command| format!("{}\n", hex(command).trim_start()))
        .collect()
}

/// Characters between the digits are passed over.
pub fn bytes_of_hex(text: &str) -> Result<Vec<u8>, String> {
    let digits: Vec<u32> = text.chars().filter_map(|sign| sign.to_digit(16)).collect();
    if digits.len() % 2 == 1 || text.contains(|sign: char| sign.is_ascii_lowercase()) {
        return Err("not pairs of upper-case hexadecimal digits".to_string());
    }
    let pairs = digits.chunks(2);
    Ok(pairs.map(|pair| (pair[0] * 16 + pair[1]) as u8).collect())
}

pub fn at_most(count: usize, most: usize, what: &str) -> Result<usize, String> {
    if count > most {
        return Err(format!("more than {most} {what}"));
    }
    Ok(count)
}

fn vectors_line(line: &str) -> Result<String, String> {
    let plan = bytes_of_hex(line)?;
    at_most(plan.len(), 2048, "bytes")?;
    let site = match read_plan(&plan) {
        Ok(site) => site,
        Err(refusal) => return Ok(format!("{}\n", refused(refusal))),
    };
    let mut again = vec![0; plan.len()];
    let plan_answer = length_or_refusal(write_plan(&site, &mut again));
    let equal = if again == plan { " equal" } else { "" };
    let schedule = written(&site, write_schedule);
    let bytes = hex(schedule.as_deref().unwrap_or_default());
    let schedule_answer = length_or_refusal(schedule.map(|bytes| bytes.len()));
    let links = site.links;
    Ok(format!(
        "accepted links {links} plan {plan_answer}{equal} schedule {schedule_answer}{bytes}\n"
    ))
}

pub fn numbers(line: &str) -> Result<Vec<u64>, String> {
    let words = line.split(' ').filter(|word| !word.is_empty());
    words
        .map(|word| word.parse().map_err(|_| format!("no number: {word}")))
        .collect()
}

/// An entry of the site by the numbers that test_altered uses, with the largest value of its width.
pub fn entry(site: &mut Site, field: u64, index: u64) -> Option<(&mut u64, u64)> {
    let (list, largest) = match field {
        0 => return Some((&mut site.links, OF_8_BITS)),
        1 => (&mut site.parents, OF_8_BITS),
        2 => (&mut site.capacities, OF_16_BITS),
        3 => (&mut site.gaps, OF_16_BITS),
        4 => (&mut site.offsets, OF_16_BITS),
        5 => (&mut site.periods, OF_16_BITS),
        6 => (&mut site.states, OF_8_BITS),
        7 => (&mut site.entries, OF_8_BITS),
        8 => (&mut site.rates, OF_8_BITS),
        9 => (&mut site.deadlines, OF_16_BITS),
        _ => return None,
    };
    let value = list.get_mut(usize::try_from(index).ok()?)?;
    Some((value, largest))
}

fn set_entry(site: &mut Site, field: u64, index: u64, value: u64) {
    if let Some((old, largest)) = entry(site, field, index) {
        if value <= largest {
            *old = value;
        }
    }
}

/// A triple that is not complete is passed over.
pub fn alter(site: &mut Site, numbers: &[u64]) {
    for triple in numbers.chunks_exact(3) {
        set_entry(site, triple[0], triple[1], triple[2]);
    }
}

/// 01: a refused reading gives the empty site.
pub fn site_of_hex(plan: &str) -> Result<Site, String> {
    Ok(read_plan(&bytes_of_hex(plan)?).unwrap_or(Site::empty()))
}

fn altered_line(site: &mut Site, line: &str) -> Result<String, String> {
    if let Some(plan) = line.strip_prefix('P') {
        *site = site_of_hex(plan)?;
        return Ok(String::new());
    }
    let numbers = numbers(line)?;
    let room = *numbers.first().ok_or("no room")? as usize;
    let room = at_most(room, 64, "bytes of room")?;
    let mut altered = site.clone();
    alter(&mut altered, &numbers[1..]);
    Ok(altered_answers(&altered, room))
}

fn altered_answers(site: &Site, room: usize) -> String {
    let passes = if passes_check_14(site) {
        "passes"
    } else {
        "does not pass"
    };
    let mut slice: Vec<u8> = (100..).take(room).collect();
    let plan = length_or_refusal(write_plan(site, &mut slice));
    let after_plan = hex(&slice);
    let schedule = length_or_refusal(write_schedule(site, &mut slice));
    let after_schedule = hex(&slice);
    format!("{passes}, plan {plan}:{after_plan}, schedule {schedule}:{after_schedule}\n")
}

pub fn decimal(list: &[u64]) -> String {
    list.iter().map(|number| format!(" {number}")).collect()
}

fn slot_rule_line(line: &str) -> Result<String, String> {
    let numbers = numbers(line)?;
    let [offsets, periods, gaps @ ..] = numbers.as_slice() else {
        return Err("no two lengths".to_string());
    };
    at_most(gaps.len(), 66, "gaps")?;
    let mut offsets: Vec<u64> = (500..)
        .take(at_most(*offsets as usize, 66, "offsets")?)
        .collect();
    let mut periods: Vec<u64> = (700..)
        .take(at_most(*periods as usize, 66, "periods")?)
        .collect();
    let answer = slot_rule(gaps, &mut offsets, &mut periods)
        .map_or_else(refused, |base| format!("base {base}"));
    let (offsets, periods) = (decimal(&offsets), decimal(&periods));
    Ok(format!("{answer} offsets{offsets} periods{periods}\n"))
}

#[cfg(test)]
mod tests {
    use super::*;
    use crate::second::rules::{FLOW_NUMBERS, MOST_LINKS};

    const PLAN_P: &str =
        "01 00 14 00 04 00 01 00 14 00 06 00 01 01 09 00 03 00 02 00 03 03 07 00 FF";

    fn output_of(program: &str, input: &str) -> String {
        output(program, input.as_bytes()).unwrap()
    }

    #[test]
    fn slotplan_prints_plan_p_as_01_tells() {
        let expected = "link 1 parent 0 base 4 offset 0 period 4\n\
            link 2 parent 0 base 4 offset 1 period 4\n\
            link 3 parent 1 base 3 offset 0 period 3\n\
            flow 0 node 3 rate 3 deadline 7 bound 7\n\
            accepted links 3 flows 1\n";
        assert_eq!(slotplan(&bytes_of_hex(PLAN_P).unwrap()), expected);
        assert_eq!(slotplan(&[]), "refused 2 0\n");
    }

    #[test]
    fn slotplan_prints_a_plan_without_links_in_one_line() {
        assert_eq!(slotplan(&[0xFF]), "accepted links 0 flows 0\n");
        assert_eq!(slotplan(&[0xFF, 0x0A]), "refused 10 1\n");
    }

    #[test]
    fn vectors_prints_comments_refusals_and_schedules() {
        let input = format!("# a remark\n\n{PLAN_P}\nFF\nFF FF\n");
        let expected = "# a remark\nrefused 2 0\naccepted links 3 plan 25 equal schedule 19 \
            11 01 00 00 04 00 11 02 01 00 04 00 11 03 00 00 03 00 FF\n\
            accepted links 0 plan 1 equal schedule 1 FF\nrefused 10 1\n";
        assert_eq!(output_of(PLAN_LINES, &input), expected);
    }

    #[test]
    fn altered_starts_from_the_plan_in_each_line() {
        let input =
            format!("P {PLAN_P}\n0 2 0 12\n2 4 1 2\n0 2 0 11\n0 10 0 1 1 63 1 8 0 256 6 0\n");
        let answers = [
            "passes, plan refused 1 0:, schedule refused 1 0:\n",
            "does not pass, plan refused 14 0: 64 65, schedule refused 14 0: 64 65\n",
            "does not pass, plan refused 14 0:, schedule refused 14 0:\n",
            "passes, plan refused 1 0:, schedule refused 1 0:\n",
        ];
        assert_eq!(output_of(SITE_LINES, &input), answers.concat());
    }

    #[test]
    fn altered_prints_what_the_first_writer_left() {
        let plan = "01 00 14 00 04 00 FF";
        let input = format!("2\nP {plan}\n8\nP FF\n1\n0\n9 0 0 1\n0 6 0 1\n");
        let expected = "passes, plan 1: FF 65, schedule 1: FF 65\n\
            passes, plan 7: 01 00 14 00 04 00 FF 6B, schedule 7: 11 01 00 00 04 00 FF 6B\n\
            passes, plan 1: FF, schedule 1: FF\n\
            passes, plan refused 1 0:, schedule refused 1 0:\n\
            does not pass, plan refused 14 0: 64 65 66 67 68 69 6A 6B 6C, \
            schedule refused 14 0: 64 65 66 67 68 69 6A 6B 6C\n\
            does not pass, plan refused 14 0:, schedule refused 14 0:\n";
        assert_eq!(output_of(SITE_LINES, &input), expected);
    }

    #[test]
    fn the_slot_rule_prints_both_lists() {
        let input = "2 2 6 3\n1 2 6 3\n2 2 1 1024\n0 0\n";
        let expected = "base 3 offsets 1 0 periods 6 3\n\
            refused 1 0 offsets 500 periods 700 701\n\
            refused 11 0 offsets 500 501 periods 700 701\n\
            refused 5 0 offsets periods\n";
        assert_eq!(output_of(GAP_LINES, input), expected);
    }

    #[test]
    fn calls_prints_what_each_call_changed() {
        let input = format!("P {PLAN_P}\nC\nA 576 5 2 3 6\nA 575 6 2 1 6\nX 4 1 2\nR 576 0\nL 0 1\nX 4 1 1\nC 9\nR 576 5\nL 0 1\n");
        let expected = "accepted site 6 5 1 7 5 2 8 5 3 9 5 6 \
            counters 45 0 46 0 47 0 48 0 49 0 50 0 51 0 52 0 53 0\n\
            refused 1 0 site counters\n\
            refused 14 0 site counters\n\
            refused 14 0\n\
            accepted site 6 5 0 7 5 0 8 5 0 9 5 0 \
            counters 45 0 46 0 47 0 48 0 49 0 50 0 51 0 52 0 53 0\n\
            sender 2\n";
        assert_eq!(output_of(CALL_LINES, &input), expected);
    }

    #[test]
    fn calls_are_answered_without_links() {
        let input = "P FF\nC 5\nA 576 0 1 1 1\nA 576 0 1 0 1\nR 576 0\nL 0 3\nL 1 3\nS 576 64 3\n\
            S 576 64 3 7 1\nX 3 0 1\nA 576 0 1 1 1\nL 0 3\nS 576 64 3\n";
        let expected = "refused 6 0 site counters\nrefused 5 0 site counters\n\
            refused 16 0 site counters\nsender 0\nrefused 6 0\naccepted counters\n\
            refused 20 7 counters\nrefused 14 0 site counters\nrefused 14 0\n\
            refused 14 0 counters\n";
        assert_eq!(output_of(CALL_LINES, input), expected);
    }

    #[test]
    fn calls_prints_the_counters_that_a_slot_changed() {
        let input = format!(
            "P {PLAN_P}\nC 1\nK 1 18\nK 577 5\nS 576 64 16 0 4\nS 576 64 16 0 65539 64 1 65 1 5\n\
            S 576 65 16\nS 578 64 16\nS 576 66 16\nS 575 64 16\nK 8 42949672809\nS 576 64 17 0 2 5 1\n\
            S 576 64 17 0 1 5 1\nS 576 64 17 0 1\nX 4 1 2\nS 576 64 17 0 9\n"
        );
        let expected = "accepted counters 0 5 1 6 8 13\naccepted counters 0 8 1 0 8 19\n\
            refused 1 0 counters\nrefused 1 0 counters\nrefused 19 0 counters\n\
            refused 20 5 counters\naccepted counters 0 9\nrefused 14 0 counters\n";
        assert_eq!(output_of(CALL_LINES, &input), expected);
    }

    #[test]
    fn calls_prints_the_counters_that_a_start_changed() {
        let input = format!(
            "P {PLAN_P}\nC 1\nK 1 0\nT 575\nT 577\nT 578\nX 4 1 2\nT 576\nX 4 1 1\nT 576\n"
        );
        let cleared = (0..576).filter(|&index| index != 1);
        let cleared: String = cleared.map(|index| format!(" {index} 0")).collect();
        let expected = format!(
            "refused 1 0 counters\nrefused 1 0 counters\nrefused 14 0 counters\naccepted counters{cleared}\n"
        );
        assert_eq!(output_of(CALL_LINES, &input), expected);
    }

    #[test]
    fn calls_outside_the_form_are_errors() {
        let lines = [
            "",
            "Q 1",
            "A 576 5 2 3",
            "A 576 5 2 3 6 7",
            "A 578 5 2 3 6",
            "A 576 256 2 3 6",
            "A 576 5 256 3 6",
            "A 576 5 2 256 6",
            "A 576 5 2 3 65536",
            "R 576",
            "R 578 0",
            "R 576 256",
            "L 0",
            "L 256 0",
            "L 0 4294967296",
            "C 4294967296",
            "C x",
            "X 0 0 x",
            "P 0",
            "K 1",
            "T",
            "S 576 64",
        ];
        for line in lines {
            assert!(
                output(CALL_LINES, format!("{line}\n").as_bytes()).is_err(),
                "{line}"
            );
        }
    }

    #[test]
    fn every_entry_of_a_site_can_be_altered() {
        for field in 0..10 {
            let length = match field {
                0 => 1,
                1..=5 => MOST_LINKS as u64,
                _ => FLOW_NUMBERS as u64,
            };
            let mut site = Site::empty();
            set_entry(&mut site, field, length - 1, 255);
            assert_ne!(site, Site::empty());
            let before = site.clone();
            set_entry(&mut site, field.max(1), FLOW_NUMBERS as u64, 1);
            set_entry(&mut site, field, length - 1, 65_536);
            assert_eq!(site, before);
        }
    }
}
