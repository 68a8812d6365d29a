//! What rehearse prints for a plan and the lines of its input.

use crate::commands::rehearsal::Rehearsal;
use crate::programs::output::{decimal, hex, links_and_flows, verdict};
use crate::second::bytes::{read_plan, write_plan, write_schedule, written, Writer};
use crate::second::calls::sender;
use crate::second::rules::{refused, Flow, Site, FLOW_NUMBERS, OF_16_BITS, OF_32_BITS, OF_8_BITS};
use crate::second::typed::lines_of;
use crate::second::words::{number_up_to, words};
use std::path::Path;

/// A line may have this many bytes before its newline.
pub const LONGEST_LINE: usize = 1000;

const ERROR: &str = "error";

/// The first line printed, and the rehearsal if the plan is accepted.
pub fn begin(plan: &[u8]) -> (String, Option<Rehearsal>) {
    match read_plan(plan) {
        Ok(site) => {
            let (links, flows) = (site.links, site.live_flows().len());
            let first = format!("accepted links {links} flows {flows}\n");
            (first, Some(Rehearsal::of_site(site)))
        }
        Err(refusal) => (format!("{}\n", refused(refusal)), None),
    }
}

/// What is told on standard error where there is not exactly one argument.
pub const USAGE: &str = "usage: rehearse PLAN";

/// What is told on standard error of a file that cannot be opened.
pub fn cannot_open(path: &Path) -> String {
    format!("rehearse: cannot open {}", path.display())
}

/// All that is printed on standard output for an input. None in the place of the plan: no file was named or could be opened.
pub fn rehearse(plan: Option<&[u8]>, input: &[u8]) -> (String, Option<Rehearsal>) {
    let Some(plan) = plan else {
        return (String::new(), None);
    };
    let (mut output, mut rehearsal) = begin(plan);
    if let Some(rehearsal) = &mut rehearsal {
        for line in input.split_inclusive(|&byte| byte == b'\n') {
            output += &answer(rehearsal, line.strip_suffix(b"\n").unwrap_or(line));
        }
    }
    (output, rehearsal)
}

/// The answer with its newline, or nothing for a line that is passed over and for the typed lines of a plan that has none.
pub fn answer(rehearsal: &mut Rehearsal, line: &[u8]) -> String {
    if line.len() > LONGEST_LINE {
        return format!("{ERROR}\n");
    }
    if line.starts_with(b"#") {
        return String::new();
    }
    // Bytes that are no text become signs that stand in no call.
    let text = String::from_utf8_lossy(line);
    let words = words(&text);
    if words.is_empty() {
        return String::new();
    }
    if words == ["typed"] {
        return lines_of(&rehearsal.site);
    }
    let answer = call(rehearsal, &words).unwrap_or(ERROR.to_string());
    format!("{answer}\n")
}

/// None: no call.
fn call(rehearsal: &mut Rehearsal, words: &[&str]) -> Option<String> {
    let site = &rehearsal.site;
    match words {
        ["start"] => Some(verdict(rehearsal.start())),
        ["slot", number, pairs @ ..] => {
            let (number, arrivals) = (slot_number(number)?, arrivals(pairs)?);
            Some(verdict(rehearsal.slot(&arrivals, number)))
        }
        ["admit", number, entry, rate, deadline] => {
            let flow = flow([number, entry, rate, deadline])?;
            Some(verdict(rehearsal.admission(flow)))
        }
        ["release", number] => {
            let number = number_up_to(number, OF_8_BITS)? as usize;
            Some(verdict(rehearsal.release(number)))
        }
        ["sender", parent, slot] => {
            let parent = number_up_to(parent, OF_8_BITS)? as usize;
            let answer = sender(site, parent, u64::from(slot_number(slot)?));
            Some(answer.map_or_else(refused, |child| format!("sender {child}")))
        }
        ["cells", number] => {
            let cells = rehearsal.packets.flows[flow_number(number)?].cells();
            Some(format!("cells{}", decimal(&cells.map(u64::from))))
        }
        ["bound", number] => Some(bound(site, flow_number(number)?)),
        ["plan"] => Some(written_hex(site, write_plan)),
        ["schedule"] => Some(written_hex(site, write_schedule)),
        ["show"] => Some(links_and_flows(site).trim_end().to_string()),
        _ => None,
    }
}

fn slot_number(word: &str) -> Option<u32> {
    number_up_to(word, OF_32_BITS).map(|number| number as u32)
}

fn flow_number(word: &str) -> Option<usize> {
    number_up_to(word, FLOW_NUMBERS as u64 - 1).map(|number| number as usize)
}

fn flow([number, entry, rate, deadline]: [&str; 4]) -> Option<Flow> {
    Some(Flow {
        number: number_up_to(number, OF_8_BITS)? as usize,
        entry: number_up_to(entry, OF_8_BITS)? as usize,
        rate: number_up_to(rate, OF_8_BITS)?,
        deadline: number_up_to(deadline, OF_16_BITS)?,
    })
}

/// No flow may be named twice, not even with no packets.
fn arrivals(pairs: &[&str]) -> Option<[u16; FLOW_NUMBERS]> {
    let (mut arrivals, mut named) = ([0; FLOW_NUMBERS], [false; FLOW_NUMBERS]);
    for pair in pairs {
        let (flow, count) = pair.split_once('=')?;
        let flow = flow_number(flow)?;
        if named[flow] {
            return None;
        }
        named[flow] = true;
        arrivals[flow] = number_up_to(count, OF_16_BITS)? as u16;
    }
    Some(arrivals)
}

fn bound(site: &Site, flow: usize) -> String {
    if !site.is_live(flow) {
        return "not live".to_string();
    }
    let (bound, deadline) = (site.bound(flow), site.deadlines[flow]);
    format!("bound {bound} deadline {deadline}")
}

fn written_hex(site: &Site, writer: Writer) -> String {
    let bytes = written(site, writer).map(|bytes| hex(&bytes));
    bytes.map_or_else(refused, |bytes| bytes.trim_start().to_string())
}

#[cfg(test)]
mod tests {
    use super::*;
    use crate::second::bytes::plan_p;

    /// What is printed on P after the first line.
    fn on_p(input: &str) -> String {
        let (output, _) = rehearse(Some(&plan_p(9, 7)), input.as_bytes());
        let rest = output.strip_prefix("accepted links 3 flows 1\n");
        rest.expect("P is accepted").to_string()
    }

    #[test]
    fn the_slots_of_p_in_01_are_rehearsed() {
        let slots: String = (0..17).map(|slot| format!("slot {slot} 0=3\n")).collect();
        let expected = "accepted\n".repeat(17) + "cells 3 6 0 0 0 0 0 0 42\n";
        assert_eq!(on_p(&format!("{slots}cells 0")), expected);
    }

    #[test]
    fn every_call_is_answered() {
        let input = "admit 5 2 3 6\nadmit 6 2 3 6\nbound 5\nbound 6\nsender 0 5\nsender 4 0\n\
            slot 0 5=2 0=1\nslot 1 5=1 6=1\nslot 1 5=1\ncells 0\ncells 5\nrelease 0\nrelease 0\n\
            release 64\nplan\nschedule\nstart\ncells 5\nshow\n";
        let expected =
            "accepted\nrefused 17 2\nbound 4 deadline 6\nnot live\nsender 2\nrefused 6 0\n\
            accepted\nrefused 20 6\naccepted\ncells 0 1 0 0 0 0 0 0 0\ncells 0 0 0 0 0 0 0 0 3\n\
            accepted\nrefused 16 0\nrefused 5 0\n\
            01 00 14 00 04 00 01 00 14 00 06 00 01 01 09 00 03 00 02 05 02 03 06 00 FF\n\
            11 01 00 00 04 00 11 02 01 00 04 00 11 03 00 00 03 00 FF\n\
            accepted\ncells 0 0 0 0 0 0 0 0 0\n\
            link 1 parent 0 base 4 offset 0 period 4\n\
            link 2 parent 0 base 4 offset 1 period 4\n\
            link 3 parent 1 base 3 offset 0 period 3\n\
            flow 5 node 2 rate 3 deadline 6 bound 4\n\
            accepted links 3 flows 1\n";
        assert_eq!(on_p(input), expected);
    }

    #[test]
    fn every_call_is_answered_without_links() {
        let input =
            "start\nslot 0\nslot 4294967295 0=0\nslot 1 63=1\nadmit 5 0 3 6\nadmit 5 1 3 6\n\
            admit 64 1 3 6\nadmit 5 1 0 6\nadmit 5 1 3 0\nrelease 5\nrelease 64\nsender 0 0\n\
            sender 0 4294967295\nsender 1 0\nsender 255 0\nbound 5\ncells 5\nplan\nschedule\nshow\n\
            cells 64\n";
        let expected = "accepted links 0 flows 0\n\
            accepted\naccepted\naccepted\nrefused 20 63\nrefused 6 0\nrefused 6 0\n\
            refused 5 0\nrefused 5 0\nrefused 5 0\nrefused 16 5\nrefused 5 0\nsender 0\n\
            sender 0\nrefused 6 0\nrefused 6 0\nnot live\ncells 0 0 0 0 0 0 0 0 0\nFF\nFF\n\
            accepted links 0 flows 0\nerror\n";
        assert_eq!(rehearse(Some(&[0xFF]), input.as_bytes()).0, expected);
    }

    #[test]
    fn lines_that_say_nothing_are_passed_over() {
        assert_eq!(on_p("\n   \n# start\n#\n\r\n\t \r\n#\r\n"), "");
        let (spaces, remark) = (" ".repeat(1000), "#".repeat(1000));
        assert_eq!(on_p(&format!("{spaces}\n{remark}\n{remark}")), "");
        assert_eq!(
            on_p(&format!("{spaces} \n{remark}#\n{remark}#")),
            "error\n".repeat(3)
        );
    }

    #[test]
    fn spaces_tabs_carriage_returns_and_leading_zeros_are_allowed() {
        let zeros = "0".repeat(900);
        let input = format!(
            "  slot   {zeros}4294967295 063=0  00=00003 \n release 00255\ncells {zeros}\n\
            \tslot\t\t0\r0=2 \r\ncells\t0\r\n\rbound 0\t\n"
        );
        let expected = "accepted\nrefused 5 0\ncells 0 3 0 0 0 0 0 0 0\n\
            accepted\ncells 0 2 0 0 0 0 0 0 3\nbound 7 deadline 7\n";
        assert_eq!(on_p(&input), expected);
    }

    /// One line of these to each that is no call.
    const NO_CALLS: &str = " # start\n\t#\nstart #\nstarts\nStart\nstart 0\nstart\u{b}\n\u{c}start\nstart\0\nslot\nslot x\n\
        slot -1\nslot +1\nslot 4294967296\nslot 99999999999999999999\nslot 0 0\nslot 0 0=\nslot 0 =1\n\
        slot 0 0=1=1\nslot 0 0 = 1\nslot 0 0=65536\nslot 0 64=1\nslot 0 0=1 0=1\nslot 0 0=0 00=0\n\
        slot 0 0=1 1=x\nadmit 5 2 3\nadmit 5 2 3 6 7\nadmit 256 2 3 6\nadmit 5 256 3 6\n\
        admit 5 2 256 6\nadmit 5 2 3 65536\nrelease\nrelease 256\nrelease 0 0\nsender 0\n\
        sender 256 0\nsender 0 4294967296\ncells\ncells 64\ncells 0 0\nbound\nbound 64\n\
        bound 0 0\nplan 1\nschedule 1\nshow 1\n0\n\u{b2}";

    #[test]
    fn anything_else_is_an_error_and_changes_nothing() {
        let after = "cells 0\nplan\n";
        for line in NO_CALLS.split('\n') {
            let expected = format!("error\n{}", on_p(after));
            assert_eq!(on_p(&format!("{line}\n{after}")), expected, "{line}");
        }
    }

    #[test]
    fn without_an_accepted_plan_no_line_is_answered() {
        assert_eq!(rehearse(None, b"start\n").0, "");
        assert_eq!(rehearse(Some(&[]), b"start\n").0, "refused 2 0\n");
        assert_eq!(rehearse(Some(&[0xFF; 2]), b"start\n").0, "refused 10 1\n");
        assert_eq!(
            rehearse(Some(&plan_p(9, 6)), b"start\n").0,
            "refused 13 0\n"
        );
    }

    #[test]
    fn bytes_that_are_no_text_are_an_error() {
        let (output, _) = rehearse(Some(&plan_p(9, 7)), b"start \xFF\n\xFF\nstart\n");
        assert_eq!(output, "accepted links 3 flows 1\nerror\nerror\naccepted\n");
    }
}
