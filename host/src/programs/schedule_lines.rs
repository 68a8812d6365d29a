//! What readschedule prints for a file, and test_schedules for each line of its input.

use crate::programs::output::{at_most, bytes_of_hex, hex, length_or_refusal, numbers};
use crate::second::rules::{refused, OF_16_BITS, OF_8_BITS};
use crate::second::schedules::{read_schedule, write_schedule_of, Schedule};

/// The most bytes that test_schedules lends to the writer of a changed schedule.
pub const MOST_ROOM: u64 = 64;

pub fn readschedule(file: &[u8]) -> String {
    match read_schedule(file) {
        Ok(schedule) => links_of(&schedule),
        Err(refusal) => format!("{}\n", refused(refusal)),
    }
}

fn links_of(schedule: &Schedule) -> String {
    let mut output = String::new();
    let turns = schedule.offsets.iter().zip(&schedule.periods);
    for (link, (offset, period)) in (1..=schedule.links).zip(turns) {
        output += &format!("link {link} offset {offset} period {period}\n");
    }
    output + &format!("accepted links {}\n", schedule.links)
}

/// The schedule lasts from one file to the next. 02: a refused reading gives the one without links.
pub fn schedules_line(schedule: &mut Schedule, line: &str) -> Result<String, String> {
    if let Some(numbers) = line.strip_prefix('W') {
        return changed_line(schedule, numbers);
    }
    let file = bytes_of_hex(line)?;
    at_most(file.len(), 2048, "bytes")?;
    *schedule = Schedule::empty();
    match read_schedule(&file) {
        Ok(read) => *schedule = read,
        Err(refusal) => return Ok(format!("{}\n", refused(refusal))),
    }
    let mut again = vec![0; file.len()];
    let answer = length_or_refusal(write_schedule_of(schedule, &mut again));
    let equal = if again == file { " equal" } else { "" };
    let links = schedule.links;
    Ok(format!("accepted links {links} written {answer}{equal}\n"))
}

/// The change is made for this line alone. Where more room is asked for than there is, nothing is printed.
fn changed_line(schedule: &Schedule, line: &str) -> Result<String, String> {
    let numbers = numbers(line)?;
    let room = *numbers.first().ok_or("no room")?;
    if room > MOST_ROOM {
        return Ok(String::new());
    }
    let mut changed = schedule.clone();
    change(&mut changed, &numbers[1..]);
    let mut slice: Vec<u8> = (100..).take(room as usize).collect();
    let answer = length_or_refusal(write_schedule_of(&changed, &mut slice));
    Ok(format!("schedule {answer}:{}\n", hex(&slice)))
}

/// An entry of the schedule by the numbers that test_schedules uses, with the largest value of its width.
fn entry(schedule: &mut Schedule, field: u64, index: u64) -> Option<(&mut u64, u64)> {
    let list = match field {
        0 => return Some((&mut schedule.links, OF_8_BITS)),
        1 => &mut schedule.offsets,
        2 => &mut schedule.periods,
        _ => return None,
    };
    let value = list.get_mut(usize::try_from(index).ok()?)?;
    Some((value, OF_16_BITS))
}

/// Fields, indexes and values in turn. A triple that is not complete is passed over, and one outside the limits.
pub fn change(schedule: &mut Schedule, numbers: &[u64]) {
    for triple in numbers.chunks_exact(3) {
        match entry(schedule, triple[0], triple[1]) {
            Some((old, largest)) if triple[2] <= largest => *old = triple[2],
            _ => (),
        }
    }
}

#[cfg(test)]
mod tests {
    use super::*;
    use crate::programs::names::{READ_SCHEDULE, SCHEDULE_LINES};
    use crate::programs::output::output;
    use crate::second::rules::MOST_LINKS;

    /// The schedule of plan P.
    const OF_P: &str = "11 01 00 00 04 00 11 02 01 00 04 00 11 03 00 00 03 00 FF";

    fn printed(lines: &[&str]) -> String {
        let input: String = lines.iter().map(|line| format!("{line}\n")).collect();
        output(SCHEDULE_LINES, input.as_bytes()).unwrap()
    }

    #[test]
    fn readschedule_prints_links_or_the_refusal() {
        let file = bytes_of_hex(OF_P).unwrap();
        let expected = "link 1 offset 0 period 4\n\
            link 2 offset 1 period 4\n\
            link 3 offset 0 period 3\n\
            accepted links 3\n";
        assert_eq!(readschedule(&file), expected);
        assert_eq!(output(READ_SCHEDULE, &file).unwrap(), expected);
        assert_eq!(readschedule(&file[..18]), "refused 2 18\n");
        assert_eq!(readschedule(&[0xFF]), "accepted links 0\n");
        assert_eq!(readschedule(&[0xFF, 0x0A]), "refused 10 1\n");
    }

    /// The program reads no more than 1,024 bytes.
    #[test]
    fn the_first_1024_bytes_settle_every_reading() {
        let link = bytes_of_hex("11 01 00 00 01 00").unwrap();
        let mut links = link.repeat(200);
        for (command, number) in links.chunks_mut(6).zip(1..) {
            command[1] = number;
        }
        for length in 0..=64 {
            let mut file = links[..6 * length].to_vec();
            file.extend([0xFF; 1200]);
            assert_eq!(readschedule(&file), readschedule(&file[..1024]));
        }
        assert_eq!(readschedule(&links), "refused 21 378\n");
        assert_eq!(readschedule(&links[..1024]), "refused 21 378\n");
    }

    #[test]
    fn files_are_read_and_written_again() {
        let cut = "11 01 00 00 01 00 11 03";
        let lines = ["# a remark", "", OF_P, cut, "FF 11", "FF"];
        let without_2 = "11 01 00 00 01 00 11 03 00 00 01 00 FF";
        let expected = "# a remark\nrefused 2 0\naccepted links 3 written 19 equal\n\
            refused 2 6\nrefused 10 1\naccepted links 0 written 1 equal\nrefused 21 6\n";
        assert_eq!(printed(&[&lines[..], &[without_2]].concat()), expected);
    }

    #[test]
    fn a_change_lasts_for_its_line_alone() {
        let lines = [
            "W 2",
            OF_P,
            "W 2 1 1 4",
            "W 1",
            "W 20 0 0 2 1 2 0 2 2 0",
            "W 20",
        ];
        let expected = "schedule 1: FF 65\n\
            accepted links 3 written 19 equal\n\
            schedule refused 14 0: 64 65\n\
            schedule refused 1 0: 64\n\
            schedule 13: 11 01 00 00 04 00 11 02 01 00 04 00 FF 71 72 73 74 75 76 77\n\
            schedule 19: 11 01 00 00 04 00 11 02 01 00 04 00 11 03 00 00 03 00 FF 77\n";
        assert_eq!(printed(&lines), expected);
    }

    #[test]
    fn a_refused_file_leaves_no_links() {
        let expected = "accepted links 3 written 19 equal\nrefused 2 0\n\
            schedule refused 1 0:\nschedule 1: FF\nschedule refused 14 0:\n\
            schedule 7: 11 01 04 00 05 00 FF\n";
        let one = "W 7 0 9 1 1 0 4 2 0 5";
        let lines = [OF_P, "11", "W 0", "W 1", "W 0 2 62 1", one];
        assert_eq!(printed(&lines), expected);
    }

    /// A field, an index or a value that there is not, and a triple cut off.
    #[test]
    fn changes_outside_the_limits_are_passed_over() {
        let lines = [
            OF_P,
            "W 0 3 0 9",
            "W 0 1 63 9",
            "W 0 2 63 9",
            "W 0 0 0 256",
            "W 0 1 5 65536",
            "W 0 2 5",
            "W 0 2 5 65535",
            "W 0 0 99 255",
            "W 65",
        ];
        let refused_1 = "schedule refused 1 0:\n".repeat(6);
        let refused_14 = "schedule refused 14 0:\n".repeat(2);
        let expected = format!("accepted links 3 written 19 equal\n{refused_1}{refused_14}");
        assert_eq!(printed(&lines), expected);
    }

    #[test]
    fn lines_outside_the_form_are_errors() {
        let long = "11 ".repeat(2049);
        for line in ["W", "W x", "W 1 x", "1", "0a", &long] {
            let answer = output(SCHEDULE_LINES, format!("{line}\n").as_bytes());
            assert!(answer.is_err(), "{line}");
        }
    }

    #[test]
    fn every_entry_can_be_changed() {
        let most = MOST_LINKS as u64 - 1;
        for triple in [
            [0, 9, 255],
            [1, 0, 65_535],
            [1, most, 1],
            [2, 0, 1],
            [2, most, 65_535],
        ] {
            let mut schedule = Schedule::empty();
            change(&mut schedule, &triple);
            assert_ne!(schedule, Schedule::empty());
        }
    }
}
