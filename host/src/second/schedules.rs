//! Document 02, U1: schedule bytes read, and a schedule written that is handed in. With U3, END alone is the one without links.

use crate::second::bytes::{
    check_end, fill, link_command, of_16_bits, operands, COMMAND_LENGTH, END, LINK,
};
use crate::second::rules::{refuse, Refusal, GAPS, MOST_LINKS};

/// A schedule by value: link n has index n - 1, and whatever is not in use is 0.
#[derive(Clone, Debug, PartialEq, Eq)]
pub struct Schedule {
    pub links: u64,
    pub offsets: Vec<u64>,
    pub periods: Vec<u64>,
}

impl Schedule {
    /// The one without links.
    pub fn empty() -> Schedule {
        Schedule {
            links: 0,
            offsets: vec![0; MOST_LINKS],
            periods: vec![0; MOST_LINKS],
        }
    }
}

/// Checks 21 and 22. The periods of a schedule have the limits of gaps.
fn add_link(schedule: &mut Schedule, operands: &[u8], at: usize) -> Result<(), Refusal> {
    let link = schedule.links as usize + 1;
    let offset = of_16_bits(&operands[1..3]);
    let period = of_16_bits(&operands[3..5]);
    if usize::from(operands[0]) != link || link > MOST_LINKS {
        return refuse(21, at);
    }
    if !GAPS.contains(&period) || offset >= period {
        return refuse(22, at);
    }
    schedule.links = link as u64;
    schedule.offsets[link - 1] = offset;
    schedule.periods[link - 1] = period;
    Ok(())
}

pub fn read_schedule(bytes: &[u8]) -> Result<Schedule, Refusal> {
    let mut schedule = Schedule::empty();
    let mut at = 0;
    while bytes.get(at) != Some(&END) {
        let operands = operands(bytes, at, &[LINK])?;
        add_link(&mut schedule, operands, at)?;
        at += COMMAND_LENGTH;
    }
    check_end(bytes, at)?;
    Ok(schedule)
}

/// A schedule that no file reads to may count more links than it has entries.
fn schedule_bytes(schedule: &Schedule) -> Vec<u8> {
    let turns = schedule.offsets.iter().zip(&schedule.periods);
    let turns = turns.take(schedule.links as usize);
    let mut bytes: Vec<u8> = (1..)
        .zip(turns)
        .flat_map(|(link, (&offset, &period))| link_command(link, offset, period))
        .collect();
    bytes.push(END);
    bytes
}

/// Check 14. Only the schedule's own bytes can read to it: each operand is an entry of the schedule.
/// Reading leaves every entry past the links at 0, so comparing whole values judges those too.
fn passes_check_14(schedule: &Schedule) -> bool {
    read_schedule(&schedule_bytes(schedule)).as_ref() == Ok(schedule)
}

/// The number of bytes written, the rest of the slice unchanged. 02: 14, and the slice last.
pub fn write_schedule_of(schedule: &Schedule, slice: &mut [u8]) -> Result<usize, Refusal> {
    if !passes_check_14(schedule) {
        return refuse(14, 0);
    }
    fill(slice, &schedule_bytes(schedule))
}

#[cfg(test)]
mod tests {
    use super::*;
    use crate::second::bytes::{
        flow_command, node_command, plan_p, read_plan, write_schedule, written, NODE,
    };

    /// The schedule of plan P, as 01 has it.
    fn schedule_of_p() -> Vec<u8> {
        file(&[[1, 0, 4], [2, 1, 4], [3, 0, 3]])
    }

    fn commands(links: &[[u64; 3]]) -> Vec<u8> {
        let commands = links
            .iter()
            .map(|&[link, offset, period]| link_command(link, offset, period));
        commands.flatten().collect()
    }

    fn file(links: &[[u64; 3]]) -> Vec<u8> {
        let mut bytes = commands(links);
        bytes.push(END);
        bytes
    }

    /// Links 1, 2, 3 up to this many, with different entries.
    fn rising_file(count: u64) -> Vec<u8> {
        let links: Vec<_> = (1..=count).map(|link| [link, link * 3, 1000]).collect();
        file(&links)
    }

    fn refusal(bytes: &[u8]) -> (u64, usize) {
        let refusal = read_schedule(bytes).unwrap_err();
        (refusal.number, refusal.place)
    }

    fn is_accepted(bytes: &[u8]) -> bool {
        read_schedule(bytes).is_ok()
    }

    #[test]
    fn the_schedule_of_p_reads_to_the_site() {
        let site = read_plan(&plan_p(9, 7)).unwrap();
        let bytes = written(&site, write_schedule).unwrap();
        assert_eq!(bytes, schedule_of_p());
        let expected = Schedule {
            links: site.links,
            offsets: site.offsets,
            periods: site.periods,
        };
        assert_eq!(read_schedule(&bytes), Ok(expected));
    }

    #[test]
    fn an_accepted_file_is_written_as_it_was_read() {
        for count in 0..=MOST_LINKS as u64 {
            let bytes = rising_file(count);
            let schedule = read_schedule(&bytes).unwrap();
            assert_eq!(schedule.links, count);
            let mut slice = vec![0xAA; bytes.len() + 1];
            assert_eq!(
                write_schedule_of(&schedule, &mut slice),
                Ok(6 * count as usize + 1)
            );
            assert_eq!(slice[..bytes.len()], bytes);
            assert_eq!(slice[bytes.len()], 0xAA);
        }
    }

    #[test]
    fn a_file_cut_off_anywhere_is_refused_at_the_command() {
        let bytes = rising_file(MOST_LINKS as u64);
        for length in 0..bytes.len() {
            let place = length / COMMAND_LENGTH * COMMAND_LENGTH;
            assert_eq!(refusal(&bytes[..length]), (2, place));
        }
    }

    #[test]
    fn every_first_byte_but_link_and_end_is_unknown() {
        for first in 0..=255 {
            let mut bytes = schedule_of_p();
            bytes[6] = first;
            match first {
                LINK => assert!(is_accepted(&bytes)),
                END => assert_eq!(refusal(&bytes), (10, 7)),
                _ => assert_eq!(refusal(&bytes), (3, 6)),
            }
        }
        for command in [node_command(0, 1, 1), flow_command(0, 1, 1, 1)] {
            assert_eq!(refusal(&[&command[..], &schedule_of_p()].concat()), (3, 0));
        }
    }

    #[test]
    fn link_numbers_rise_by_one_from_1_to_63() {
        for number in 0..=255 {
            let second = file(&[[1, 0, 1], [number, 0, 1]]);
            let first = file(&[[number, 0, 1]]);
            if number == 1 {
                assert!(is_accepted(&first));
            } else {
                assert_eq!(refusal(&first), (21, 0));
            }
            if number == 2 {
                assert!(is_accepted(&second));
            } else {
                assert_eq!(refusal(&second), (21, 6));
            }
        }
        assert!(is_accepted(&rising_file(63)));
        assert_eq!(refusal(&rising_file(64)), (21, 378));
    }

    #[test]
    fn periods_and_offsets_have_their_limits() {
        let accepted = [[0, 1], [0, 1024], [1023, 1024], [255, 256], [256, 257]];
        for [offset, period] in accepted {
            assert!(is_accepted(&file(&[[1, offset, period]])));
        }
        let refused = [
            [0, 0],
            [1, 1],
            [0, 1025],
            [1024, 1024],
            [1024, 1025],
            [256, 256],
            [65_535, 1024],
            [0, 65_535],
            [65_535, 65_535],
        ];
        for [offset, period] in refused {
            let bytes = file(&[[1, 0, 1], [2, offset, period]]);
            assert_eq!(refusal(&bytes), (22, 6), "{offset} {period}");
        }
    }

    /// Links of one site never have these entries together.
    #[test]
    fn links_are_not_compared() {
        assert!(is_accepted(&file(&[[1, 0, 1], [2, 0, 1], [3, 5, 7]])));
    }

    #[test]
    fn end_needs_nothing_before_it_and_nothing_behind_it() {
        assert_eq!(read_schedule(&[END]), Ok(Schedule::empty()));
        assert_eq!(refusal(&[END, 0]), (10, 1));
        assert_eq!(refusal(&[END, END]), (10, 1));
        assert_eq!(refusal(&[END, LINK, 1, 0, 0, 1, 0]), (10, 1));
        assert_eq!(refusal(&[&schedule_of_p()[..], &[END]].concat()), (10, 19));
    }

    /// From one line to the next the first failing check is mended; before that, the command behind is not reached.
    #[test]
    fn checks_of_a_command_come_in_their_order() {
        let lines: [(&[u8], (u64, usize)); 8] = [
            (&[NODE, 9, 0], (3, 6)),
            (&[LINK, 9, 0], (2, 6)),
            (&[LINK, 9, 0, 0, 0, 0, NODE], (21, 6)),
            (&[LINK, 2, 0, 0, 0, 0, NODE], (22, 6)),
            (&[LINK, 2, 1, 0, 1, 4, NODE], (22, 6)),
            (&[LINK, 2, 1, 0, 1, 0, NODE], (22, 6)),
            (&[LINK, 2, 0, 0, 1, 0, NODE], (3, 12)),
            (&[LINK, 2, 0, 0, 1, 0], (2, 12)),
        ];
        for (bytes, expected) in lines {
            assert_eq!(refusal(&[&link_command(1, 0, 1), bytes].concat()), expected);
        }
    }

    /// The 64th LINK is refused by its number before its period is looked at, and by its operands before its number.
    #[test]
    fn a_64th_link_is_judged_as_any_command() {
        let before = &rising_file(63)[..378];
        let refusal = |bytes: &[u8]| refusal(&[before, bytes].concat());
        assert_eq!(refusal(&[NODE]), (3, 378));
        assert_eq!(refusal(&[LINK, 64, 0, 0, 0]), (2, 378));
        for number in 0..=255 {
            assert_eq!(refusal(&[LINK, number, 0, 0, 0, 0]), (21, 378));
        }
        assert_eq!(refusal(&[]), (2, 378));
        assert_eq!(refusal(&[END, LINK]), (10, 379));
    }

    #[test]
    fn a_schedule_passes_just_when_its_bytes_read_to_it() {
        let schedule = read_schedule(&schedule_of_p()).unwrap();
        let same: [fn(&mut Schedule); 4] = [
            |_| (),
            |schedule| schedule.offsets[1] = 3,
            |schedule| schedule.periods[1] = 2,
            |schedule| schedule.periods[2] = 1024,
        ];
        for alter in same {
            let mut altered = schedule.clone();
            alter(&mut altered);
            assert_eq!(write_schedule_of(&altered, &mut [0; 19]), Ok(19));
        }
        let others: [fn(&mut Schedule); 12] = [
            |schedule| schedule.links = 2,
            |schedule| schedule.links = 4,
            |schedule| schedule.links = 0,
            |schedule| schedule.links = 64,
            |schedule| schedule.links = 255,
            |schedule| schedule.periods[0] = 0,
            |schedule| schedule.periods[1] = 1,
            |schedule| schedule.periods[2] = 1025,
            |schedule| schedule.offsets[1] = 4,
            |schedule| schedule.offsets[3] = 1,
            |schedule| schedule.offsets[62] = 1,
            |schedule| schedule.periods[62] = 1,
        ];
        for alter in others {
            let mut altered = schedule.clone();
            alter(&mut altered);
            let mut slice = [0xAA; 400];
            assert_eq!(write_schedule_of(&altered, &mut slice), refuse(14, 0));
            assert_eq!(slice, [0xAA; 400], "{altered:?}");
        }
    }

    /// A schedule of 63 links is full: none of 64 has its entries.
    #[test]
    fn a_full_schedule_with_one_link_more_does_not_pass() {
        let mut schedule = read_schedule(&rising_file(63)).unwrap();
        assert_eq!(write_schedule_of(&schedule, &mut [0; 379]), Ok(379));
        schedule.links = 64;
        assert_eq!(write_schedule_of(&schedule, &mut [0; 400]), refuse(14, 0));
    }

    #[test]
    fn the_schedule_is_judged_before_the_slice() {
        let mut schedule = Schedule::empty();
        schedule.periods[0] = 1;
        assert_eq!(write_schedule_of(&schedule, &mut []), refuse(14, 0));
        schedule.links = 1;
        let mut slice = [0xAA; 6];
        assert_eq!(write_schedule_of(&schedule, &mut slice), refuse(1, 0));
        assert_eq!(slice, [0xAA; 6]);
        assert_eq!(write_schedule_of(&schedule, &mut [0; 7]), Ok(7));
    }

    #[test]
    fn the_schedule_without_links_is_written_as_end_alone() {
        let schedule = Schedule::empty();
        assert_eq!(write_schedule_of(&schedule, &mut []), refuse(1, 0));
        for room in 1..=3 {
            let mut slice = [0xAA; 3];
            assert_eq!(write_schedule_of(&schedule, &mut slice[..room]), Ok(1));
            assert_eq!(slice, [END, 0xAA, 0xAA]);
        }
    }

    #[test]
    fn without_links_only_the_empty_schedule_passes() {
        let changes: [fn(&mut Schedule); 6] = [
            |schedule| schedule.links = 1,
            |schedule| schedule.links = 63,
            |schedule| schedule.offsets[0] = 1,
            |schedule| schedule.offsets[62] = 1,
            |schedule| schedule.periods[0] = 1,
            |schedule| schedule.periods[62] = 1,
        ];
        for change in changes {
            let mut changed = Schedule::empty();
            change(&mut changed);
            let mut slice = [0xAA; 400];
            assert_eq!(write_schedule_of(&changed, &mut slice), refuse(14, 0));
            assert_eq!(slice, [0xAA; 400], "{changed:?}");
        }
    }
}
