//! Hosts that read and write schedules.

use super::{Judged, Lent};
use crate::library::slotplan_lib::{self, Answer};
use crate::programs::output::hex;
use crate::random::generator::Random;
use crate::second::rules::{refuse, MOST_LINKS};

/// All that is lent to the functions that read and write a schedule.
pub struct Scheduler {
    file: Lent<u8>,
    offsets: Lent<u16>,
    periods: Lent<u16>,
    out: Lent<u8>,
}

impl Scheduler {
    pub fn of(file: &[u8], lists: [&[u16]; 2], room: usize, margin: usize) -> Scheduler {
        Scheduler {
            file: Lent::of(file, margin),
            offsets: Lent::of(lists[0], margin),
            periods: Lent::of(lists[1], margin),
            out: Lent::of(&vec![0xA5; room], margin),
        }
    }

    /// Lists that mostly have the right lengths, so that the file decides, or the links and entries.
    pub fn random(random: &mut Random, file: &[u8], margin: usize) -> Scheduler {
        let any = [random.index(131), random.index(131)];
        let lengths = any.map(|any| random.pick(&[&[MOST_LINKS; 9][..], &[any]].concat()));
        let offsets = vec![random.pick(&[0, 0, 1, 2000]); lengths[0]];
        let periods = vec![random.pick(&[0, 1, 1024, 3000]); lengths[1]];
        let room = random.pick(&[file.len(), file.len(), any[0], 400]);
        Scheduler::of(file, [&offsets, &periods], room, margin)
    }

    pub fn has_right_lengths(&self) -> bool {
        [self.offsets.len(), self.periods.len()] == [MOST_LINKS; 2]
    }

    pub fn read(&mut self) -> Judged {
        let (offsets, periods) = (self.offsets.list(), self.periods.list());
        let answer = slotplan_lib::read_schedule(self.file.list(), offsets, periods);
        let filled = 0..answer.map_or(0, |_| MOST_LINKS);
        let holds = self.offsets.is_unchanged_but(&filled)
            && self.periods.is_unchanged_but(&filled)
            && self.out.is_unchanged();
        self.judge("read_schedule", answer, holds)
    }

    pub fn write(&mut self, links: u8) -> Judged {
        let (offsets, periods) = (self.offsets.list(), self.periods.list());
        let answer = slotplan_lib::write_schedule(links, offsets, periods, self.out.list());
        let filled = 0..answer.map_or(0, |length| length as usize);
        let holds = self.offsets.is_unchanged()
            && self.periods.is_unchanged()
            && self.out.is_unchanged_but(&filled);
        self.judge("write_schedule", answer, holds)
    }

    /// The file is only read by either.
    fn judge(&self, name: &str, answer: Answer, holds: bool) -> Judged {
        if !holds || !self.file.is_unchanged() {
            let what = format!("{name}: memory changed, answer {answer:?}");
            return Err(self.objection(&what));
        }
        Ok(answer)
    }

    fn objection(&self, what: &str) -> String {
        let file = &self.file.as_lent[self.file.margin..][..self.file.len()];
        let lengths = [self.offsets.len(), self.periods.len(), self.out.len()];
        let [offsets, periods, out] = lengths;
        let file = hex(file);
        format!("{what}\noffsets {offsets} periods {periods} room {out}\nfile{file}")
    }

    /// Reads the file and writes what is then in the lists, with these links if the file was refused. 02: a file that is accepted
    /// is written again to equal bytes.
    pub fn read_and_write(&mut self, links: u8) -> Result<[Answer; 2], String> {
        let read = self.read()?;
        let links = read.map_or(links, |links| links as u8);
        self.offsets.keep();
        self.periods.keep();
        let written = self.write(links)?;
        let length = self.file.len();
        let expected = match read {
            _ if !self.has_right_lengths() => [refuse(1, 0); 2],
            Ok(_) if self.out.len() < length => [read, refuse(1, 0)],
            Ok(_) => [read, Ok(length as u64)],
            Err(_) => [read, written],
        };
        let both = read.and(written).is_ok();
        if [read, written] != expected || both && !self.holds_the_file_again() {
            return Err(self.objection(&format!("read_schedule {read:?}, but then {written:?}")));
        }
        Ok([read, written])
    }

    fn holds_the_file_again(&mut self) -> bool {
        self.out.list().starts_with(self.file.list())
    }
}

#[cfg(test)]
mod tests {
    use super::super::tests::{empty_lists, judged, MARGIN};
    use super::*;
    use crate::library::model;
    use crate::library::slotplan_lib::{declared, told};
    use crate::second::bytes::{link_command, END};

    /// Links 1, 2, 3 and so on with different entries.
    fn file(links: u64) -> Vec<u8> {
        let commands = (1..=links).map(|link| link_command(link, link, 900 + link));
        let mut bytes: Vec<u8> = commands.flatten().collect();
        bytes.push(END);
        bytes
    }

    /// The lists that a file reads to.
    fn lists(file: &[u8]) -> [[u16; MOST_LINKS]; 2] {
        let [mut offsets, mut periods] = [[0; MOST_LINKS]; 2];
        model::read_schedule(file, &mut offsets, &mut periods).unwrap();
        [offsets, periods]
    }

    /// A refused file, links that are too many and a short buffer come after the lengths.
    #[test]
    fn lists_of_every_length() {
        let good = file(3);
        for offsets in 0..=130 {
            for periods in 0..=130 {
                let right = offsets == MOST_LINKS && periods == MOST_LINKS;
                let (zeros, ones) = (vec![0; offsets], vec![1; periods]);
                let calls = [(&good[..], 63, 379), (&good[..18], 64, 0)];
                let answers = calls.map(|(file, links, room)| {
                    let host = || Scheduler::of(file, [&zeros, &ones], room, 1);
                    [host().write(links), host().read()].map(judged)
                });
                let expected = if right {
                    [[Ok(379), Ok(3)], [refuse(14, 0), refuse(2, 18)]]
                } else {
                    [[refuse(1, 0); 2]; 2]
                };
                assert_eq!(answers, expected, "{offsets} offsets, {periods} periods");
            }
        }
    }

    #[test]
    fn buffers_of_every_length_for_a_schedule() {
        for links in [0, 1, 3, 63] {
            let file = file(links);
            let lists = lists(&file);
            for room in 0..=400 {
                let mut host = Scheduler::of(&file, [&lists[0], &lists[1]], room, MARGIN);
                let expected = if room < file.len() {
                    refuse(1, 0)
                } else {
                    Ok(file.len() as u64)
                };
                assert_eq!(judged(host.write(links as u8)), expected);
                if expected.is_ok() {
                    assert_eq!(host.out.list()[..file.len()], file);
                }
            }
        }
    }

    #[test]
    fn empty_lists_of_a_schedule_may_be_anywhere() {
        let (file, mut out) = (file(1), [9; 7]);
        let [mut offsets, mut periods] = lists(&file);
        let before = (offsets, periods);
        let (bytes, filled) = (file.as_ptr(), out.as_mut_ptr());
        let (first, second) = (offsets.as_mut_ptr(), periods.as_mut_ptr());
        for at in 0..4 {
            let (none, no_words) = (empty_lists::<u8>()[at], empty_lists::<u16>()[at]);
            let answers = unsafe {
                [
                    declared::slotplan_read_schedule(none, 0, first, 63, second, 63),
                    declared::slotplan_read_schedule(none, 0, no_words, 0, no_words, 0),
                    declared::slotplan_read_schedule(bytes, 7, no_words, 0, second, 63),
                    declared::slotplan_read_schedule(bytes, 7, first, 63, no_words, 0),
                    declared::slotplan_write_schedule(1, no_words, 0, no_words, 0, none, 0),
                    declared::slotplan_write_schedule(1, no_words, 0, second, 63, filled, 7),
                    declared::slotplan_write_schedule(1, first, 63, no_words, 0, filled, 7),
                    declared::slotplan_write_schedule(2, first, 63, second, 63, none, 0),
                    declared::slotplan_write_schedule(1, first, 63, second, 63, none, 0),
                ]
            };
            let expected = [2, 1, 1, 1, 1, 1, 1, 14, 1].map(|number| refuse(number, 0));
            assert_eq!(answers.map(told), expected);
        }
        assert_eq!(((offsets, periods), out), (before, [9; 7]));
    }

    /// Each period is the next link's offset.
    #[test]
    fn lists_that_are_only_read_may_overlap() {
        let entries: Vec<u16> = (0..=63).collect();
        let mut out = [0; 379];
        let answer = slotplan_lib::write_schedule(63, &entries[..63], &entries[1..], &mut out);
        assert_eq!(answer, Ok(379));
        let mut expected = [0; 379];
        model::write_schedule(63, &entries[..63], &entries[1..], &mut expected).unwrap();
        assert_eq!(out, expected);
        let equal = slotplan_lib::write_schedule(63, &entries[1..], &entries[1..], &mut out);
        assert_eq!(equal, refuse(14, 0));
    }

    #[test]
    fn a_schedule_may_begin_at_any_aligned_address() {
        let file = file(5);
        for shift in 0..16 {
            let shifted = [vec![9; shift], file.clone()].concat();
            let [mut offsets, mut periods] = [[7; MOST_LINKS + 16]; 2];
            let lent = [&mut offsets[shift..], &mut periods[15 - shift..]];
            let [first, second] = lent.map(|list| &mut list[..MOST_LINKS]);
            assert_eq!(
                slotplan_lib::read_schedule(&shifted[shift..], first, second),
                Ok(5)
            );
            assert_eq!(
                [&*first, &*second],
                lists(&file).each_ref().map(|list| &list[..])
            );
            let mut out = [9; 48];
            let written = slotplan_lib::write_schedule(5, first, second, &mut out[shift..][..31]);
            assert_eq!(written, Ok(31));
            assert_eq!(out[shift..][..31], file);
        }
    }

    /// A host that compares its memory objects to each cell that is written where it must not be.
    #[test]
    fn a_changed_cell_of_a_schedule_is_objected_to() {
        let file = file(2);
        let [offsets, periods] = lists(&file);
        let host = || Scheduler::of(&file, [&offsets, &periods], 13, MARGIN);
        assert_eq!(host().read(), Ok(Ok(2)));
        assert_eq!(host().write(2), Ok(Ok(13)));
        let beside: [fn(&mut Scheduler); 5] = [
            |host| host.file.cells[MARGIN] ^= 1,
            |host| host.offsets.cells[MARGIN - 1] ^= 1,
            |host| host.periods.cells[MARGIN + MOST_LINKS] ^= 1,
            |host| host.out.cells[MARGIN + 13] ^= 1,
            |host| host.out.cells[MARGIN - 1] ^= 1,
        ];
        for write in beside {
            let mut changed = host();
            write(&mut changed);
            assert!(changed.read().is_err());
            assert!(changed.write(2).is_err());
        }
        let mut changed = host();
        changed.offsets.cells[MARGIN + 62] ^= 1;
        assert!(changed.write(2).is_err());
        let mut changed = host();
        changed.out.cells[MARGIN] ^= 1;
        assert!(changed.read().is_err());
        assert!(changed.write(64).is_err());
    }
}
