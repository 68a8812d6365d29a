//! The calls that read or write a schedule file.

use super::Shrinking;
use crate::library::host_calls::{Call, HandedSchedule};
use crate::second::bytes::{COMMAND_LENGTH, LINK};

impl Shrinking<'_> {
    pub fn shrink_schedules(&mut self) {
        for index in 0..self.list.steps.len() {
            self.shrink_file(index);
            self.shrink_handed(index);
        }
    }

    /// All bytes at once, then each command, then each byte. A byte that has to stay becomes 0 if it can.
    fn shrink_file(&mut self, index: usize) {
        let Call::ReadSchedule { file, .. } = &self.list.steps[index].call else {
            return;
        };
        let length = file.len();
        self.attempt_file(index, Vec::clear);
        for at in (0..length).step_by(COMMAND_LENGTH).rev() {
            if !self.attempt_file(index, |file| drop_bytes(file, at, COMMAND_LENGTH)) {
                self.attempt_file(index, |file| drop_link(file, at));
            }
        }
        for at in (0..length).rev() {
            if !self.attempt_file(index, |file| drop_bytes(file, at, 1)) {
                self.attempt_file(index, |file| clear_byte(file, at));
            }
        }
    }

    fn attempt_file(&mut self, index: usize, change: impl FnOnce(&mut Vec<u8>)) -> bool {
        self.attempt_with(|list| {
            if let Call::ReadSchedule { file, .. } = &mut list.steps[index].call {
                change(file);
            }
        })
    }

    /// The links one by one, each with its entries or without. An entry that has to stay becomes 0 or 1 if it can.
    fn shrink_handed(&mut self, index: usize) {
        let Call::WriteSchedule { schedule, .. } = &self.list.steps[index].call else {
            return;
        };
        let entries = schedule.offsets.len().max(schedule.periods.len());
        for link in (0..entries).rev() {
            self.attempt_handed(index, |schedule| drop_entries(schedule, link));
        }
        while self.attempt_handed(index, |schedule| {
            schedule.links = schedule.links.saturating_sub(1)
        }) {}
        for entry in 0..entries {
            for value in [0, 1] {
                self.attempt_handed(index, |schedule| lower(&mut schedule.offsets, entry, value));
                self.attempt_handed(index, |schedule| lower(&mut schedule.periods, entry, value));
            }
        }
    }

    fn attempt_handed(&mut self, index: usize, change: impl FnOnce(&mut HandedSchedule)) -> bool {
        self.attempt_with(|list| {
            if let Call::WriteSchedule { schedule, .. } = &mut list.steps[index].call {
                change(schedule);
            }
        })
    }
}

fn clear_byte(file: &mut [u8], at: usize) {
    if let Some(byte) = file.get_mut(at) {
        *byte = 0;
    }
}

fn drop_bytes(file: &mut Vec<u8>, at: usize, count: usize) {
    let end = (at + count).min(file.len());
    file.drain(at.min(end)..end);
}

/// The numbers of the LINKs behind it become one smaller.
fn drop_link(file: &mut Vec<u8>, at: usize) {
    drop_bytes(file, at, COMMAND_LENGTH);
    let behind = file.get_mut(at..).unwrap_or_default();
    for command in behind.chunks_exact_mut(COMMAND_LENGTH) {
        if command[0] == LINK {
            command[1] = command[1].saturating_sub(1);
        }
    }
}

/// The lists keep their lengths.
fn drop_entries(schedule: &mut HandedSchedule, link: usize) {
    for list in [&mut schedule.offsets, &mut schedule.periods] {
        if link < list.len() {
            list.remove(link);
            list.push(0);
        }
    }
    if link < usize::from(schedule.links) {
        schedule.links -= 1;
    }
}

/// A value that is smaller already stays.
fn lower(list: &mut [u16], entry: usize, value: u16) {
    if let Some(old) = list.get_mut(entry) {
        *old = value.min(*old);
    }
}

#[cfg(test)]
mod tests {
    use super::super::shrink;
    use super::*;
    use crate::library::host_calls::{List, Step};
    use crate::second::bytes::{link_command, END};

    fn list_of(call: Call) -> List {
        List {
            plan: Vec::new(),
            steps: vec![Step::of(call)],
        }
    }

    fn file_of(list: &List) -> &[u8] {
        match &list.steps[..] {
            [Step {
                call: Call::ReadSchedule { file, .. },
                ..
            }] => file,
            _ => &[],
        }
    }

    fn read_list() -> List {
        let links = (1..=9).flat_map(|link| link_command(link, 5, 300 + link));
        let mut file: Vec<u8> = links.collect();
        file.extend([END, 7, 7, 7]);
        list_of(Call::ReadSchedule {
            file,
            lent: [63, 63],
        })
    }

    /// The links before it go, and it takes their numbers.
    #[test]
    fn a_link_takes_the_numbers_of_those_before_it() {
        let has_306_in_order = |list: &List| {
            let mut commands = (1..).zip(file_of(list).chunks_exact(COMMAND_LENGTH));
            let found = commands.find(|(_, command)| command[4..] == [50, 1]);
            found.is_some_and(|(number, command)| command[1] == number)
        };
        let small = shrink(read_list(), &has_306_in_order);
        assert_eq!(file_of(&small), [0, 1, 0, 0, 50, 1]);
    }

    #[test]
    fn bytes_behind_end_go_one_by_one() {
        let goes_on = |list: &List| {
            let end = file_of(list).iter().position(|&byte| byte == END);
            end.is_some_and(|end| file_of(list).len() > end + 1)
        };
        assert_eq!(file_of(&shrink(read_list(), &goes_on)), [END, 0]);
    }

    fn handed(list: &List) -> Option<&HandedSchedule> {
        match &list.steps.first()?.call {
            Call::WriteSchedule { schedule, .. } => Some(schedule),
            _ => None,
        }
    }

    /// One link and one entry past it have to stay.
    #[test]
    fn links_and_entries_that_are_not_needed_go() {
        let schedule = HandedSchedule {
            links: 20,
            offsets: (0..63).collect(),
            periods: (0..63).map(|index| index + 9).collect(),
        };
        let differs = |list: &List| {
            handed(list).is_some_and(|schedule| {
                let links = usize::from(schedule.links);
                links > 0
                    && schedule.periods[0] > schedule.offsets[0]
                    && schedule.offsets[links..].iter().any(|&offset| offset > 0)
            })
        };
        let list = list_of(Call::WriteSchedule { schedule, room: 99 });
        let small = shrink(list, &differs);
        let schedule = handed(&small).unwrap();
        assert_eq!(schedule.links, 1);
        assert_eq!((schedule.offsets[0], schedule.periods[0]), (0, 1));
        assert_eq!(schedule.offsets.iter().sum::<u16>(), 1);
        assert_eq!(schedule.periods.iter().sum::<u16>(), 1);
        assert_eq!((schedule.offsets.len(), schedule.periods.len()), (63, 63));
        assert!(small.to_string().contains("room 0\n"), "{small}");
    }
}
