//! A schedule in fixed arrays, read and judged in one pass over the bytes.

use super::check_end;
use crate::second::bytes::{COMMAND_LENGTH, END, LINK};
use crate::second::rules::{refuse, Refusal, MOST_LINKS};

pub struct FixedSchedule {
    pub links: usize,
    pub offsets: [u16; MOST_LINKS],
    pub periods: [u16; MOST_LINKS],
}

/// 22.
fn within_limits(offset: u16, period: u16) -> bool {
    offset < period && period <= 1024
}

impl FixedSchedule {
    /// For each command 3, 2, 21, 22, for END 10.
    pub fn read(file: &[u8]) -> Result<FixedSchedule, Refusal> {
        let mut schedule = FixedSchedule {
            links: 0,
            offsets: [0; MOST_LINKS],
            periods: [0; MOST_LINKS],
        };
        for (count, bytes) in file.chunks(COMMAND_LENGTH).enumerate() {
            let at = count * COMMAND_LENGTH;
            let read = match (bytes[0], bytes) {
                (END, _) => return check_end(file, at).map(|()| schedule),
                (LINK, &[_, number, a, b, c, d]) => schedule.add_link(
                    number,
                    u16::from_le_bytes([a, b]),
                    u16::from_le_bytes([c, d]),
                ),
                (LINK, _) => Err(2),
                _ => Err(3),
            };
            read.or_else(|number| refuse(number, at))?;
        }
        refuse(2, file.len())
    }

    fn add_link(&mut self, number: u8, offset: u16, period: u16) -> Result<(), u64> {
        let index = self.links;
        if index == MOST_LINKS || usize::from(number) != index + 1 {
            return Err(21);
        }
        if !within_limits(offset, period) {
            return Err(22);
        }
        self.offsets[index] = offset;
        self.periods[index] = period;
        self.links = index + 1;
        Ok(())
    }
}

/// 14, for lists of 63: whether a file reads to the schedule. All entries are judged in any case, since the compiler then takes
/// several at a time.
pub fn is_sound(links: usize, offsets: &[u16], periods: &[u16]) -> bool {
    if links > MOST_LINKS {
        return false;
    }
    let (used_offsets, other_offsets) = offsets.split_at(links);
    let (used_periods, other_periods) = periods.split_at(links);
    let mut sound = true;
    for (&offset, &period) in used_offsets.iter().zip(used_periods) {
        sound &= within_limits(offset, period);
    }
    let others = other_offsets.iter().chain(other_periods);
    sound && others.fold(0, |bits, entry| bits | entry) == 0
}

pub fn link_command(link: u8, offset: u16, period: u16) -> [u8; COMMAND_LENGTH] {
    let (offset, period) = (offset.to_le_bytes(), period.to_le_bytes());
    [LINK, link, offset[0], offset[1], period[0], period[1]]
}
