//! The eleven functions of the header by implementation, so that one can take the place of another. All are called through a
//! pointer, so that none is built into the caller.

use crate::library::model;
use crate::library::slotplan_lib::{self, Answer, NewFlow};
use crate::plain;

#[derive(Clone, Copy)]
pub struct Functions {
    pub read_plan: fn(&[u8]) -> Answer,
    pub schedule: fn(&[u8], &mut [u8]) -> Answer,
    pub read_schedule: fn(&[u8], &mut [u16], &mut [u16]) -> Answer,
    pub write_schedule: fn(u8, &[u16], &[u16], &mut [u8]) -> Answer,
    pub admit: fn(&[u8], &mut [u32], NewFlow, &mut [u8]) -> Answer,
    pub release: fn(&[u8], &mut [u32], u8, &mut [u8]) -> Answer,
    pub start: fn(&[u8], &mut [u32]) -> Answer,
    pub slot: fn(&[u8], &mut [u32], &[u16], u32) -> Answer,
    pub sender: fn(&[u8], u8, u32) -> Answer,
    pub bound: fn(&[u8], u8) -> Answer,
    pub assign: fn(&[u16], &mut [u16], &mut [u16]) -> Answer,
}

macro_rules! functions_of {
    ($implementation:ident) => {
        Functions {
            read_plan: $implementation::read_plan,
            schedule: $implementation::schedule,
            read_schedule: $implementation::read_schedule,
            write_schedule: $implementation::write_schedule,
            admit: $implementation::admit,
            release: $implementation::release,
            start: $implementation::start,
            slot: $implementation::slot,
            sender: $implementation::sender,
            bound: $implementation::bound,
            assign: $implementation::assign,
        }
    };
}

/// The compiled library.
pub const LIBRARY: Functions = functions_of!(slotplan_lib);

/// The independent implementation.
pub const MODEL: Functions = functions_of!(model);

/// Plain Rust that is made to be fast.
pub const PLAIN: Functions = functions_of!(plain);

#[cfg(test)]
mod tests {
    use super::*;
    use crate::second::bytes::plan_p;
    use crate::second::calls::COUNTERS;
    use crate::second::rules::refuse;

    const ALL: [Functions; 3] = [LIBRARY, MODEL, PLAIN];

    const fn flow(number: u8, entry: u8, rate: u8, deadline: u16) -> NewFlow {
        NewFlow {
            number,
            entry,
            rate,
            deadline,
        }
    }

    /// From one line to the next the first failing check is mended; the room for the new bytes is judged last.
    #[test]
    fn checks_of_an_admission_come_in_the_order_of_the_header() {
        let (good, bad) = (plan_p(9, 7), plan_p(9, 6));
        let lines = [
            (&bad, 577, flow(0, 4, 0, 3), 0, refuse(1, 0)),
            (&bad, 575, flow(0, 4, 0, 3), 0, refuse(1, 0)),
            (&bad, 576, flow(0, 4, 0, 3), 0, refuse(14, 0)),
            (&good, 576, flow(0, 4, 0, 3), 0, refuse(5, 0)),
            (&good, 576, flow(0, 4, 6, 3), 0, refuse(6, 0)),
            (&good, 576, flow(0, 2, 6, 3), 0, refuse(15, 0)),
            (&good, 576, flow(5, 2, 6, 3), 0, refuse(17, 2)),
            (&good, 576, flow(5, 2, 5, 3), 0, refuse(18, 5)),
            (&good, 576, flow(5, 2, 5, 4), 30, refuse(1, 0)),
            (&good, 576, flow(5, 2, 5, 4), 31, Ok(31)),
        ];
        for functions in ALL {
            let mut counters = [7; COUNTERS + 1];
            for (plan, lent, flow, room, expected) in &lines {
                let mut out = vec![9; *room];
                let answer = (functions.admit)(plan, &mut counters[..*lent], *flow, &mut out);
                assert_eq!(answer, *expected);
                assert!(answer.is_ok() || counters == [7; COUNTERS + 1]);
                assert!(answer.is_ok() || out.iter().all(|&byte| byte == 9));
            }
            assert_eq!(counters[44..55], [7, 0, 0, 0, 0, 0, 0, 0, 0, 0, 7]);
        }
    }

    /// From one line to the next the first failing check is mended. The lists are 7 and 8 before.
    #[test]
    fn checks_of_a_read_schedule_come_in_the_order_of_the_header() {
        let lines: [(&[u8], [usize; 2], Answer); 13] = [
            (&[0x01, 2, 1], [62, 64], refuse(1, 0)),
            (&[0x01, 2, 1], [63, 64], refuse(1, 0)),
            (&[0x01, 2, 1], [63, 62], refuse(1, 0)),
            (&[0x01, 2, 1], [63, 63], refuse(3, 0)),
            (&[0x11, 2, 1], [63, 63], refuse(2, 0)),
            (&[0x11, 2, 1, 0, 1, 0], [63, 63], refuse(21, 0)),
            (&[0x11, 1, 1, 0, 1, 0], [63, 63], refuse(22, 0)),
            (&[0x11, 1, 1, 0, 1, 4], [63, 63], refuse(22, 0)),
            (&[0x11, 1, 1, 0, 0, 4], [63, 63], refuse(2, 6)),
            (&[0xFF, 0xFF], [63, 63], refuse(10, 1)),
            (&[0x11, 1, 1, 0, 0, 4, 0x11, 1], [63, 63], refuse(2, 6)),
            (&[0x11, 1, 1, 0, 0, 4, 0xFF, 1], [63, 63], refuse(10, 7)),
            (&[0x11, 1, 1, 0, 0, 4, 0xFF], [63, 63], Ok(1)),
        ];
        for functions in ALL {
            let (mut offsets, mut periods) = ([7; 64], [8; 64]);
            for (file, lent, expected) in lines {
                let filled = (&mut offsets[..lent[0]], &mut periods[..lent[1]]);
                assert_eq!(
                    (functions.read_schedule)(file, filled.0, filled.1),
                    expected
                );
                assert!(expected.is_ok() || (offsets, periods) == ([7; 64], [8; 64]));
            }
            let (mut offsets_read, mut periods_read) = ([0; 64], [0; 64]);
            (offsets_read[0], offsets_read[63]) = (1, 7);
            (periods_read[0], periods_read[63]) = (1024, 8);
            assert_eq!((offsets, periods), (offsets_read, periods_read));
        }
    }

    /// From one line to the next the first failing check is mended; the room for the bytes is judged last.
    #[test]
    fn checks_of_a_write_schedule_come_in_the_order_of_the_header() {
        let lists = |first: [u16; 2], other: u16| {
            let (mut offsets, mut periods) = ([0; 64], [0; 64]);
            (offsets[0], periods[0], periods[62]) = (first[0], first[1], other);
            (offsets, periods)
        };
        let lines = [
            (64, lists([1, 1], 5), [62, 64], 0, refuse(1, 0)),
            (64, lists([1, 1], 5), [63, 62], 0, refuse(1, 0)),
            (64, lists([1, 1], 5), [63, 63], 0, refuse(14, 0)),
            (1, lists([1, 1], 5), [63, 63], 0, refuse(14, 0)),
            (1, lists([1, 1025], 5), [63, 63], 0, refuse(14, 0)),
            (1, lists([1, 2], 5), [63, 63], 0, refuse(14, 0)),
            (0, lists([1, 2], 0), [63, 63], 0, refuse(14, 0)),
            (0, lists([0, 0], 0), [63, 63], 0, refuse(1, 0)),
            (0, lists([0, 0], 0), [63, 63], 2, Ok(1)),
            (1, lists([1, 2], 0), [63, 63], 6, refuse(1, 0)),
            (1, lists([1, 2], 0), [63, 63], 8, Ok(7)),
        ];
        for functions in ALL {
            for (links, (offsets, periods), lent, room, expected) in lines {
                let mut out = vec![9; room];
                let (offsets, periods) = (&offsets[..lent[0]], &periods[..lent[1]]);
                let answer = (functions.write_schedule)(links, offsets, periods, &mut out);
                assert_eq!(answer, expected);
                let written: &[u8] = match answer {
                    Ok(1) => &[0xFF, 9],
                    Ok(_) => &[0x11, 1, 1, 0, 2, 0, 0xFF, 9],
                    Err(_) => &[9; 6][..room],
                };
                assert_eq!(out, written);
            }
        }
    }

    /// 02, U3: END alone is the plan of the site without links.
    #[test]
    fn end_alone_is_a_plan_like_any_other() {
        let wired = [0xFF];
        for functions in ALL {
            assert_eq!((functions.read_plan)(&wired), Ok(0));
            assert_eq!((functions.read_plan)(&[0xFF, 0]), refuse(10, 1));
            assert_eq!((functions.sender)(&wired, 0, 0), Ok(0));
            assert_eq!((functions.sender)(&wired, 0, u32::MAX), Ok(0));
            assert_eq!((functions.sender)(&wired, 1, 0), refuse(6, 0));
            assert_eq!((functions.sender)(&wired, 255, 0), refuse(6, 0));
            assert_eq!((functions.sender)(&[0xFF, 0], 0, 0), refuse(14, 0));
            assert_eq!((functions.bound)(&wired, 0), refuse(16, 0));
            assert_eq!((functions.bound)(&wired, 63), refuse(16, 63));
            assert_eq!((functions.bound)(&wired, 64), refuse(5, 0));
            for (room, expected) in [(0, refuse(1, 0)), (1, Ok(1)), (3, Ok(1))] {
                let mut out = [9; 3];
                assert_eq!((functions.schedule)(&wired, &mut out[..room]), expected);
                let first = if expected.is_ok() { 0xFF } else { 9 };
                assert_eq!(out, [first, 9, 9]);
            }
        }
    }

    /// No flow can enter, so none is live. From one line to the next the first failing check is mended.
    #[test]
    fn without_links_no_flow_is_taken_in_or_let_go() {
        let admissions = [
            (575, flow(64, 1, 1, 1), refuse(1, 0)),
            (577, flow(64, 1, 1, 1), refuse(1, 0)),
            (576, flow(64, 1, 1, 1), refuse(5, 0)),
            (576, flow(0, 1, 0, 1), refuse(5, 0)),
            (576, flow(0, 1, 1, 0), refuse(5, 0)),
            (576, flow(0, 1, 1, 1), refuse(6, 0)),
            (576, flow(63, 0, 255, 65_535), refuse(6, 0)),
            (576, flow(63, 255, 255, 65_535), refuse(6, 0)),
        ];
        let releases = [
            (577, 64, refuse(1, 0)),
            (576, 64, refuse(5, 0)),
            (576, 63, refuse(16, 63)),
        ];
        for functions in ALL {
            let (mut counters, mut out) = ([7; COUNTERS + 1], [9; 13]);
            for (lent, flow, expected) in admissions {
                let cells = &mut counters[..lent];
                assert_eq!((functions.admit)(&[0xFF], cells, flow, &mut out), expected);
            }
            for (lent, number, expected) in releases {
                let cells = &mut counters[..lent];
                let answer = (functions.release)(&[0xFF], cells, number, &mut out);
                assert_eq!(answer, expected);
            }
            assert_eq!((counters, out), ([7; COUNTERS + 1], [9; 13]));
        }
    }

    /// A slot has nothing to move, and no number may have arrivals. All cells are of numbers not live.
    #[test]
    fn without_links_slots_pass_and_a_start_clears_the_counters() {
        let (none, mut some) = ([0; 65], [0; 65]);
        some[63] = 1;
        let lines = [
            (577, &some[..64], refuse(1, 0)),
            (576, &some[..], refuse(1, 0)),
            (576, &some[..63], refuse(1, 0)),
            (576, &some[..64], refuse(20, 63)),
            (576, &none[..64], Ok(0)),
        ];
        for functions in ALL {
            let mut counters = [u32::MAX; COUNTERS + 1];
            for (lent, arrivals, expected) in lines {
                let cells = &mut counters[..lent];
                assert_eq!((functions.slot)(&[0xFF], cells, arrivals, 5), expected);
                assert_eq!(counters, [u32::MAX; COUNTERS + 1]);
            }
            let start = |cells: &mut [u32]| (functions.start)(&[0xFF], cells);
            assert_eq!(start(&mut counters), refuse(1, 0));
            assert_eq!(counters, [u32::MAX; COUNTERS + 1]);
            assert_eq!(start(&mut counters[..COUNTERS]), Ok(0));
            assert_eq!(counters[..COUNTERS], [0; COUNTERS]);
            assert_eq!(counters[COUNTERS], u32::MAX);
        }
    }

    #[test]
    fn end_alone_reads_to_the_schedule_without_links() {
        for functions in ALL {
            let (mut offsets, mut periods) = ([7; 64], [8; 64]);
            let filled = (&mut offsets[..63], &mut periods[..63]);
            let answer = (functions.read_schedule)(&[0xFF], filled.0, filled.1);
            assert_eq!(answer, Ok(0));
            assert_eq!((offsets[63], periods[63]), (7, 8));
            assert_eq!(
                (&offsets[..63], &periods[..63]),
                (&[0; 63][..], &[0; 63][..])
            );
            let mut out = [9; 2];
            let lists = [&offsets[..63], &periods[..63]];
            assert_eq!(
                (functions.write_schedule)(0, lists[0], lists[1], &mut out),
                Ok(1)
            );
            assert_eq!(out, [0xFF, 9]);
        }
    }

    #[test]
    fn readings_bounds_and_senders_of_p() {
        let plan = plan_p(9, 7);
        for functions in ALL {
            assert_eq!((functions.read_plan)(&plan), Ok(3 + 256));
            assert_eq!((functions.read_plan)(&plan_p(9, 6)), refuse(13, 0));
            assert_eq!((functions.bound)(&plan, 0), Ok(7));
            assert_eq!((functions.bound)(&plan, 63), refuse(16, 63));
            assert_eq!((functions.bound)(&plan, 64), refuse(5, 0));
            assert_eq!((functions.bound)(&plan[..24], 64), refuse(14, 0));
            assert_eq!((functions.sender)(&plan, 0, 5), Ok(2));
            assert_eq!((functions.sender)(&plan, 4, 5), refuse(6, 0));
            assert_eq!((functions.sender)(&[], 0, 5), refuse(14, 0));
        }
    }
}
