//! What is measured: the calls, each on buffers that are there before the clock starts.

use super::sites::Case;
use crate::library::functions::Functions;
use crate::library::slotplan_lib::Answer;
use crate::second::calls::COUNTERS;
use crate::second::rules::MOST_LINKS;
use std::hint::black_box;

#[derive(Clone, Copy, Debug, PartialEq, Eq)]
pub enum Row {
    ReadPlan,
    Schedule,
    ReadSchedule,
    WriteSchedule,
    Admit,
    Release,
    Start,
    Slot,
    Sender,
    Bound,
    /// So many slots after a start.
    Rehearsal(u32),
    /// The slot rule on so many gaps of 1,024.
    Wide(usize),
    /// The slot rule on the list with the most collision tests.
    Full,
    /// The slot rule on a list that no base fits.
    Crowded,
}

impl Row {
    pub fn is_accepted(self) -> bool {
        self != Row::Crowded
    }
}

pub const REHEARSAL: Row = Row::Rehearsal(100_000);

/// The rows that take a site.
pub const OF_SITES: [(&str, Row); 11] = [
    ("read_plan", Row::ReadPlan),
    ("schedule", Row::Schedule),
    ("read_schedule", Row::ReadSchedule),
    ("write_schedule", Row::WriteSchedule),
    ("admit", Row::Admit),
    ("release", Row::Release),
    ("start", Row::Start),
    ("slot", Row::Slot),
    ("sender", Row::Sender),
    ("bound", Row::Bound),
    ("rehearsal", REHEARSAL),
];

/// The rows of the slot rule alone.
pub const OF_LISTS: [(&str, Row); 2] = [("full", Row::Full), ("crowded", Row::Crowded)];

pub fn row(name: &str) -> Option<Row> {
    let mut rows = OF_SITES.iter().chain(&OF_LISTS);
    rows.find(|row| row.0 == name).map(|row| row.1)
}

/// All slots are taken in the end, and the last offset is 943.
pub fn full_gaps() -> [u16; MOST_LINKS] {
    let mut gaps = [59; MOST_LINKS];
    gaps[58..].copy_from_slice(&[118, 236, 472, 944, 944]);
    gaps
}

/// All bases from 62 to 32 are tried.
const CROWDED_GAPS: [u16; MOST_LINKS] = [62; MOST_LINKS];

/// What the calls of one implementation leave.
#[derive(Debug, PartialEq, Eq)]
struct Buffers {
    counters: [u32; COUNTERS],
    out: [u8; 763],
    offsets: [u16; MOST_LINKS],
    periods: [u16; MOST_LINKS],
    /// The next slot's number.
    slot: u32,
}

/// One implementation on one site.
pub struct Bench<'a> {
    functions: &'static Functions,
    case: &'a Case,
    buffers: Box<Buffers>,
}

/// The answer to the last of so many calls.
fn repeat(count: u32, mut call: impl FnMut() -> Answer) -> Answer {
    for _ in 1..count {
        let _ = black_box(call());
    }
    black_box(call())
}

impl Bench<'_> {
    pub fn new<'a>(functions: &'static Functions, case: &'a Case) -> Bench<'a> {
        let buffers = Box::new(Buffers {
            counters: [0; COUNTERS],
            out: [0; 763],
            offsets: [0; MOST_LINKS],
            periods: [0; MOST_LINKS],
            slot: 0,
        });
        Bench {
            functions,
            case,
            buffers,
        }
    }

    /// What comes before the clock starts.
    pub fn prepare(&mut self, row: Row) {
        if let Row::Rehearsal(_) = row {
            self.buffers.counters.fill(0);
            self.buffers.slot = 0;
        }
    }

    /// Runs a row so many times, at least once, and gives the last answer.
    pub fn run(&mut self, row: Row, count: u32) -> Answer {
        let plan = || black_box(&self.case.plan[..]);
        let Buffers { counters, out, .. } = &mut *self.buffers;
        let functions = self.functions;
        let last = self.case.last;
        match row {
            Row::ReadPlan => repeat(count, || (functions.read_plan)(plan())),
            Row::Schedule => repeat(count, || (functions.schedule)(plan(), out)),
            Row::ReadSchedule => self.reads(count),
            Row::WriteSchedule => self.writes(count),
            Row::Admit => {
                let plan = &self.case.without_last;
                repeat(count, || {
                    (functions.admit)(black_box(plan), counters, black_box(last), out)
                })
            }
            Row::Release => repeat(count, || {
                (functions.release)(plan(), counters, last.number, out)
            }),
            Row::Start => repeat(count, || (functions.start)(plan(), counters)),
            Row::Slot => self.slots(count),
            Row::Rehearsal(slots) => self.slots(slots * count),
            Row::Sender => self.senders(count),
            Row::Bound => repeat(count, || (functions.bound)(plan(), black_box(last.number))),
            Row::Wide(children) => self.assign(&[1024; MOST_LINKS][..children], count),
            Row::Full => self.assign(&full_gaps(), count),
            Row::Crowded => self.assign(&CROWDED_GAPS, count),
        }
    }

    fn reads(&mut self, count: u32) -> Answer {
        let (case, read_schedule) = (self.case, self.functions.read_schedule);
        let Buffers {
            offsets, periods, ..
        } = &mut *self.buffers;
        repeat(count, || {
            read_schedule(black_box(&case.schedule), offsets, periods)
        })
    }

    fn writes(&mut self, count: u32) -> Answer {
        let (case, write_schedule) = (self.case, self.functions.write_schedule);
        let out = &mut self.buffers.out;
        repeat(count, || {
            let [offsets, periods] = black_box(&case.lists);
            write_schedule(black_box(case.links), offsets, periods, out)
        })
    }

    /// Slots with rising numbers, in each of which every flow's rate arrives.
    fn slots(&mut self, count: u32) -> Answer {
        let (case, slot) = (self.case, self.functions.slot);
        let Buffers {
            counters,
            slot: number,
            ..
        } = &mut *self.buffers;
        repeat(count, || {
            let (plan, arrivals) = (black_box(&case.plan), black_box(&case.arrivals));
            let answer = slot(plan, counters, arrivals, *number);
            *number += 1;
            answer
        })
    }

    /// The root's senders in slots with rising numbers.
    fn senders(&mut self, count: u32) -> Answer {
        let (case, sender) = (self.case, self.functions.sender);
        let number = &mut self.buffers.slot;
        repeat(count, || {
            let answer = sender(black_box(&case.plan), 0, *number);
            *number += 1;
            answer
        })
    }

    fn assign(&mut self, gaps: &[u16], count: u32) -> Answer {
        let assign = self.functions.assign;
        let Buffers {
            offsets, periods, ..
        } = &mut *self.buffers;
        let (offsets, periods) = (&mut offsets[..gaps.len()], &mut periods[..gaps.len()]);
        repeat(count, || assign(black_box(gaps), offsets, periods))
    }

    pub fn left_the_same(&self, other: &Bench) -> bool {
        self.buffers == other.buffers
    }
}
