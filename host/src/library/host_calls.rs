//! Lists of calls of the library as a host makes them: each works on the memory that the ones before left behind.

use crate::library::functions::Functions;
use crate::library::slotplan_lib::{Answer, NewFlow};
use crate::programs::output::hex;
use crate::second::calls::COUNTERS;
use crate::second::rules::refused;
use std::{fmt, iter};

/// Cells before each lent list and behind the longest one that is lent, which no call may touch.
const MARGIN: usize = 16;

/// The most counters, bytes to be filled, and offsets or periods that are lent. All are more than any call needs.
pub const MOST_COUNTERS: usize = COUNTERS + 124;
pub const MOST_ROOM: usize = 800;
pub const MOST_ENTRIES: usize = 72;

/// A call with its operands and with the lengths of the lists lent to it.
#[derive(Clone, Debug, PartialEq, Eq)]
pub enum Call {
    ReadPlan,
    Schedule {
        room: usize,
    },
    ReadSchedule {
        file: Vec<u8>,
        /// How many offsets, and how many periods.
        lent: [usize; 2],
    },
    WriteSchedule {
        schedule: HandedSchedule,
        room: usize,
    },
    Admit {
        lent: usize,
        flow: NewFlow,
        room: usize,
    },
    Release {
        lent: usize,
        number: u8,
        room: usize,
    },
    Start {
        lent: usize,
    },
    Slot {
        lent: usize,
        arrivals: Vec<u16>,
        number: u32,
    },
    Sender {
        parent: u8,
        slot: u32,
    },
    Bound {
        number: u8,
    },
    Assign {
        gaps: Vec<u16>,
        offsets: usize,
        periods: usize,
    },
}

impl Call {
    pub fn name(&self) -> &'static str {
        match self {
            Call::ReadPlan => "read_plan",
            Call::Schedule { .. } => "schedule",
            Call::ReadSchedule { .. } => "read_schedule",
            Call::WriteSchedule { .. } => "write_schedule",
            Call::Admit { .. } => "admit",
            Call::Release { .. } => "release",
            Call::Start { .. } => "start",
            Call::Slot { .. } => "slot",
            Call::Sender { .. } => "sender",
            Call::Bound { .. } => "bound",
            Call::Assign { .. } => "assign",
        }
    }
}

/// Operands are in hexadecimal, lengths and indexes in decimal.
impl fmt::Display for Call {
    fn fmt(&self, form: &mut fmt::Formatter) -> fmt::Result {
        write!(form, "{}", self.name())?;
        match self {
            Call::ReadPlan => Ok(()),
            Call::Schedule { room } => write!(form, " room {room}"),
            Call::ReadSchedule { file, lent } => {
                let (file, [offsets, periods]) = (hex(file), lent);
                write!(form, "{file}, offsets {offsets} periods {periods}")
            }
            Call::WriteSchedule { schedule, room } => write!(form, " {schedule}, room {room}"),
            Call::Admit { lent, flow, room } => {
                let (number, entry, rate) = (flow.number, flow.entry, flow.rate);
                write!(form, " number {number:02X} entry {entry:02X}")?;
                write!(form, " rate {rate:02X} deadline {:04X}", flow.deadline)?;
                write!(form, ", counters {lent} room {room}")
            }
            Call::Release { lent, number, room } => {
                write!(form, " number {number:02X}, counters {lent} room {room}")
            }
            Call::Start { lent } => write!(form, ", counters {lent}"),
            Call::Slot {
                lent,
                arrivals,
                number,
            } => {
                let list = shown_words(arrivals);
                write!(form, " {number:08X}, counters {lent} arrivals {list}")
            }
            Call::Sender { parent, slot } => write!(form, " parent {parent:02X} slot {slot:08X}"),
            Call::Bound { number } => write!(form, " number {number:02X}"),
            Call::Assign {
                gaps,
                offsets,
                periods,
            } => {
                let gaps: String = gaps.iter().map(|gap| format!(" {gap:04X}")).collect();
                write!(form, "{gaps}, offsets {offsets} periods {periods}")
            }
        }
    }
}

/// The length of a list and its numbers other than 0, each with its index.
fn shown_list(list: impl ExactSizeIterator<Item = u32>, digits: usize) -> String {
    let length = list.len().to_string();
    let others = list.enumerate().filter(|&(_, value)| value != 0);
    let others = others.map(|(index, value)| format!(" {index}={value:0digits$X}"));
    length + &others.collect::<String>()
}

fn shown_words(list: &[u16]) -> String {
    shown_list(list.iter().map(|&value| u32::from(value)), 4)
}

/// A schedule as a host hands it in, with lists of any length.
#[derive(Clone, Debug, PartialEq, Eq)]
pub struct HandedSchedule {
    pub links: u8,
    pub offsets: Vec<u16>,
    pub periods: Vec<u16>,
}

impl fmt::Display for HandedSchedule {
    fn fmt(&self, form: &mut fmt::Formatter) -> fmt::Result {
        let [offsets, periods] = [&self.offsets, &self.periods].map(|list| shown_words(list));
        let links = self.links;
        write!(
            form,
            "links {links:02X}, offsets {offsets}, periods {periods}"
        )
    }
}

/// A call, and what the host does just before it.
#[derive(Clone, Debug, PartialEq, Eq)]
pub struct Step {
    /// Bytes that are handed in this once instead of the plan that the host keeps.
    pub other_plan: Option<Vec<u8>>,
    /// What the host writes into the 576 counters.
    pub counters: Option<Vec<u32>>,
    pub call: Call,
}

impl Step {
    pub fn of(call: Call) -> Step {
        Step {
            other_plan: None,
            counters: None,
            call,
        }
    }
}

impl fmt::Display for Step {
    fn fmt(&self, form: &mut fmt::Formatter) -> fmt::Result {
        if let Some(counters) = &self.counters {
            let list = shown_list(counters.iter().copied(), 8);
            writeln!(form, "counters before the call {list}")?;
        }
        if let Some(plan) = &self.other_plan {
            writeln!(form, "plan of this call{}", hex(plan))?;
        }
        write!(form, "{}", self.call)
    }
}

/// The plan and the counters, all 0, that a host begins with, and its calls.
#[derive(Clone, Debug, PartialEq, Eq)]
pub struct List {
    pub plan: Vec<u8>,
    pub steps: Vec<Step>,
}

impl fmt::Display for List {
    fn fmt(&self, form: &mut fmt::Formatter) -> fmt::Result {
        writeln!(form, "plan{}", hex(&self.plan))?;
        self.steps
            .iter()
            .try_for_each(|step| writeln!(form, "{step}"))
    }
}

pub fn shown_answer(answer: Answer) -> String {
    answer.map_or_else(refused, |value| format!("accepted {value}"))
}

/// The memory of a host.
#[derive(Clone, PartialEq, Eq)]
pub struct Memory {
    pub plan: Vec<u8>,
    counters: Vec<u32>,
    out: Vec<u8>,
    offsets: Vec<u16>,
    periods: Vec<u16>,
}

/// What a cell holds that nobody has written: neighbours differ, so that a shifted list shows.
fn sentinel(index: usize) -> u8 {
    (index * 37 + 11) as u8
}

fn sentinels<T: From<u8>>(most: usize) -> Vec<T> {
    let cells = 0..most + 2 * MARGIN;
    cells.map(|index| T::from(sentinel(index))).collect()
}

/// A list of a schedule that is handed in, with sentinels beside it.
fn among_sentinels(list: &[u16]) -> Vec<u16> {
    let mut cells = sentinels(MOST_ENTRIES);
    cells[MARGIN..][..list.len()].copy_from_slice(list);
    cells
}

impl Memory {
    pub fn of(plan: &[u8]) -> Memory {
        let mut memory = Memory {
            plan: plan.to_vec(),
            counters: sentinels(MOST_COUNTERS),
            out: sentinels(MOST_ROOM),
            offsets: sentinels(MOST_ENTRIES),
            periods: sentinels(MOST_ENTRIES),
        };
        memory.counters_mut().fill(0);
        memory
    }

    fn counters(&self) -> &[u32] {
        &self.counters[MARGIN..][..COUNTERS]
    }

    fn counters_mut(&mut self) -> &mut [u32] {
        &mut self.counters[MARGIN..][..COUNTERS]
    }

    /// The buffers to be filled hold nothing of earlier calls.
    fn prepare(&mut self, step: &Step) {
        self.out = sentinels(MOST_ROOM);
        match &step.call {
            Call::Assign { .. } | Call::ReadSchedule { .. } => {
                self.offsets = sentinels(MOST_ENTRIES);
                self.periods = sentinels(MOST_ENTRIES);
            }
            Call::WriteSchedule { schedule, .. } => {
                self.offsets = among_sentinels(&schedule.offsets);
                self.periods = among_sentinels(&schedule.periods);
            }
            _ => (),
        }
        if let Some(counters) = &step.counters {
            self.counters_mut().copy_from_slice(counters);
        }
    }

    /// A list that makes one call on this plan and these counters.
    pub fn before(&self, step: &Step) -> List {
        let counters = Some(self.counters().to_vec());
        let step = step.clone();
        List {
            plan: self.plan.clone(),
            steps: vec![Step {
                counters: step.counters.or(counters),
                ..step
            }],
        }
    }

    /// The answer to a call, for which the memory is prepared. After an accepted change the written bytes are the plan.
    fn answer(&mut self, functions: &Functions, step: &Step) -> Answer {
        let plan = step.other_plan.as_ref().unwrap_or(&self.plan).clone();
        let answer = self.call(functions, &plan, &step.call);
        if let (Call::Admit { room, .. } | Call::Release { room, .. }, Ok(length)) =
            (&step.call, answer)
        {
            let length = (length as usize).min(*room);
            self.plan = self.out[MARGIN..][..length].to_vec();
        }
        answer
    }

    fn call(&mut self, functions: &Functions, plan: &[u8], call: &Call) -> Answer {
        let (counters, out) = (&mut self.counters[MARGIN..], &mut self.out[MARGIN..]);
        let (offset_cells, period_cells) =
            (&mut self.offsets[MARGIN..], &mut self.periods[MARGIN..]);
        match call {
            Call::ReadPlan => (functions.read_plan)(plan),
            Call::Schedule { room } => (functions.schedule)(plan, &mut out[..*room]),
            Call::ReadSchedule { file, lent } => (functions.read_schedule)(
                file,
                &mut offset_cells[..lent[0]],
                &mut period_cells[..lent[1]],
            ),
            Call::WriteSchedule { schedule, room } => {
                let offsets = &offset_cells[..schedule.offsets.len()];
                let periods = &period_cells[..schedule.periods.len()];
                (functions.write_schedule)(schedule.links, offsets, periods, &mut out[..*room])
            }
            Call::Admit { lent, flow, room } => {
                (functions.admit)(plan, &mut counters[..*lent], *flow, &mut out[..*room])
            }
            Call::Release { lent, number, room } => {
                (functions.release)(plan, &mut counters[..*lent], *number, &mut out[..*room])
            }
            Call::Start { lent } => (functions.start)(plan, &mut counters[..*lent]),
            Call::Slot {
                lent,
                arrivals,
                number,
            } => (functions.slot)(plan, &mut counters[..*lent], arrivals, *number),
            Call::Sender { parent, slot } => (functions.sender)(plan, *parent, *slot),
            Call::Bound { number } => (functions.bound)(plan, *number),
            Call::Assign {
                gaps,
                offsets,
                periods,
            } => (functions.assign)(
                gaps,
                &mut offset_cells[..*offsets],
                &mut period_cells[..*periods],
            ),
        }
    }

    /// The first cell that differs, in words.
    fn difference(&self, other: &Memory) -> Option<String> {
        let wide = |list: &[u16]| -> Vec<u32> { list.iter().map(|&cell| cell.into()).collect() };
        let bytes = |list: &[u8]| -> Vec<u32> { list.iter().map(|&cell| cell.into()).collect() };
        if self == other {
            return None;
        }
        let lists = [
            ("counters", self.counters.clone(), other.counters.clone()),
            ("out", bytes(&self.out), bytes(&other.out)),
            ("offsets", wide(&self.offsets), wide(&other.offsets)),
            ("periods", wide(&self.periods), wide(&other.periods)),
        ];
        lists.into_iter().find_map(|(name, found, expected)| {
            let index = (0..found.len()).find(|&index| found[index] != expected[index])?;
            let (cell, found, expected) =
                (index as i64 - MARGIN as i64, found[index], expected[index]);
            Some(format!(
                "{name}[{cell}]: found {found:X}, expected {expected:X}"
            ))
        })
    }
}

/// The implementation to be judged, and the one that is right.
#[derive(Clone, Copy)]
pub struct Pair {
    pub judged: Functions,
    pub right: Functions,
}

impl Pair {
    /// Makes a call of both on the same memory, which is left as the judged one leaves it. The error is the difference in words.
    /// A refusal has to leave the memory as it was.
    pub fn compare(&self, memory: &mut Memory, step: &Step) -> Result<Answer, String> {
        memory.prepare(step);
        let before = memory.clone();
        let mut expected_memory = memory.clone();
        let found = memory.answer(&self.judged, step);
        let expected = expected_memory.answer(&self.right, step);
        if found != expected {
            let (found, expected) = (shown_answer(found), shown_answer(expected));
            return Err(format!("found {found}, expected {expected}"));
        }
        let kept = found.err().map(|_| &before);
        let mut rights = iter::once(&expected_memory).chain(kept);
        match rights.find_map(|right| memory.difference(right)) {
            Some(difference) => Err(difference),
            None => Ok(found),
        }
    }

    /// The first call of a list that differs, counted from 1, and the difference in words.
    pub fn first_difference(&self, list: &List) -> Option<(usize, String)> {
        let mut memory = Memory::of(&list.plan);
        (1..).zip(&list.steps).find_map(|(number, step)| {
            let difference = self.compare(&mut memory, step).err()?;
            Some((number, difference))
        })
    }
}
