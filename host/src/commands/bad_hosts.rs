//! Hosts that hand in any bytes, numbers and lengths. Whatever a call must not write is compared after it.

mod schedules;

use crate::commands::compare::status_of;
use crate::library::slotplan_lib::{self, Answer, NewFlow};
use crate::programs::output::hex;
use crate::random::gaps::gap_list;
use crate::random::generator::Random;
use crate::random::schedules::undamaged_file;
use crate::random::sites::site_to_alter;
use crate::second::bytes::{END, LINK};
use crate::second::calls::{CELLS, COUNTERS};
use crate::second::rules::{refuse, FLOW_NUMBERS};
use schedules::Scheduler;
use std::fmt;
use std::ops::Range;

/// A list that is lent, with cells before and behind it. Without a margin it is an allocation of just its size, so that
/// memcheck sees a cell too far.
struct Lent<T> {
    cells: Box<[T]>,
    as_lent: Box<[T]>,
    margin: usize,
}

impl<T: Copy + PartialEq + From<u8>> Lent<T> {
    fn of(list: &[T], margin: usize) -> Lent<T> {
        let beside: Vec<T> = (0..margin).map(|index| T::from(90 + index as u8)).collect();
        let cells: Box<[T]> = [&beside, list, &beside].concat().into();
        Lent {
            as_lent: cells.clone(),
            cells,
            margin,
        }
    }

    fn len(&self) -> usize {
        self.cells.len() - 2 * self.margin
    }

    /// What the call gets.
    fn list(&mut self) -> &mut [T] {
        let length = self.len();
        &mut self.cells[self.margin..][..length]
    }

    fn is_unchanged(&self) -> bool {
        self.cells == self.as_lent
    }

    /// A part that is not within the list shows that more was written than there is.
    fn is_unchanged_but(&self, part: &Range<usize>) -> bool {
        let (start, end) = (self.margin + part.start, self.margin + part.end);
        part.end <= self.len()
            && self.cells[..start] == self.as_lent[..start]
            && self.cells[end..] == self.as_lent[end..]
    }

    fn restore(&mut self) {
        self.cells.copy_from_slice(&self.as_lent);
    }

    /// What it holds now is what the next call is lent.
    fn keep(&mut self) {
        self.as_lent.copy_from_slice(&self.cells);
    }
}

/// The parts that a call may write.
#[derive(Default)]
struct Parts {
    out: Range<usize>,
    counters: Range<usize>,
}

fn cells_of(number: u8) -> Range<usize> {
    let first = usize::from(number) * CELLS;
    first..first + CELLS
}

/// All that a host lends to the functions that take a plan. Each call begins with the lists as they were lent first.
struct Host {
    plan: Lent<u8>,
    counters: Lent<u32>,
    arrivals: Lent<u16>,
    out: Lent<u8>,
}

/// The answer to a call, or what the host objects to: a write where there must be none.
type Judged = Result<Answer, String>;

impl Host {
    fn judge(&mut self, name: &str, answer: Answer, parts: impl Fn(usize) -> Parts) -> Judged {
        let parts = answer.map_or(Parts::default(), |value| parts(value as usize));
        let holds = self.plan.is_unchanged()
            && self.arrivals.is_unchanged()
            && self.out.is_unchanged_but(&parts.out)
            && self.counters.is_unchanged_but(&parts.counters);
        if !holds {
            let what = format!("{name}: memory changed, answer {answer:?}");
            return Err(self.objection(&what));
        }
        if answer.is_ok() {
            self.out.restore();
            self.counters.restore();
        }
        Ok(answer)
    }

    fn objection(&self, what: &str) -> String {
        let plan = &self.plan.as_lent[self.plan.margin..][..self.plan.len()];
        let lengths = [self.counters.len(), self.arrivals.len(), self.out.len()];
        let [counters, arrivals, out] = lengths;
        format!(
            "{what}\ncounters {counters} arrivals {arrivals} room {out}\nplan{}",
            hex(plan)
        )
    }

    fn read_plan(&mut self) -> Judged {
        let answer = slotplan_lib::read_plan(self.plan.list());
        self.judge("read_plan", answer, |_| Parts::default())
    }

    fn schedule(&mut self) -> Judged {
        let answer = slotplan_lib::schedule(self.plan.list(), self.out.list());
        self.judge("schedule", answer, |length| Parts {
            out: 0..length,
            ..Parts::default()
        })
    }

    fn admit(&mut self, flow: NewFlow) -> Judged {
        let (plan, counters) = (self.plan.list(), self.counters.list());
        let answer = slotplan_lib::admit(plan, counters, flow, self.out.list());
        self.judge("admit", answer, |length| Parts {
            out: 0..length,
            counters: cells_of(flow.number),
        })
    }

    fn release(&mut self, number: u8) -> Judged {
        let (plan, counters) = (self.plan.list(), self.counters.list());
        let answer = slotplan_lib::release(plan, counters, number, self.out.list());
        self.judge("release", answer, |length| Parts {
            out: 0..length,
            counters: cells_of(number),
        })
    }

    fn start(&mut self) -> Judged {
        let answer = slotplan_lib::start(self.plan.list(), self.counters.list());
        self.judge_counting("start", answer)
    }

    fn slot(&mut self, number: u32) -> Judged {
        let (plan, counters) = (self.plan.list(), self.counters.list());
        let answer = slotplan_lib::slot(plan, counters, self.arrivals.list(), number);
        self.judge_counting("slot", answer)
    }

    /// A call that may write all counters, and nothing else.
    fn judge_counting(&mut self, name: &str, answer: Answer) -> Judged {
        self.judge(name, answer, |_| Parts {
            counters: 0..COUNTERS,
            ..Parts::default()
        })
    }

    fn sender(&mut self, parent: u8, slot: u32) -> Judged {
        let answer = slotplan_lib::sender(self.plan.list(), parent, slot);
        self.judge("sender", answer, |_| Parts::default())
    }

    fn bound(&mut self, number: u8) -> Judged {
        let answer = slotplan_lib::bound(self.plan.list(), number);
        self.judge("bound", answer, |_| Parts::default())
    }
}

/// The three lists of the slot rule.
struct Children {
    gaps: Lent<u16>,
    offsets: Lent<u16>,
    periods: Lent<u16>,
}

impl Children {
    fn of(gaps: &[u16], offsets: usize, periods: usize, margin: usize) -> Children {
        Children {
            gaps: Lent::of(gaps, margin),
            offsets: Lent::of(&vec![2000; offsets], margin),
            periods: Lent::of(&vec![3000; periods], margin),
        }
    }

    fn assign(&mut self) -> Judged {
        let (gaps, offsets, periods) = (&mut self.gaps, &mut self.offsets, &mut self.periods);
        let answer = slotplan_lib::assign(gaps.list(), offsets.list(), periods.list());
        let filled = 0..answer.map_or(0, |_| gaps.len());
        let holds = gaps.is_unchanged()
            && offsets.is_unchanged_but(&filled)
            && periods.is_unchanged_but(&filled);
        if !holds {
            return Err(format!("assign {:?}: memory changed", gaps.as_lent));
        }
        Ok(answer)
    }
}

/// The most bytes of a random plan. The longest plan has 763.
const MOST_BYTES: usize = 900;
const TRUE_PLANS: usize = 200;
const TRUE_SCHEDULES: usize = 100;

/// The strings, the calls made with them, and how many were accepted.
struct BadHosts {
    margin: usize,
    /// Plans and schedule files.
    true_files: Vec<Vec<u8>>,
    strings: u64,
    calls: u64,
    accepted: u64,
}

impl fmt::Display for BadHosts {
    fn fmt(&self, form: &mut fmt::Formatter) -> fmt::Result {
        let (strings, calls) = (self.strings, self.calls);
        write!(
            form,
            "byte strings {strings}, calls {calls}, accepted {}",
            self.accepted
        )
    }
}

impl BadHosts {
    fn new(margin: usize, random: &mut Random) -> BadHosts {
        let mut true_files: Vec<_> = (0..TRUE_PLANS).map(|_| site_to_alter(random).0).collect();
        true_files.extend((0..TRUE_SCHEDULES).map(|_| undamaged_file(random)));
        BadHosts {
            margin,
            true_files,
            strings: 0,
            calls: 0,
            accepted: 0,
        }
    }

    /// Any bytes; bytes that look like commands; a true file cut off with any bytes behind it; a true file with some bytes other.
    fn random_bytes(&self, random: &mut Random) -> Vec<u8> {
        let length = random.index(MOST_BYTES + 1);
        let file = &self.true_files[random.index(self.true_files.len())];
        match random.between(0, 3) {
            0 => (0..length).map(|_| random.byte()).collect(),
            1 => (0..length)
                .map(|_| random.pick(&[0, 0, 0, 1, 1, 1, 2, 2, 3, 9, LINK, 64, END]))
                .collect(),
            2 => {
                let kept = random.index(file.len() + 1);
                let others = random.pick(&[0, 1, 5, length]);
                let mut bytes = file[..kept].to_vec();
                bytes.extend((0..others).map(|_| random.byte()));
                bytes
            }
            _ => {
                let mut bytes = file.clone();
                for _ in 0..random.between(0, 3).min(bytes.len() as u64) {
                    let place = random.index(bytes.len());
                    bytes[place] = random.byte();
                }
                bytes
            }
        }
    }

    /// Counters and arrivals mostly have the right lengths, so that the bytes decide.
    fn random_host(&self, random: &mut Random, plan: &[u8]) -> Host {
        let any = [random.index(701), random.index(131)];
        let counters = random.pick(&[[COUNTERS; 9].as_slice(), &any[..1]].concat());
        let arrivals = random.pick(&[[FLOW_NUMBERS; 9].as_slice(), &any[1..]].concat());
        let cell = random.pick(&[0, 1, u32::MAX]);
        let coming = random.pick(&[0, 0, 1, u16::MAX]);
        Host {
            plan: Lent::of(plan, self.margin),
            counters: Lent::of(&vec![cell; counters], self.margin),
            arrivals: Lent::of(&vec![coming; arrivals], self.margin),
            out: Lent::of(&vec![0xA5; random.index(MOST_BYTES)], self.margin),
        }
    }

    fn count(&mut self, answer: Answer) {
        self.calls += 1;
        self.accepted += u64::from(answer.is_ok());
    }

    /// One string through the functions. Those that change the site refuse by 14 just what `read_plan` refuses.
    fn try_string(&mut self, random: &mut Random) -> Result<(), String> {
        let bytes = self.random_bytes(random);
        let mut host = self.random_host(random, &bytes);
        let operand = random.between(0, u64::from(u32::MAX)) as u32;
        let flow = NewFlow {
            number: random.pick(&[random_number(operand), operand as u8]),
            entry: random.between(0, 9) as u8,
            rate: random.pick(&[0, 1, 3, operand as u8]),
            deadline: random.pick(&[operand as u16, u16::MAX]),
        };
        let plan_read = host.read_plan()?;
        let scheduled = host.schedule()?;
        let admitted = host.admit(flow)?;
        let passed = host.slot(operand)?;
        let other = self.try_other(&mut host, random, flow.number)?;
        let links = random.pick(&[0, 1, 63, 64, operand as u8]);
        let [read, written] =
            Scheduler::random(random, &bytes, self.margin).read_and_write(links)?;
        for answer in [plan_read, scheduled, admitted, passed, other, read, written] {
            self.count(answer);
        }
        self.strings += 1;
        let counted = host.counters.len() == COUNTERS;
        let listed = counted && host.arrivals.len() == FLOW_NUMBERS;
        let expected = expected_refusals(plan_read, [counted, listed]);
        let agree = plan_read.is_ok() || [scheduled, admitted, passed] == expected;
        if !agree {
            let others = format!("{scheduled:?}, {admitted:?}, {passed:?}");
            return Err(host.objection(&format!("read_plan {plan_read:?}, but then {others}")));
        }
        Ok(())
    }

    /// One of the functions that are not called with every string.
    fn try_other(&self, host: &mut Host, random: &mut Random, number: u8) -> Judged {
        match random.between(0, 4) {
            0 => host.release(number),
            1 => host.start(),
            2 => host.sender(number, u32::MAX),
            3 => host.bound(number),
            _ => {
                let count = random.index(71);
                let gaps = gap_list(random, count).into_iter();
                let gaps: Vec<u16> = gaps.map(|gap| gap as u16).collect();
                let other = random.index(73);
                let [offsets, periods] = [random.pick(&[count, count, other]), count];
                Children::of(&gaps, offsets, periods, self.margin).assign()
            }
        }
    }
}

fn random_number(operand: u32) -> u8 {
    (operand % FLOW_NUMBERS as u32) as u8
}

/// Of `schedule`, `admit` and `slot`, where `read_plan` refuses the bytes: a list of a wrong length is
/// judged before them.
fn expected_refusals(plan_read: Answer, lengths: [bool; 2]) -> [Answer; 3] {
    let [admitted, passed] = lengths.map(|right| refuse(if right { 14 } else { 1 }, 0));
    [plan_read, admitted, passed]
}

fn run(bad_hosts: &mut BadHosts, count: u64, random: &mut Random) -> Result<(), String> {
    (0..count).try_for_each(|_| bad_hosts.try_string(random))
}

/// Random byte strings in allocations of just their size. The exit status: 0, or 1 with an objection.
pub fn try_bad_hosts(count: u64, seed: u64) -> u8 {
    let mut random = Random::from_seed(seed);
    let mut bad_hosts = BadHosts::new(0, &mut random);
    let result = run(&mut bad_hosts, count, &mut random);
    println!("seed {seed}, {bad_hosts}");
    status_of(result, "no objection")
}

#[cfg(test)]
mod tests;
