//! Random lists of calls of the library, near the border between accepted and refused.

use crate::library::host_calls::{
    Call, HandedSchedule, List, Memory, Step, MOST_COUNTERS, MOST_ENTRIES, MOST_ROOM,
};
use crate::library::slotplan_lib::NewFlow;
use crate::programs::schedule_lines::change;
use crate::random::calls::{self, arrivals_within_rates, random_call, random_counters};
use crate::random::damage::{damage_bytes, random_plan};
use crate::random::gaps::gap_list;
use crate::random::generator::Random;
use crate::random::schedules::{random_changes, random_schedule, schedule_file};
use crate::random::sites::site_to_alter;
use crate::second::bytes::{read_plan, COMMAND_LENGTH};
use crate::second::calls::COUNTERS;
use crate::second::rules::{Flow, Site, MOST_LINKS};
use crate::second::schedules::{read_schedule, Schedule};

/// The most numbers of a list that is longer than it must be.
const MOST_ARRIVALS: usize = 130;

/// The numbers of gaps that the slot rule is given are 0 to this.
const MOST_GAPS: usize = 70;

/// A plan, often damaged, that is read and whose schedule is written, into buffers of some lengths.
pub fn plan_list(random: &mut Random) -> List {
    let plan = random_plan(random);
    let needed = read_plan(&plan).map_or(0, |site| schedule_length(&site));
    let mut calls = vec![Call::ReadPlan];
    for _ in 0..random.between(1, 2) {
        let room = random_room(random, needed);
        calls.push(Call::Schedule { room });
    }
    let steps = calls.into_iter().map(Step::of).collect();
    List { plan, steps }
}

/// The slot rule alone, with no plan.
pub fn slot_rule_list(random: &mut Random) -> List {
    let count = match random.between(0, 3) {
        0..=1 => random.index(9),
        _ => random.index(MOST_GAPS + 1),
    };
    let gaps = gap_list(random, count);
    let mut length = || match random.between(0, 19) {
        0 => count.saturating_sub(1),
        1 => count + 1,
        2 => random.index(MOST_ENTRIES + 1),
        _ => count,
    };
    let call = Call::Assign {
        offsets: length(),
        periods: length(),
        gaps: gaps.into_iter().map(|gap| gap as u16).collect(),
    };
    List {
        plan: Vec::new(),
        steps: vec![Step::of(call)],
    }
}

/// A schedule file, often damaged, that is read, and what it reads to, often changed, that is written.
pub fn schedule_list(random: &mut Random) -> List {
    let file = schedule_file(random);
    let schedule = match read_schedule(&file) {
        Err(_) if random.chance(60) => random_schedule(random),
        read => read.unwrap_or(Schedule::empty()),
    };
    let lent = [list_length(random), list_length(random)];
    let mut calls = vec![Call::ReadSchedule { file, lent }];
    for _ in 0..random.between(1, 2) {
        calls.push(Call::WriteSchedule {
            schedule: handed_schedule(random, &schedule),
            room: random_room(random, link_bytes(schedule.links)),
        });
    }
    List {
        plan: Vec::new(),
        steps: calls.into_iter().map(Step::of).collect(),
    }
}

/// The schedule, often changed, in lists that now and then have a wrong length.
fn handed_schedule(random: &mut Random, schedule: &Schedule) -> HandedSchedule {
    let mut changed = schedule.clone();
    change(&mut changed, &random_changes(random, schedule).concat());
    let mut list_of = |entries: &[u64]| {
        let mut list: Vec<u16> = entries.iter().map(|&entry| entry as u16).collect();
        list.resize(list_length(random), 0);
        list
    };
    HandedSchedule {
        links: changed.links as u8,
        offsets: list_of(&changed.offsets),
        periods: list_of(&changed.periods),
    }
}

/// Of the offsets or the periods of a schedule: mostly 63, else near it or any.
fn list_length(random: &mut Random) -> usize {
    match random.between(0, 59) {
        0 => MOST_LINKS - 1,
        1 => MOST_LINKS + 1,
        2 => random.index(MOST_ENTRIES + 1),
        _ => MOST_LINKS,
    }
}

/// A command for each link, and END.
fn link_bytes(links: u64) -> usize {
    COMMAND_LENGTH * links as usize + 1
}

fn schedule_length(site: &Site) -> usize {
    link_bytes(site.links)
}

/// A command for each link and flow, and END.
fn plan_length(site: &Site) -> usize {
    schedule_length(site) + COMMAND_LENGTH * site.live_flows().len()
}

/// Just enough, one byte less or more, any length up to a few more, or the longest.
fn random_room(random: &mut Random, needed: usize) -> usize {
    match random.between(0, 9) {
        0..=2 => needed,
        3 => needed.saturating_sub(1),
        4 => needed + 1,
        5..=6 => random.index(needed + 12),
        _ => MOST_ROOM,
    }
}

/// A host that makes calls: the site as its plan reads to, and the number of its next slot.
pub struct Host {
    site: Site,
    next: u32,
    pub memory: Memory,
}

impl Host {
    /// Slot numbers begin anywhere, often near 0 or such that they wrap.
    pub fn new(random: &mut Random) -> Host {
        let (plan, site) = site_to_alter(random);
        let near_the_end = u32::MAX - random.between(0, 30) as u32;
        let any = random.between(0, u64::from(u32::MAX)) as u32;
        Host {
            site,
            next: random.pick(&[0, any % 100, any, near_the_end]),
            memory: Memory::of(&plan),
        }
    }

    /// To be told when the plan has changed.
    pub fn read_again(&mut self) {
        self.site = read_plan(&self.memory.plan).unwrap_or(Site::empty());
    }

    pub fn random_step(&mut self, random: &mut Random) -> Step {
        let call = self.random_call(random);
        let mut step = Step::of(call);
        let fill = match &step.call {
            Call::Slot { .. } => random.chance(25),
            Call::Admit { .. } | Call::Release { .. } | Call::Start { .. } => random.chance(50),
            _ => false,
        };
        if fill {
            step.counters = Some(self.random_counters(random, &step.call));
        }
        if random.chance(5) && !self.memory.plan.is_empty() {
            let mut plan = self.memory.plan.clone();
            damage_bytes(random, &mut plan);
            step.other_plan = Some(plan);
        }
        step
    }

    fn random_call(&mut self, random: &mut Random) -> Call {
        match random.between(0, 19) {
            0..=6 => self.next_slot(random),
            7 => Call::ReadPlan,
            8 => Call::Schedule {
                room: random_room(random, schedule_length(&self.site)),
            },
            9..=10 => self.random_bound(random),
            _ => {
                let call = random_call(random, &self.site);
                self.lend(random, call)
            }
        }
    }

    fn next_slot(&mut self, random: &mut Random) -> Call {
        let number = self.next;
        self.next = number.wrapping_add(1);
        Call::Slot {
            lent: COUNTERS,
            arrivals: arrivals_within_rates(random, &self.site),
            number,
        }
    }

    fn random_bound(&self, random: &mut Random) -> Call {
        let (live, others) = (self.site.live_flows(), self.site.numbers_not_live());
        Call::Bound {
            number: calls::random_number(random, &live, &others) as u8,
        }
    }

    /// A call on the site, with the buffer that it fills and now and then with too long lists.
    fn lend(&self, random: &mut Random, call: calls::Call) -> Call {
        let longer = |random: &mut Random, lent: usize| match random.between(0, 49) {
            0 => COUNTERS + random.index(MOST_COUNTERS - COUNTERS + 1),
            _ => lent,
        };
        let needed = plan_length(&self.site);
        match call {
            calls::Call::Admission { lent, flow } => Call::Admit {
                lent: longer(random, lent),
                flow: narrowed(flow),
                room: random_room(random, needed + COMMAND_LENGTH),
            },
            calls::Call::Release { lent, number } => Call::Release {
                lent: longer(random, lent),
                number: number as u8,
                room: random_room(random, needed.saturating_sub(COMMAND_LENGTH)),
            },
            calls::Call::Lookup { parent, slot } => Call::Sender {
                parent: parent as u8,
                slot: slot as u32,
            },
            calls::Call::Start { lent } => Call::Start {
                lent: longer(random, lent),
            },
            calls::Call::Slot {
                lent,
                mut arrivals,
                number,
            } => {
                if random.chance(2) {
                    let length = random.index(MOST_ARRIVALS + 1);
                    arrivals.resize(length, random.pick(&[0, 1]));
                }
                Call::Slot {
                    lent: longer(random, lent),
                    arrivals,
                    number,
                }
            }
        }
    }

    /// The same number in all cells, or a random one in each, with queues and sums that decide about a slot.
    fn random_counters(&self, random: &mut Random, call: &Call) -> Vec<u32> {
        let mut counters = vec![random.pick(&[0, 1, 1000, u32::MAX]); COUNTERS];
        if let Call::Slot { arrivals, .. } = call {
            counters.fill(random.pick(&[0, 0, 1, 1000]));
            for (index, value) in random_counters(random, &self.site, arrivals) {
                counters[index] = value;
            }
        } else if random.chance(50) {
            counters.fill_with(|| random.between(0, u64::from(u32::MAX)) as u32);
        }
        counters
    }
}

/// The random flows are within the widths of their operands.
fn narrowed(flow: Flow) -> NewFlow {
    NewFlow {
        number: flow.number as u8,
        entry: flow.entry as u8,
        rate: flow.rate as u8,
        deadline: flow.deadline as u16,
    }
}
