//! Two implementations of the functions, in one process, on random lists of calls.

use crate::commands::compare::status_of;
use crate::commands::outcomes::{Tally, FUNCTIONS, FUNCTIONS_WITHOUT_LINKS};
use crate::commands::shrink::shrink;
use crate::library::functions::{LIBRARY, MODEL};
use crate::library::host_calls::{shown_answer, Call, List, Memory, Pair, Step};
use crate::library::slotplan_lib::Answer;
use crate::programs::output::Answered;
use crate::random::generator::Random;
use crate::random::hosts::{plan_list, schedule_list, slot_rule_list, Host};
use crate::second::bytes::END;
use std::fmt;

/// A list that differs, made small, and the difference in words.
#[derive(Debug)]
struct Difference {
    list: List,
    what: String,
}

impl fmt::Display for Difference {
    fn fmt(&self, form: &mut fmt::Formatter) -> fmt::Result {
        write!(form, "{}\ninput:\n{}", self.what, self.list)
    }
}

/// Each case is one call of which the answer and all memory are compared.
struct Comparison {
    pair: Pair,
    tally: Tally,
    without_links: Tally,
    cases: u64,
}

impl Comparison {
    fn new(pair: Pair) -> Comparison {
        Comparison {
            pair,
            tally: Tally::new("calls of the library", FUNCTIONS),
            without_links: Tally::new("of these without links", FUNCTIONS_WITHOUT_LINKS),
            cases: 0,
        }
    }

    fn run(&mut self, count: u64, random: &mut Random) -> Result<(), Difference> {
        while self.cases < count {
            match random.between(0, 13) {
                0..=4 => self.compare_list(plan_list(random))?,
                5..=8 => self.compare_list(slot_rule_list(random))?,
                9..=11 => self.compare_list(schedule_list(random))?,
                _ => self.compare_host(random)?,
            }
        }
        Ok(())
    }

    fn compare_list(&mut self, list: List) -> Result<(), Difference> {
        let mut memory = Memory::of(&list.plan);
        for (index, step) in list.steps.iter().enumerate() {
            let before = memory.clone();
            if self.compare_step(&mut memory, step).is_err() {
                let steps = list.steps[..=index].to_vec();
                let plan = list.plan.clone();
                return Err(self.difference(&before, List { plan, steps }));
            }
        }
        Ok(())
    }

    /// The calls of one host, each made in view of what the last one left.
    fn compare_host(&mut self, random: &mut Random) -> Result<(), Difference> {
        let mut host = Host::new(random);
        let (plan, mut steps) = (host.memory.plan.clone(), Vec::new());
        for _ in 0..random.between(5, 40) {
            let before = host.memory.clone();
            let step = host.random_step(random);
            steps.push(step.clone());
            if self.compare_step(&mut host.memory, &step).is_err() {
                return Err(self.difference(&before, List { plan, steps }));
            }
            if host.memory.plan != before.plan {
                host.read_again();
            }
        }
        Ok(())
    }

    fn compare_step(&mut self, memory: &mut Memory, step: &Step) -> Result<Answer, String> {
        let without_links = is_without_links(&memory.plan, step);
        let answer = self.pair.compare(memory, step)?;
        self.cases += 1;
        let answered = Answered {
            line: step.call.name().to_string(),
            answer: shown_answer(answer),
        };
        self.tally.count(&answered);
        if without_links {
            self.without_links.count(&answered);
        }
        Ok(answer)
    }

    /// The state of a site is its plan bytes and counters, so the last call alone should differ too. If it does not, the
    /// calls before it are needed.
    fn difference(&self, before: &Memory, list: List) -> Difference {
        let differs = |list: &List| self.pair.first_difference(list).is_some();
        let alone = list.steps.last().map(|step| before.before(step));
        let list = alone.filter(|alone| differs(alone)).unwrap_or(list);
        let list = shrink(list, &differs);
        let what = match self.pair.first_difference(&list) {
            Some((number, what)) => format!("call {number}: {what}"),
            None => "a difference that did not come again".to_string(),
        };
        Difference { list, what }
    }
}

/// Whether a call is about END alone, or hands in a schedule of 0 links.
fn is_without_links(plan: &[u8], step: &Step) -> bool {
    match &step.call {
        Call::ReadSchedule { file, .. } => *file == [END],
        Call::WriteSchedule { schedule, .. } => schedule.links == 0,
        Call::Assign { .. } => false,
        _ => step.other_plan.as_deref().unwrap_or(plan) == [END],
    }
}

/// The exit status: 0 without a difference, 1 with one.
pub fn compare_library(count: u64, seed: u64) -> u8 {
    let mut comparison = Comparison::new(Pair {
        judged: LIBRARY,
        right: MODEL,
    });
    let result = comparison.run(count, &mut Random::from_seed(seed));
    print!("{}{}", comparison.tally, comparison.without_links);
    println!("seed {seed}, {} cases", comparison.cases);
    let result = result.map_err(|difference| difference.to_string());
    status_of(result, "no difference")
}

#[cfg(test)]
mod without_links;

#[cfg(test)]
mod tests {
    use super::*;
    use crate::library::functions::{Functions, PLAIN};
    use crate::library::model;
    use crate::library::slotplan_lib::NewFlow;
    use crate::programs::output::hex;
    use crate::second::bytes::{read_assigned, read_plan, COMMAND_LENGTH};
    use crate::second::calls::{check_deadline, check_room, CELLS, COUNTERS};
    use crate::second::former::{by_wanted_gaps, read_formerly};
    use crate::second::rules::{refuse, Refusal, Site};
    use crate::second::slots::Packets;

    /// In 250,000 cases each function is accepted at least 2,000 times and refused by each of its numbers at least 200 times. On END
    /// alone and of a schedule of 0 links each outcome is met at least 10 times.
    fn assert_equal(judged: Functions, right: Functions, [count, seed]: [u64; 2]) {
        let mut comparison = Comparison::new(Pair { judged, right });
        let result = comparison.run(count, &mut Random::from_seed(seed));
        assert!(result.is_ok(), "{}", result.unwrap_err());
        let tally = &comparison.tally;
        assert!(tally.all_reach(count / 1250), "{tally}");
        assert!(tally.all_accepted(count / 125), "{tally}");
        let without_links = &comparison.without_links;
        assert!(without_links.all_reach(count / 25_000), "{without_links}");
    }

    #[test]
    fn the_library_does_what_the_model_does() {
        assert_equal(LIBRARY, MODEL, [250_000, 20]);
    }

    #[test]
    fn plain_rust_does_what_the_library_does() {
        assert_equal(PLAIN, LIBRARY, [250_000, 22]);
    }

    /// The model is slow.
    #[test]
    fn plain_rust_does_what_the_model_does() {
        assert_equal(PLAIN, MODEL, [100_000, 23]);
    }

    /// What the comparison of a mistaken implementation with the model ends with. The list has to be small.
    pub(super) fn difference(judged: Functions, call: &str, commands: usize) -> Difference {
        let mut comparison = Comparison::new(Pair {
            judged,
            right: MODEL,
        });
        let result = comparison.run(100_000, &mut Random::from_seed(21));
        let difference = result.expect_err("the mistake is not found");
        let (list, report) = (&difference.list, difference.to_string());
        assert_eq!(list.steps.len(), 1, "{report}");
        assert_eq!(list.steps[0].call.name(), call, "{report}");
        let length = COMMAND_LENGTH * commands + 1;
        assert!(list.plan.len() <= length, "{report}");
        assert!(report.contains(&format!("plan{}\n", hex(&list.plan))));
        difference
    }

    pub(super) fn shows(difference: &Difference, text: &str) {
        let report = difference.to_string();
        assert!(report.contains(text), "{text} is not in {report}");
    }

    /// Flow 5: one packet too few leaves its last link.
    fn slow_slot(plan: &[u8], counters: &mut [u32], arrivals: &[u16], number: u32) -> Answer {
        let before = counters.to_vec();
        let answer = model::slot(plan, counters, arrivals, number)?;
        let delivered = 5 * CELLS + CELLS - 1;
        if counters[delivered] > before[delivered] {
            let site = read_plan(plan)?;
            counters[delivered] -= 1;
            counters[5 * CELLS + site.route_of_flow(5).len() - 1] += 1;
        }
        Ok(answer)
    }

    #[test]
    fn a_packet_too_few_is_found() {
        let judged = Functions {
            slot: slow_slot,
            ..MODEL
        };
        let difference = difference(judged, "slot", 2);
        shows(&difference, "call 1: counters[45]: found ");
        shows(&difference, " 02 05 01 ");
        let Call::Slot { arrivals, .. } = &difference.list.steps[0].call else {
            panic!("{difference}");
        };
        let counters = difference.list.steps[0].counters.iter().flatten();
        let coming = arrivals.iter().filter(|&&count| count > 0).count();
        let waiting = counters.filter(|&&count| count > 0).count();
        assert_eq!(coming + waiting, 1, "{difference}");
    }

    /// 18 before 17.
    fn late_17(plan: &[u8], counters: &mut [u32], flow: NewFlow, out: &mut [u8]) -> Answer {
        let answer = model::admit(plan, counters, flow, out);
        match answer {
            Err(refusal) if refusal.number == 17 => {
                let bound = read_plan(plan)?.periods_up(usize::from(flow.entry));
                if bound > u64::from(flow.deadline) {
                    return refuse(18, usize::from(flow.number));
                }
            }
            _ => (),
        }
        answer
    }

    #[test]
    fn checks_in_another_order_are_found() {
        let judged = Functions {
            admit: late_17,
            ..MODEL
        };
        let difference = difference(judged, "admit", 2);
        shows(&difference, "expected refused 17 1");
        shows(&difference, "found refused 18 ");
        shows(&difference, "admit number ");
        shows(&difference, "counters 576 room ");
    }

    /// 12 by wanted gaps.
    fn former_12(plan: &[u8]) -> Answer {
        by_wanted_gaps(&read_assigned(plan)?).check_widths()?;
        model::read_plan(plan)
    }

    /// 13 by wanted gaps.
    fn former_13(plan: &[u8]) -> Answer {
        let answer = model::read_plan(plan)?;
        by_wanted_gaps(&read_plan(plan)?).check_deadlines()?;
        Ok(answer)
    }

    /// A period is below its wanted gap only where the parent has another child, so that a plan keeps more than two commands.
    #[test]
    fn a_plan_judged_by_wanted_gaps_is_found() {
        for (read_plan, number) in [(former_12 as fn(&[u8]) -> Answer, 12), (former_13, 13)] {
            let judged = Functions { read_plan, ..MODEL };
            let difference = difference(judged, "read_plan", 4);
            shows(&difference, &format!("found refused {number} "));
            shows(&difference, "expected accepted");
        }
    }

    /// An admission that is refused too where the check refuses the new site with wanted gaps in the place of periods.
    fn admitted_by(
        check: fn(&Site, usize) -> Result<(), Refusal>,
        (plan, counters): (&[u8], &mut [u32]),
        flow: NewFlow,
        out: &mut [u8],
    ) -> Answer {
        let (mut cleared, mut written) = (counters.to_vec(), out.to_vec());
        let length = model::admit(plan, &mut cleared, flow, &mut written)?;
        let after = read_plan(&written[..length as usize])?;
        check(&by_wanted_gaps(&after), usize::from(flow.number))?;
        counters.copy_from_slice(&cleared);
        out.copy_from_slice(&written);
        Ok(length)
    }

    fn former_17(plan: &[u8], counters: &mut [u32], flow: NewFlow, out: &mut [u8]) -> Answer {
        admitted_by(check_room, (plan, counters), flow, out)
    }

    fn former_18(plan: &[u8], counters: &mut [u32], flow: NewFlow, out: &mut [u8]) -> Answer {
        admitted_by(check_deadline, (plan, counters), flow, out)
    }

    #[test]
    fn an_admission_judged_by_wanted_gaps_is_found() {
        let [room, deadline] = [former_17, former_18].map(|admit| {
            let judged = Functions { admit, ..MODEL };
            difference(judged, "admit", 4)
        });
        shows(&room, "found refused 17 ");
        shows(&deadline, "found refused 18 ");
        shows(&room, "expected accepted");
        shows(&deadline, "expected accepted");
    }

    /// Check 14 by wanted gaps.
    fn former_14(plan: &[u8], counters: &mut [u32]) -> Answer {
        let mut started = counters.to_vec();
        let answer = model::start(plan, &mut started)?;
        read_formerly(plan).or_else(|_| refuse(14, 0))?;
        counters.copy_from_slice(&started);
        Ok(answer)
    }

    #[test]
    fn a_site_judged_by_wanted_gaps_is_found() {
        let judged = Functions {
            start: former_14,
            ..MODEL
        };
        let difference = difference(judged, "start", 4);
        shows(&difference, "found refused 14 0, expected accepted");
    }

    /// A slot on a site of wanted gaps, on which the same links send in it: each moves up to rate times wanted gap.
    fn wide_slot(plan: &[u8], counters: &mut [u32], arrivals: &[u16], number: u32) -> Answer {
        let answer = model::slot(plan, &mut counters.to_vec(), arrivals, number)?;
        let site = read_plan(plan)?;
        let mut wide = by_wanted_gaps(&site);
        for link in site.nodes() {
            let (gap, slot) = (site.gaps[link - 1], u64::from(number));
            let never = gap;
            wide.offsets[link - 1] = if site.sends(link, slot) {
                slot % gap
            } else {
                never
            };
        }
        let mut packets = Packets::none();
        packets.adopt(counters);
        packets.pass_slot(&wide, arrivals, number);
        counters.copy_from_slice(&packets.counters());
        Ok(answer)
    }

    #[test]
    fn a_slot_that_moves_rate_times_wanted_gap_is_found() {
        let judged = Functions {
            slot: wide_slot,
            ..MODEL
        };
        let difference = difference(judged, "slot", 4);
        shows(&difference, "call 1: counters[");
    }

    fn byte_behind(plan: &[u8], out: &mut [u8]) -> Answer {
        let length = model::schedule(plan, out)?;
        if let Some(byte) = out.get_mut(length as usize) {
            *byte = 0;
        }
        Ok(length)
    }

    fn byte_in_front(plan: &[u8], out: &mut [u8]) -> Answer {
        let answer = model::schedule(plan, out);
        match out.first_mut() {
            Some(byte) if answer == refuse(1, 0) => *byte = 0x11,
            _ => (),
        }
        answer
    }

    #[test]
    fn a_byte_left_in_the_buffer_is_found() {
        let [behind, in_front] = [byte_behind, byte_in_front].map(|schedule| {
            let judged = Functions { schedule, ..MODEL };
            difference(judged, "schedule", 1)
        });
        shows(&behind, "out[1]: found 0, expected ");
        shows(&behind, "plan FF\nschedule room 2\n");
        shows(&in_front, "out[0]: found 11, expected ");
        shows(&in_front, "schedule room ");
    }

    /// Two that make the same mistake are equal, but a refusal has to leave the memory as it was.
    #[test]
    fn a_byte_that_a_refusal_of_both_writes_is_found() {
        let judged = Functions {
            schedule: byte_in_front,
            ..MODEL
        };
        let mut comparison = Comparison::new(Pair {
            judged,
            right: judged,
        });
        let result = comparison.run(1000, &mut Random::from_seed(21));
        let difference = result.expect_err("the mistake is not found");
        shows(&difference, "out[0]: found 11, expected ");
    }

    /// 22 before 21, for the first command.
    fn late_21(file: &[u8], offsets: &mut [u16], periods: &mut [u16]) -> Answer {
        let answer = model::read_schedule(file, offsets, periods);
        if answer == refuse(21, 0) {
            let numbered = [&[0x11, 1][..], &file[2..]].concat();
            let judged = model::read_schedule(&numbered, &mut [0; 63], &mut [0; 63]);
            return if judged == refuse(22, 0) {
                judged
            } else {
                answer
            };
        }
        answer
    }

    /// What the lists held past the links is left there.
    fn short_read(file: &[u8], offsets: &mut [u16], periods: &mut [u16]) -> Answer {
        let mut read = periods.to_vec();
        let links = model::read_schedule(file, offsets, &mut read)?;
        periods[..links as usize].copy_from_slice(&read[..links as usize]);
        Ok(links)
    }

    #[test]
    fn a_schedule_file_misread_is_found() {
        let [order, rest] = [late_21, short_read].map(|read_schedule| {
            let judged = Functions {
                read_schedule,
                ..MODEL
            };
            difference(judged, "read_schedule", 0)
        });
        shows(&order, "found refused 22 0, expected refused 21 0");
        shows(
            &order,
            "read_schedule 11 00 00 00 00 00, offsets 63 periods 63",
        );
        shows(&rest, "periods[0]: found ");
        shows(&rest, ", expected 0\n");
        shows(&rest, "read_schedule FF, offsets 63 periods 63\n");
    }

    /// Entries past the links are not looked at.
    fn lax_write(links: u8, offsets: &[u16], periods: &[u16], out: &mut [u8]) -> Answer {
        let used = |list: &[u16]| -> Vec<u16> {
            let entries = list.iter().enumerate();
            let used = |(index, &entry)| if index < usize::from(links) { entry } else { 0 };
            entries.map(used).collect()
        };
        model::write_schedule(links, &used(offsets), &used(periods), out)
    }

    /// The byte behind END is cleared too.
    fn long_write(links: u8, offsets: &[u16], periods: &[u16], out: &mut [u8]) -> Answer {
        let length = model::write_schedule(links, offsets, periods, out)?;
        if let Some(byte) = out.get_mut(length as usize) {
            *byte = 0;
        }
        Ok(length)
    }

    #[test]
    fn a_schedule_miswritten_is_found() {
        let [lax, long] = [lax_write, long_write].map(|write_schedule| {
            let judged = Functions {
                write_schedule,
                ..MODEL
            };
            difference(judged, "write_schedule", 0)
        });
        shows(&lax, "found refused 1 0, expected refused 14 0");
        shows(&lax, "write_schedule links 00, offsets 63");
        let Call::WriteSchedule { schedule, room } = &lax.list.steps[0].call else {
            panic!("{lax}");
        };
        let entries = schedule.offsets.iter().chain(&schedule.periods);
        assert_eq!((entries.sum::<u16>(), *room), (1, 0), "{lax}");
        shows(&long, "out[1]: found 0, expected ");
        let input = "write_schedule links 00, offsets 63, periods 63, room 2\n";
        shows(&long, input);
    }

    /// The counters are set before the buffer is judged.
    fn hasty_admit(plan: &[u8], counters: &mut [u32], flow: NewFlow, out: &mut [u8]) -> Answer {
        let written = model::admit(plan, counters, flow, &mut [0; 800]);
        match written {
            Ok(_) => model::admit(plan, &mut [0; COUNTERS], flow, out),
            refused => refused,
        }
    }

    fn forgetful_release(plan: &[u8], counters: &mut [u32], number: u8, out: &mut [u8]) -> Answer {
        let last = counters
            .get(usize::from(number) * CELLS + CELLS - 1)
            .copied();
        let length = model::release(plan, counters, number, out)?;
        counters[usize::from(number) * CELLS + CELLS - 1] = last.unwrap_or(0);
        Ok(length)
    }

    #[test]
    fn a_counter_too_many_or_too_few_is_found() {
        let admit = Functions {
            admit: hasty_admit,
            ..MODEL
        };
        shows(&difference(admit, "admit", 1), ": found 0, expected ");
        let release = Functions {
            release: forgetful_release,
            ..MODEL
        };
        let difference = difference(release, "release", 2);
        shows(&difference, "counters before the call 576 ");
        shows(&difference, ", expected 0\n");
    }

    /// Offsets are filled though the parent is crowded.
    fn careless_assign(gaps: &[u16], offsets: &mut [u16], periods: &mut [u16]) -> Answer {
        let answer = model::assign(gaps, offsets, periods);
        if answer == refuse(11, 0) {
            offsets[0] = 0;
        }
        answer
    }

    #[test]
    fn a_list_that_a_refusal_changes_is_found() {
        let judged = Functions {
            assign: careless_assign,
            ..MODEL
        };
        let difference = difference(judged, "assign", 0);
        shows(&difference, "offsets[0]: found 0, expected ");
        let Call::Assign { gaps, .. } = &difference.list.steps[0].call else {
            panic!("{difference}");
        };
        assert!(gaps.len() <= 3, "{difference}");
        let gaps: String = gaps.iter().map(|gap| format!(" {gap:04X}")).collect();
        shows(&difference, &format!("assign{gaps}, offsets "));
    }
}
