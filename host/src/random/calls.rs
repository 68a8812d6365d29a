//! Random calls, near the border between accepted and refused.

use crate::programs::call_lines::{changed_entries, Desk};
use crate::programs::output::{decimal, hex};
use crate::random::generator::Random;
use crate::random::sites::{random_alterations, site_to_alter, Triple};
use crate::second::bytes::passes_check_14;
use crate::second::calls::{CELLS, COUNTERS};
use crate::second::rules::{route, Flow, Site, FLOW_NUMBERS, OF_16_BITS, OF_32_BITS, OF_8_BITS};

/// A call with its operands, and with the number of counters lent to it.
#[derive(Clone, Debug)]
pub enum Call {
    Admission {
        lent: usize,
        flow: Flow,
    },
    Release {
        lent: usize,
        number: usize,
    },
    Lookup {
        parent: usize,
        slot: u64,
    },
    Start {
        lent: usize,
    },
    Slot {
        lent: usize,
        arrivals: Vec<u16>,
        number: u32,
    },
}

impl Call {
    fn line(&self) -> String {
        match self {
            Call::Admission { lent, flow } => {
                let (number, entry) = (flow.number, flow.entry);
                let (rate, deadline) = (flow.rate, flow.deadline);
                format!("A {lent} {number} {entry} {rate} {deadline}\n")
            }
            Call::Release { lent, number } => format!("R {lent} {number}\n"),
            Call::Lookup { parent, slot } => format!("L {parent} {slot}\n"),
            Call::Start { lent } => format!("T {lent}\n"),
            Call::Slot {
                lent,
                arrivals,
                number,
            } => {
                let coming = arrivals.iter().enumerate().filter(|(_, &count)| count > 0);
                let pairs: String = coming
                    .map(|(flow, count)| format!(" {flow} {count}"))
                    .collect();
                format!("S {lent} {} {number}{pairs}\n", arrivals.len())
            }
        }
    }
}

/// Lines for test_calls, with the desk as they leave it.
struct Lines {
    text: String,
    desk: Desk,
}

impl Lines {
    fn add(&mut self, lines: &str) {
        for line in lines.lines() {
            self.desk
                .line(line)
                .expect("random lines are within the form");
        }
        self.text += lines;
    }

    /// A call, if it is a slot mostly on counters that decide about it.
    fn add_call(&mut self, random: &mut Random) {
        let call = random_call(random, self.desk.site());
        if let Call::Slot { arrivals, .. } = &call {
            if random.chance(80) {
                self.add(random.pick(&["C 0\n", "C 1\n", "C 1000\n"]));
                for (index, value) in random_counters(random, self.desk.site(), arrivals) {
                    self.add(&format!("K {index} {value}\n"));
                }
            }
        }
        self.add(&call.line());
    }

    /// An alteration. If the site does not pass with it, there follow a call and the way back.
    fn add_alteration(&mut self, random: &mut Random) {
        let before = self.desk.site().clone();
        self.add(&alteration_line(&random_alterations(random, &before)));
        let altered = self.desk.site().clone();
        if !passes_check_14(&altered) {
            self.add(&random_call(random, &before).line());
            self.add(&alteration_line(&changed_entries(&altered, &before)));
        }
    }
}

/// Lines for test_calls: a plan, and calls on its site.
pub fn call_lines(random: &mut Random) -> String {
    let (plan, _) = site_to_alter(random);
    call_lines_on(random, &plan)
}

/// A few of the calls are made while the site is altered.
/// Between the calls the counters are filled anew, so that it shows which of them a call sets to 0.
pub fn call_lines_on(random: &mut Random, plan: &[u8]) -> String {
    let mut lines = Lines {
        text: String::new(),
        desk: Desk::new(),
    };
    lines.add(&format!("P{}\nC\n", hex(plan)));
    for _ in 0..random.between(3, 12) {
        if random.chance(12) {
            lines.add_alteration(random);
        }
        if random.chance(30) {
            lines.add(random.pick(&["C\n", "C 4294967295\n", "C 1\n"]));
        }
        lines.add_call(random);
    }
    lines.text
}

fn alteration_line(triples: &[Triple]) -> String {
    format!("X{}\n", decimal(&triples.concat()))
}

/// A call on a site that passes check 14.
pub fn random_call(random: &mut Random, site: &Site) -> Call {
    match random.between(0, 14) {
        0..=5 => Call::Admission {
            lent: random_lent(random),
            flow: random_flow(random, site),
        },
        6..=7 => Call::Release {
            lent: random_lent(random),
            number: random_number(random, &site.live_flows(), &site.numbers_not_live()),
        },
        8..=9 => random_lookup(random, site),
        10 => Call::Start {
            lent: random_lent(random),
        },
        _ => random_slot(random, site),
    }
}

fn random_lent(random: &mut Random) -> usize {
    match random.between(0, 39) {
        0 => COUNTERS - 1,
        1 => COUNTERS + 1,
        2 => random.index(COUNTERS),
        _ => COUNTERS,
    }
}

/// Mostly one of the usual numbers, if there are any.
pub fn random_number(random: &mut Random, usual: &[usize], unusual: &[usize]) -> usize {
    match random.between(0, 19) {
        0 => random.pick(&[FLOW_NUMBERS, FLOW_NUMBERS + 1, OF_8_BITS as usize]),
        1..=2 if !unusual.is_empty() => random.pick(unusual),
        _ if !usual.is_empty() => random.pick(usual),
        _ => random.index(FLOW_NUMBERS),
    }
}

/// Mostly a node with a link. Without links the root or node 1.
pub fn random_node(random: &mut Random, site: &Site) -> usize {
    let links = site.links as usize;
    match random.between(0, 29) {
        0 => 0,
        1 => random.pick(&[links + 1, links + 1, OF_8_BITS as usize]),
        _ if links == 0 => random.index(2),
        _ => 1 + random.index(links),
    }
}

/// Whether the period of a link is below its wanted gap.
pub fn has_short_period(site: &Site, link: usize) -> bool {
    site.periods[link - 1] < site.gaps[link - 1]
}

/// Whether a link from a node up to the root has such a period.
pub fn has_short_route(site: &Site, node: usize) -> bool {
    let mut links = route(&site.parents, node).into_iter();
    links.any(|link| has_short_period(site, link))
}

/// Often a node with such a route, if there is any.
fn random_entry(random: &mut Random, site: &Site) -> usize {
    let mut nodes = site.nodes();
    nodes.retain(|&node| has_short_route(site, node));
    if nodes.is_empty() || random.chance(50) {
        return random_node(random, site);
    }
    random.pick(&nodes)
}

/// The largest rate that all links from a node up to the root have room for.
fn room(site: &Site, node: usize) -> u64 {
    let links = route(&site.parents, node).into_iter();
    let rates = links.map(|link| {
        let left = site.capacities[link - 1] - site.reserved(link);
        left / site.periods[link - 1]
    });
    rates.min().unwrap_or(0)
}

pub fn random_flow(random: &mut Random, site: &Site) -> Flow {
    let entry = random_entry(random, site);
    let (room, bound) = if site.has_entry_node(entry) {
        (room(site, entry), site.periods_up(entry))
    } else {
        (1, 1)
    };
    let any = random.between(1, OF_8_BITS);
    let part = random.between(1, room.max(1));
    let full = room.max(1);
    let rate = random.pick(&[room, full, full, room + 1, room + 1, part, part, 1, any]);
    let later = random.between(bound, OF_16_BITS);
    let short = bound - 1;
    let deadline = random.pick(&[bound, bound, bound + 1, short, short, later, OF_16_BITS]);
    Flow {
        number: random_number(random, &site.numbers_not_live(), &site.live_flows()),
        entry,
        rate: rate.min(OF_8_BITS),
        deadline,
    }
}

/// A slot in which the link sends, or the last one of 32 bits.
fn sending_slot(random: &mut Random, site: &Site, link: usize) -> u64 {
    let (offset, period) = (site.offsets[link - 1], site.periods[link - 1]);
    let any = random_slot_number(random);
    (any - any % period + offset).min(OF_32_BITS)
}

pub fn random_slot_number(random: &mut Random) -> u64 {
    let any = random.between(0, OF_32_BITS);
    random.pick(&[any, any % 2048, OF_32_BITS])
}

fn random_lookup(random: &mut Random, site: &Site) -> Call {
    let node = random_node(random, site);
    if !site.has_entry_node(node) || random.chance(30) {
        return Call::Lookup {
            parent: node,
            slot: random_slot_number(random),
        };
    }
    Call::Lookup {
        parent: site.parents[node - 1] as usize,
        slot: sending_slot(random, site, node),
    }
}

/// Mostly a slot in which a link of a live flow sends.
fn random_slot(random: &mut Random, site: &Site) -> Call {
    let live = site.live_flows();
    let number = if live.is_empty() || random.chance(20) {
        random_slot_number(random)
    } else {
        let route = site.route_of_flow(random.pick(&live));
        let link = random.pick(&route);
        sending_slot(random, site, link)
    };
    Call::Slot {
        lent: random_lent(random),
        arrivals: random_arrivals(random, site),
        number: number as u32,
    }
}

/// For each live flow at most its rate.
pub fn arrivals_within_rates(random: &mut Random, site: &Site) -> Vec<u16> {
    let mut arrivals = vec![0; FLOW_NUMBERS];
    for flow in site.live_flows() {
        let rate = site.rates[flow];
        let part = random.between(0, rate);
        arrivals[flow] = random.pick(&[0, rate, rate, part]) as u16;
    }
    arrivals
}

/// For a few flows more than the rate, for a few numbers that are not live too, and a few lists of another length.
fn random_arrivals(random: &mut Random, site: &Site) -> Vec<u16> {
    let mut arrivals = arrivals_within_rates(random, site);
    let live = site.live_flows();
    while random.chance(25) && !live.is_empty() {
        let flow = random.pick(&live);
        arrivals[flow] = random.pick(&[site.rates[flow] as u16 + 1, u16::MAX]);
    }
    let not_live = site.numbers_not_live();
    while random.chance(15) && !not_live.is_empty() {
        arrivals[random.pick(&not_live)] = random.pick(&[1, 1, u16::MAX]);
    }
    let free = random.index(FLOW_NUMBERS + 2);
    let other = random.pick(&[FLOW_NUMBERS - 1, FLOW_NUMBERS + 1, free]);
    arrivals.truncate(if random.chance(5) {
        other
    } else {
        FLOW_NUMBERS
    });
    arrivals
}

/// Indexes and values of counters of live flows: queues about as long as the width of their link,
/// or nine cells that with the arrival sum to the most that 19 allows, or to one more.
pub fn random_counters(random: &mut Random, site: &Site, arrivals: &[u16]) -> Vec<(usize, u32)> {
    let mut counters = Vec::new();
    let mut live = site.live_flows();
    random.shuffle(&mut live);
    for flow in live.into_iter().take(5) {
        let cells = if random.chance(15) {
            let arrival = arrivals.get(flow).copied().unwrap_or(0);
            cells_at_the_limit(random, u64::from(arrival))
        } else {
            random_queues(random, site, flow)
        };
        counters.extend((flow * CELLS..).zip(cells));
    }
    counters
}

fn cells_at_the_limit(random: &mut Random, arrival: u64) -> Vec<u32> {
    let mut cells: Vec<u64> = (0..CELLS).map(|_| random.between(0, 3)).collect();
    let largest = random.index(CELLS);
    cells[largest] = 0;
    let sum = arrival + cells.iter().sum::<u64>();
    cells[largest] = OF_32_BITS - sum + random.pick(&[0, 0, 1]);
    cells.into_iter().map(|cell| cell as u32).collect()
}

fn random_queues(random: &mut Random, site: &Site, flow: usize) -> Vec<u32> {
    let links = site.route_of_flow(flow).into_iter();
    links
        .map(|link| {
            let width = site.width(flow, link) as u32;
            let any = random.between(0, 3 * u64::from(width)) as u32;
            random.pick(&[0, width - 1, width, width + 1, any])
        })
        .collect()
}

#[cfg(test)]
mod tests {
    use super::*;
    use crate::second::calls::{admission, check_deadline, check_room};
    use crate::second::former::by_wanted_gaps;
    use crate::second::rules::refuse;
    use crate::second::slots::slot;

    /// Admissions that 17 or 18 would refuse by wanted gaps, and such that they refuse on a route with a short period, though not
    /// with one packet less or one slot more.
    #[test]
    fn random_admissions_are_near_the_border_of_17_and_18() {
        let mut random = Random::from_seed(31);
        let [mut wide, mut late, mut over, mut short] = [0; 4];
        for _ in 0..4000 {
            let (_, site) = site_to_alter(&mut random);
            let flow = random_flow(&mut random, &site);
            let (Flow { rate, deadline, .. }, mut after) = (flow, site.clone());
            let accepted = |flow| admission(&mut site.clone(), &mut [0; COUNTERS], flow).is_ok();
            let answer = admission(&mut after, &mut [0; COUNTERS], flow);
            match answer.map_err(|refusal| (refusal.number, refusal.place)) {
                Ok(()) => {
                    let formerly = by_wanted_gaps(&after);
                    wide += u64::from(check_room(&formerly, flow.number).is_err());
                    late += u64::from(check_deadline(&formerly, flow.number).is_err());
                }
                Err((17, link)) if has_short_period(&site, link) => {
                    let rate = rate - 1;
                    over += u64::from(accepted(Flow { rate, ..flow }));
                }
                Err((18, _)) if has_short_route(&site, flow.entry) => {
                    let deadline = deadline + 1;
                    short += u64::from(accepted(Flow { deadline, ..flow }));
                }
                _ => (),
            }
        }
        assert!(wide >= 80 && late >= 100, "{wide} {late}");
        assert!(over >= 40 && short >= 80, "{over} {short}");
    }

    /// Slots in which a link moves rate times period, while rate times wanted gap would be more.
    #[test]
    fn random_slots_have_queues_above_rate_times_period() {
        let mut random = Random::from_seed(32);
        let mut above = 0;
        for _ in 0..2000 {
            let (_, site) = site_to_alter(&mut random);
            let Call::Slot { number, .. } = random_slot(&mut random, &site) else {
                continue;
            };
            let queues = random_counters(&mut random, &site, &[]).into_iter();
            above += queues
                .filter(|&(index, queue)| {
                    let (flow, place) = (index / CELLS, index % CELLS);
                    let link = site.route_of_flow(flow).get(place).copied();
                    link.is_some_and(|link| {
                        let sends = site.sends(link, u64::from(number));
                        let wide = u64::from(queue) > site.width(flow, link);
                        sends && wide && has_short_period(&site, link)
                    })
                })
                .count();
        }
        assert!(above >= 60, "{above}");
    }

    /// The largest sum of nine cells and arrival among the live flows.
    fn largest_sum(site: &Site, counters: &[u32], arrivals: &[u16]) -> u64 {
        let cells = |flow: usize| counters[flow * CELLS..][..CELLS].iter();
        let sum = |flow| cells(flow).map(|&cell| u64::from(cell)).sum::<u64>();
        let sums = site.live_flows().into_iter();
        let sums = sums.map(|flow| sum(flow) + u64::from(arrivals[flow]));
        sums.max().unwrap_or(0)
    }

    /// Sums at the limit and one above it, and numbers not live below a number that 19 names.
    #[test]
    fn random_slots_are_near_the_border_of_19() {
        let mut random = Random::from_seed(12);
        let [mut at_limit, mut above, mut with_20] = [0; 3];
        for _ in 0..4000 {
            let (_, site) = site_to_alter(&mut random);
            let arrivals = random_arrivals(&mut random, &site);
            let mut counters = [1; COUNTERS];
            for (index, value) in random_counters(&mut random, &site, &arrivals) {
                counters[index] = value;
            }
            if arrivals.len() != FLOW_NUMBERS {
                continue;
            }
            let sum = largest_sum(&site, &counters, &arrivals);
            let mut not_live = site.numbers_not_live().into_iter();
            let first_of_20 = not_live.find(|&flow| arrivals[flow] > 0);
            match slot(&site, &mut counters, &arrivals, 0) {
                Ok(()) => at_limit += u64::from(sum == OF_32_BITS),
                Err(refusal) if refusal.number == 19 => {
                    above += u64::from(sum == OF_32_BITS + 1);
                    with_20 += u64::from(first_of_20.is_some_and(|flow| flow < refusal.place));
                }
                answer => assert_eq!(answer, refuse(20, first_of_20.unwrap_or_default())),
            }
        }
        assert!(
            at_limit >= 30 && above >= 30 && with_20 >= 5,
            "{at_limit} {above} {with_20}"
        );
    }
}
