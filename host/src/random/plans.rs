//! Random plans: sound ones, some with a parent, link or flow just beyond its rule.

use crate::random::gaps::{doubtful_gaps, fitting_gaps, roomy_gaps};
use crate::random::generator::Random;
use crate::second::bytes::{flow_command, node_command};
use crate::second::rules::{
    assign, children, route, Flow, CAPACITIES, DEADLINES, FLOW_NUMBERS, MOST_DEPTH, MOST_LINKS,
    RATES,
};

/// A plan before it is written as bytes. It may have more nodes or levels than 01 allows.
struct Draft {
    parents: Vec<u64>,
    capacities: Vec<u64>,
    gaps: Vec<u64>,
    /// What the slot rule assigns for the gaps; under a crowded parent the gaps themselves.
    periods: Vec<u64>,
    flows: Vec<Flow>,
}

/// How the nodes of a tree are hung up.
#[derive(Clone, Copy)]
enum Habit {
    Anywhere,
    Deep,
    UnderTheRoot,
}

/// The commands of a random plan, without END. A few plans have no node, and so no flow either.
pub fn random_commands(random: &mut Random) -> Vec<Vec<u8>> {
    let links = random_link_count(random);
    if links == 0 {
        return Vec::new();
    }
    let parents = random_tree(random, links);
    let mut draft = Draft {
        capacities: vec![0; links],
        gaps: vec![0; links],
        periods: vec![0; links],
        parents,
        flows: Vec::new(),
    };
    let doubtful = random.chance(12);
    draft.choose_gaps(random, doubtful);
    draft.choose_flows(random);
    draft.choose_capacities(random);
    if random.chance(10) {
        draft.overfill_a_link(random);
    }
    if random.chance(12) {
        draft.delay_flows(random);
    }
    draft.commands()
}

fn random_link_count(random: &mut Random) -> usize {
    match random.between(0, 99) {
        0..=3 => 0,
        4..=49 => 1 + random.index(6),
        50..=84 => 6 + random.index(8),
        85..=91 => 17 + random.index(MOST_LINKS - 17),
        92..=94 => MOST_LINKS,
        _ => MOST_LINKS + 1 + random.index(2),
    }
}

fn random_tree(random: &mut Random, links: usize) -> Vec<u64> {
    let habits = [Habit::Anywhere, Habit::Deep, Habit::UnderTheRoot];
    let habit = random.pick(&habits);
    let levels = if random.chance(20) {
        MOST_DEPTH + 2
    } else {
        MOST_DEPTH
    };
    let mut parents = Vec::new();
    for _ in 0..links {
        let parent = random_parent(random, &parents, habit, levels);
        parents.push(parent as u64);
    }
    parents
}

fn random_parent(random: &mut Random, parents: &[u64], habit: Habit, levels: usize) -> usize {
    let newest = parents.len();
    let possible: Vec<usize> = (0..=newest)
        .filter(|&node| route(parents, node).len() < levels)
        .collect();
    match habit {
        Habit::Deep if possible.contains(&newest) && random.chance(80) => newest,
        Habit::UnderTheRoot if random.chance(85) => 0,
        _ => random.pick(&possible),
    }
}

/// Numbers 0 to 63 in rising order, some of them or all.
fn random_flow_numbers(random: &mut Random) -> Vec<usize> {
    let count = match random.between(0, 99) {
        0..=19 => 0,
        20..=69 => 1 + random.index(4),
        70..=89 => 5 + random.index(16),
        _ => FLOW_NUMBERS,
    };
    let mut numbers: Vec<usize> = (0..FLOW_NUMBERS).collect();
    random.shuffle(&mut numbers);
    numbers.truncate(count);
    numbers.sort();
    numbers
}

/// At least what periods need, which is often taken itself, and within the limit. Some are below what wanted gaps would need.
fn at_least(random: &mut Random, [least, wanted]: [u64; 2], limit: u64) -> u64 {
    match random.between(0, 9) {
        0..=3 => least,
        4 => random.between(least, wanted.clamp(least, limit)),
        5..=6 => random.between(least, (least + 20).min(limit)),
        7 => limit,
        _ => random.between(least, limit),
    }
}

impl Draft {
    fn choose_gaps(&mut self, random: &mut Random, doubtful: bool) {
        for parent in 0..=self.parents.len() {
            let children = children(&self.parents, parent);
            if children.is_empty() {
                continue;
            }
            let gaps = match random.between(0, 9) {
                0..=4 if doubtful => doubtful_gaps(random, children.len()),
                0..=6 => fitting_gaps(random, children.len()),
                _ => roomy_gaps(random, children.len()),
            };
            let periods = assign(&gaps).map_or(gaps.clone(), |assigned| assigned.periods);
            for (index, node) in children.into_iter().enumerate() {
                self.gaps[node - 1] = gaps[index];
                self.periods[node - 1] = periods[index];
            }
        }
    }

    /// The sum of the widths on each link, where a width is the rate times the link's number in a list.
    fn reserved(&self, of_links: &[u64]) -> Vec<u64> {
        let mut reserved = vec![0; self.parents.len()];
        for flow in &self.flows {
            for link in route(&self.parents, flow.entry) {
                reserved[link - 1] += flow.rate * of_links[link - 1];
            }
        }
        reserved
    }

    /// The sum of the links' numbers in a list from a node up to the root.
    fn sum_up(&self, node: usize, of_links: &[u64]) -> u64 {
        let links = route(&self.parents, node);
        links.iter().map(|link| of_links[link - 1]).sum()
    }

    /// A flow that would bring a link above the largest capacity is left out, but for a few.
    fn choose_flows(&mut self, random: &mut Random) {
        for number in random_flow_numbers(random) {
            let most = random.pick(&[1, 3, 3, 40, *RATES.end()]);
            let entry = 1 + random.index(self.parents.len());
            let needed = [&self.periods, &self.gaps].map(|list| self.sum_up(entry, list));
            let flow = Flow {
                number,
                entry,
                rate: random.between(1, most),
                deadline: at_least(random, needed, *DEADLINES.end()),
            };
            self.flows.push(flow);
            let too_much = |&reserved: &u64| reserved > *CAPACITIES.end();
            if self.reserved(&self.periods).iter().any(too_much) && random.chance(99) {
                self.flows.pop();
            }
        }
    }

    /// In some plans each link has room for other flows, whose rates sum to a number of its own.
    fn choose_capacities(&mut self, random: &mut Random) {
        let most = *CAPACITIES.end();
        let room = random.pick(&[0, 0, 0, 4, 30]);
        let lists = [&self.periods, &self.gaps];
        let reserved = lists.map(|list| self.reserved(list));
        for index in 0..self.parents.len() {
            let rate = random.between(0, room);
            let needed = [0, 1].map(|of| reserved[of][index] + rate * lists[of][index]);
            let least = needed[0].clamp(1, most);
            self.capacities[index] = at_least(random, [least, needed[1]], most);
        }
    }

    /// One packet less than is reserved, on one link or several.
    fn overfill_a_link(&mut self, random: &mut Random) {
        let reserved = self.reserved(&self.periods);
        let mut full: Vec<usize> = (0..reserved.len())
            .filter(|&index| (2..=*CAPACITIES.end()).contains(&reserved[index]))
            .collect();
        random.shuffle(&mut full);
        full.truncate(random.pick(&[1, 1, 3]));
        for index in full {
            self.capacities[index] = reserved[index] - 1;
        }
    }

    /// One slot less than the periods, for one flow or several.
    fn delay_flows(&mut self, random: &mut Random) {
        for _ in 0..random.pick(&[1, 1, 3]).min(self.flows.len()) {
            let index = random.index(self.flows.len());
            let sum = self.sum_up(self.flows[index].entry, &self.periods);
            self.flows[index].deadline = (sum - 1).max(1);
        }
    }

    fn commands(&self) -> Vec<Vec<u8>> {
        let nodes = self.parents.iter().zip(&self.capacities).zip(&self.gaps);
        let nodes = nodes.map(|((&parent, &capacity), &gap)| node_command(parent, capacity, gap));
        let flows = self.flows.iter().map(|flow| {
            let (number, entry) = (flow.number as u64, flow.entry as u64);
            flow_command(number, entry, flow.rate, flow.deadline)
        });
        nodes.chain(flows).collect()
    }
}

#[cfg(test)]
mod tests {
    use super::*;
    use crate::random::calls::{has_short_period, has_short_route};
    use crate::random::damage::undamaged_plan;
    use crate::second::bytes::{read_assigned, read_plan};
    use crate::second::former::by_wanted_gaps;

    /// Plans that 12 or 13 would refuse by wanted gaps, and such that they refuse for one packet or one slot at short periods.
    #[test]
    fn random_plans_are_near_the_border_of_12_and_13() {
        let mut random = Random::from_seed(33);
        let [mut wide, mut late, mut over, mut short] = [0; 4];
        for _ in 0..4000 {
            let plan = undamaged_plan(&mut random);
            let Ok(site) = read_assigned(&plan) else {
                continue;
            };
            let answer = read_plan(&plan).map_err(|refusal| (refusal.number, refusal.place));
            match answer {
                Ok(_) => {
                    let formerly = by_wanted_gaps(&site);
                    wide += u64::from(formerly.check_widths().is_err());
                    late += u64::from(formerly.check_deadlines().is_err());
                }
                Err((12, link)) if has_short_period(&site, link) => {
                    over += u64::from(site.reserved(link) == site.capacities[link - 1] + 1);
                }
                Err((13, flow)) if has_short_route(&site, site.entries[flow] as usize) => {
                    short += u64::from(site.bound(flow) == site.deadlines[flow] + 1);
                }
                _ => (),
            }
        }
        assert!(wide >= 400 && late >= 400, "{wide} {late}");
        assert!(over >= 40 && short >= 60, "{over} {short}");
    }
}
